//! The library's calls against those of a former library (rows.rs): what a change costs the calls that it does not touch.
//!
//! The former library's calls are linked under other names, so that both run in one process. Each runs the images that it has compiled
//! itself: a library from before there were tables refuses those of today.
#[allow(dead_code)]
#[path = "../cases/generate.rs"]
mod generate;
#[allow(dead_code)]
#[path = "../cases/images.rs"]
mod images;
#[allow(dead_code)]
#[path = "../library.rs"]
mod library;
#[allow(dead_code)]
#[path = "../cases/parts.rs"]
mod parts;
#[allow(dead_code)]
#[path = "../cases/random.rs"]
mod random;
#[allow(dead_code, unused_imports)]
#[path = "../reference/mod.rs"]
mod reference;
#[allow(dead_code)]
mod rows;
#[allow(dead_code)]
#[path = "../cases/tables.rs"]
mod tables;

use generate::Pair;
use rows::{images_of, measure, print, program_a, program_of, row, Call, Row, ROUNDS};
use std::hint::black_box;

mod former {
    super::library::stepping_calls!(former_compile, former_reset, former_cycle);
}

type Compile = fn(&[u8], &[u8], &mut [u8]) -> u64;
type Reset = fn(&[u8], &mut [i32]) -> u64;
type Cycle = fn(&[u8], &mut [i32], &[i32]) -> u64;
const COMPILE: [Compile; 2] = [library::compile, former::compile];
const RESET: [Reset; 2] = [library::reset, former::reset];
const CYCLE: [Cycle; 2] = [library::cycle, former::cycle];

/// An image in the form that each library takes.
type Images = [Vec<u8>; 2];

fn stated(image: &[u8]) -> usize {
    u16::from_le_bytes([image[2], image[3]]).into()
}

/// What each library compiles a pair to, without the tail: older libraries write none.
fn compiled(pair: &Pair) -> Images {
    COMPILE.map(|compile| {
        let mut image = vec![0; 30_000];
        assert!(compile(&pair.program, &pair.schedule, &mut image) < 1 << 32);
        image.truncate(stated(&image));
        image
    })
}

/// An image that no program was compiled to.
fn foreign(image: Vec<u8>) -> Images {
    RESET.map(|reset| match reset(&image, &mut [0; 65]) {
        0 => image.clone(),
        _ => images::before_tables(&image).expect("an image without rows"),
    })
}

fn compile_row(name: &str, pair: &Pair) -> Row {
    let [length, _] = compiled(pair).map(|image| image.len());
    let sides = COMPILE.map(|compile| -> Call {
        let (program, schedule, mut image) = (pair.program.clone(), pair.schedule.clone(), vec![0; 30_000]);
        Box::new(move || assert!(compile(black_box(&program), black_box(&schedule), &mut image) < 1 << 32))
    });
    row(format!("compile {name}"), length, sides)
}

fn reset_row(name: &str, images: &Images) -> Row {
    let side = |library: usize| -> Call {
        let (reset, image) = (RESET[library], images[library].clone());
        let mut state = vec![7; usize::from(image[1]) + 1];
        Box::new(move || assert_eq!(reset(black_box(&image), &mut state), 0))
    };
    row(format!("reset {name}"), images[0].len(), [side(0), side(1)])
}

/// That both leave the same words is seen before.
fn cycle_row(name: &str, images: &Images) -> Row {
    let samples: Vec<i32> = (0..i32::from(images[0][1])).map(|signal| signal * 77 - 5).collect();
    let [mut state, mut other] = [0, 1].map(|library| {
        let mut state = vec![0; samples.len() + 1];
        assert_eq!(RESET[library](&images[library], &mut state), 0);
        state
    });
    for _ in 0..500 {
        library::cycle(&images[0], &mut state, &samples);
        former::cycle(&images[1], &mut other, &samples);
        assert_eq!(state, other);
    }
    let side = |library: usize| -> Call {
        let (cycle, image, mut state, samples) = (CYCLE[library], images[library].clone(), state.clone(), samples.clone());
        Box::new(move || assert!(cycle(black_box(&image), &mut state, &samples) < 1 << 32))
    };
    row(format!("cycle {name}"), images[0].len(), [side(0), side(1)])
}

fn main() {
    let (small, large) = (program_a(), program_of(64, &[1, 2, 8, 24, 240], 240));
    let mut rows = vec![compile_row("program A", &small), compile_row("64 signals", &large)];
    let [(first, _), (second, _), others @ ..] = images_of(&small, &large);
    let mut images = vec![(first, compiled(&small)), (second, compiled(&large))];
    images.extend(others.map(|(name, image)| (name, foreign(image))));
    rows.extend(images.iter().map(|(name, images)| reset_row(name, images)));
    rows.extend(images.iter().map(|(name, images)| cycle_row(name, images)));
    measure(&mut rows, ROUNDS);
    println!("medians of {ROUNDS} interleaved rounds; buffers and states not cleared between calls\n");
    print("call", "L", ["now", "former"], &mut rows);
}
