//! The library's calls against the reference built for release (rows.rs).
// The differential test uses the rest of these.
#[allow(dead_code)]
#[path = "../cases/generate.rs"]
mod generate;
#[allow(dead_code)]
#[path = "../cases/images.rs"]
mod images;
#[allow(dead_code)]
#[path = "../library.rs"]
mod library;
#[allow(dead_code)]
#[path = "../cases/parts.rs"]
mod parts;
#[allow(dead_code)]
#[path = "../cases/random.rs"]
mod random;
#[allow(dead_code)]
#[path = "../reference/mod.rs"]
mod reference;
mod growth;
mod moves;
mod rows;
#[allow(dead_code)]
#[path = "../cases/tables.rs"]
mod tables;

use generate::Pair;
use parts::Join;
use rows::{
    balanced, image_of, images_of, long_chains, look_ups, measure, open_reads, parts_of, print, program_a, program_of, random_parts, row,
    Row, ROUNDS,
};
use std::hint::black_box;

const LOOK_UPS: &str = "63 TABLEs, 32 rows";
const BALANCED: &str = "64 signals, balanced";

pub fn compile_row(name: &str, pair: &Pair) -> Row {
    let image = image_of(pair);
    let length = image.len();
    let [(program, schedule), (other_program, other_schedule)] = [0; 2].map(|_| (pair.program.clone(), pair.schedule.clone()));
    let (mut ours, mut other) = (vec![0; length], vec![0; length]);
    assert_eq!(library::compile(&program, &schedule, &mut ours), length as u64);
    assert_eq!(ours, image);
    let name = format!("compile {name}, {} bytes of program", program.len());
    let library = move || {
        let answer = library::compile(black_box(&program), black_box(&schedule), &mut ours);
        assert_eq!(answer, length as u64);
    };
    let reference = move || {
        let answer = reference::compile(black_box(&other_program), black_box(&other_schedule), &mut other);
        assert_eq!(answer, Ok(length));
    };
    row(name, length, [Box::new(library), Box::new(reference)])
}

pub fn join_row(name: &str, join: &Join) -> Row {
    let Join { texts, parts, links, .. } = join;
    let part = |&[a, b, c, d]: &[usize; 4]| reference::Part { program: (a, b), schedule: (c, d) };
    let other_parts: Vec<reference::Part> = parts.iter().map(part).collect();
    let (mut ours, mut other, mut named) = (vec![0; 24_679], vec![0; 24_679], 9);
    let length = reference::join(texts, &other_parts, links, &mut other).expect("a legal join");
    let numbers = parts.concat();
    assert_eq!(library::join(texts, &numbers, links, &mut ours, &mut named), length as u64);
    assert_eq!((&ours, named), (&other, 9));
    let bytes: usize = parts.iter().map(|part| part[1]).sum();
    let name = format!("join {name}, {} links, {bytes} bytes", links.len() / 4);
    let [(texts, links), (other_texts, other_links)] = [0; 2].map(|_| (texts.clone(), links.clone()));
    let library = move || {
        let answer = library::join(black_box(&texts), black_box(&numbers), black_box(&links), &mut ours, &mut named);
        assert_eq!(answer, length as u64);
    };
    let reference = move || {
        let answer = reference::join(black_box(&other_texts), black_box(&other_parts), black_box(&other_links), &mut other);
        assert_eq!(answer, Ok(length));
    };
    row(name, length, [Box::new(library), Box::new(reference)])
}

fn report_row(name: &str, pair: &Pair) -> Row {
    let [(program, schedule), (other_program, other_schedule)] = [0; 2].map(|_| (pair.program.clone(), pair.schedule.clone()));
    let (mut counts, mut other, mut told) = ([0; 240], [0; 240], [0; 2]);
    let sizes = reference::report(&program, &schedule, &mut other).expect("a legal pair");
    let length = sizes.length;
    assert_eq!(library::report(&program, &schedule, &mut counts, &mut told), length as u64);
    assert_eq!((counts, told), (other, [sizes.written, sizes.stack]));
    let library = move || {
        let answer = library::report(black_box(&program), black_box(&schedule), &mut counts, &mut told);
        assert_eq!(answer, length as u64);
    };
    let reference = move || {
        let answer = reference::report(black_box(&other_program), black_box(&other_schedule), &mut other);
        assert_eq!(answer, Ok(sizes));
    };
    row(format!("report {name}"), length, [Box::new(library), Box::new(reference)])
}

pub fn reset_row(name: &str, image: &[u8]) -> Row {
    let words = usize::from(image[1]) + 1;
    let [lent, other_lent] = [0; 2].map(|_| image.to_vec());
    let (mut state, mut other) = (vec![7; words], vec![7; words]);
    let library = move || assert_eq!(library::reset(black_box(&lent), &mut state), 0);
    let reference = move || assert_eq!(reference::reset(black_box(&other_lent), &mut other), Ok(()));
    row(format!("reset {name}"), image.len(), [Box::new(library), Box::new(reference)])
}

pub fn cycle_row(name: &str, image: &[u8]) -> Row {
    let signals = i32::from(image[1]);
    let samples: Vec<i32> = (0..signals).map(|signal| signal * 77 - 5).collect();
    let other_samples = samples.clone();
    let [lent, other_lent] = [0; 2].map(|_| image.to_vec());
    let mut state = vec![0; samples.len() + 1];
    reference::reset(image, &mut state).expect("a well-formed image");
    let mut other = state.clone();
    for _ in 0..500 {
        let commands = reference::cycle(image, &mut other, &samples).expect("a well-formed image");
        assert_eq!(library::cycle(image, &mut state, &samples), commands.into());
        assert_eq!(state, other);
    }
    let library = move || assert!(library::cycle(black_box(&lent), &mut state, &samples) < 1 << 32);
    let reference = move || assert!(reference::cycle(black_box(&other_lent), &mut other, &other_samples).is_ok());
    row(format!("cycle {name}"), image.len(), [Box::new(library), Box::new(reference)])
}

/// A turn of a board whose other places are idle, against a cycle of the same image, both by the library. That both leave the same
/// words is seen before; what is measured marks the place, by the call too, and reads that it was this one that ran.
fn turn_row(name: &str, image: &[u8]) -> Row {
    let samples: Vec<i32> = (0..256).map(|sample| sample % 64 * 77 - 5).collect();
    let other_samples = samples.clone();
    let [lent, other_lent] = [0; 2].map(|_| image.to_vec());
    let (mut record, mut outcome) = (library::board_new(), [0; 3]);
    let (mut state, mut other) = (vec![0; 260], vec![0; 65]);
    assert_eq!(library::board_load(&mut record, &lent, &mut state, 0, 0, lent.len()), 0);
    assert_eq!(library::reset(&lent, &mut other), 0);
    for turn in 1..=500 {
        assert_eq!(library::board_mark(&mut record, 0), 0);
        assert_eq!(library::board_turn(&mut record, &lent, &mut state, &samples, &mut outcome), 0);
        let commands = library::cycle(&lent, &mut other, &samples[..64]);
        assert_eq!(outcome.map(u64::from), [1, 0, commands]);
        assert_eq!((&state[..65], record[3]), (&other[..], turn));
    }
    let turn = move || {
        assert_eq!(library::board_mark(&mut record, 0), 0);
        assert_eq!(library::board_turn(&mut record, black_box(&lent), &mut state, &samples, &mut outcome), 0);
        assert_eq!((outcome[0], outcome[1]), (1, 0));
    };
    let cycle = move || assert!(library::cycle(black_box(&other_lent), &mut other, &other_samples[..64]) < 1 << 32);
    row(format!("turn {name}"), image.len(), [Box::new(turn), Box::new(cycle)])
}

fn main() {
    let (small, large, look_ups) = (program_a(), program_of(64, &[1, 2, 8, 24, 240], 240), look_ups());
    let balanced = balanced(8, 64);
    let pairs = [("program A", &small), ("64 signals", &large), (LOOK_UPS, &look_ups), (BALANCED, &balanced)];
    let mut rows: Vec<Row> = pairs.iter().map(|(name, pair)| compile_row(name, pair)).collect();
    rows.extend([join_row("8 parts of program A", &parts_of(&small, 8, 2)), join_row("8 random parts", &random_parts(4000, 12))]);
    rows.extend(pairs.iter().map(|(name, pair)| report_row(name, pair)));
    let mut images = images_of(&small, &large).to_vec();
    images.extend([(LOOK_UPS, image_of(&look_ups)), (BALANCED, image_of(&balanced))]);
    rows.extend(images.iter().map(|(name, image)| reset_row(name, image)));
    rows.extend(images.iter().map(|(name, image)| cycle_row(name, image)));
    let calls = rows.len();
    rows.extend(images.iter().map(|(name, image)| turn_row(name, image)));
    let turns = rows.len();
    for signals in [4, 8, 16, 32, 64] {
        rows.push(compile_row(&format!("{signals} signals"), &program_of(signals, &[1, 2, 4, 8, 24], 24)));
    }
    rows.extend([compile_row("long chains", &long_chains()), compile_row("open reads", &open_reads(1560))]);
    measure(&mut rows, ROUNDS);
    println!("medians of {ROUNDS} interleaved rounds; buffers and states not cleared between calls\n");
    print("call", "L", ["ours", "Rust"], &mut rows[..calls]);
    print("a turn beside a cycle of its image", "L", ["turn", "cycle"], &mut rows[calls..turns]);
    print("compile by length and shape", "L", ["ours", "Rust"], &mut rows[turns..]);
    moves::run(&small, &large);
    growth::run();
}
