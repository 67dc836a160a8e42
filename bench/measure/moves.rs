//! A list of moves beside one compile of the same pair, both by the library, and against the reference, which tries every phase.
use crate::generate::Pair;
use crate::rows::{measure, print, random_pairs, row, unread, Call, Row, ROUNDS};
use crate::{library, reference};
use std::hint::black_box;
use std::time::Instant;

/// The reference takes too long for more.
const FEW_ROUNDS: usize = 5;
const PAIRS: usize = 1500;
const LIST_BYTES: usize = 30_720;
const IMAGE_BYTES: usize = 24_679;

/// How many entries the pair has. That both calls list the same is seen before.
fn entries(pair: &Pair) -> usize {
    let (mut ours, mut other) = (vec![0; LIST_BYTES], vec![0; LIST_BYTES]);
    let count = reference::moves(&pair.program, &pair.schedule, &mut other).expect("a legal pair");
    assert_eq!(library::moves(&pair.program, &pair.schedule, &mut ours), count as u64);
    assert_eq!(ours, other);
    count
}

pub fn list(pair: &Pair) -> impl FnMut() + use<> {
    let (pair, mut list) = (pair.clone(), vec![0; LIST_BYTES]);
    move || assert!(library::moves(black_box(&pair.program), black_box(&pair.schedule), &mut list) < 1 << 32)
}

fn compile(pair: &Pair) -> impl FnMut() + use<> {
    let (pair, mut image) = (pair.clone(), vec![0; IMAGE_BYTES]);
    move || assert!(library::compile(black_box(&pair.program), black_box(&pair.schedule), &mut image) < 1 << 32)
}

pub fn try_every(pair: &Pair) -> impl FnMut() + use<> {
    let (pair, mut list) = (pair.clone(), vec![0; LIST_BYTES]);
    move || assert!(reference::moves(black_box(&pair.program), black_box(&pair.schedule), &mut list).is_ok())
}

/// The least times of both calls, taken in turns.
fn least(mut calls: [&mut dyn FnMut(); 2]) -> [f64; 2] {
    let mut times = [f64::INFINITY; 2];
    for _ in 0..21 {
        for (time, call) in times.iter_mut().zip(&mut calls) {
            let start = Instant::now();
            (0..4).for_each(|_| call());
            *time = time.min(start.elapsed().as_nanos() as f64 / 4.0);
        }
    }
    times
}

/// Random pairs one by one: both calls in sum, and the most compiles that one list takes, less 2 ns an entry.
fn print_random() {
    let (mut sums, mut most) = ([0.0; 2], 0.0f64);
    for pair in random_pairs(PAIRS) {
        let times = least([&mut list(&pair), &mut compile(&pair)]);
        sums = [sums[0] + times[0], sums[1] + times[1]];
        most = most.max((times[0] - 2.0 * entries(&pair) as f64) / times[1]);
    }
    let [lists, compiles] = sums;
    println!("{PAIRS} random pairs: in sum {:.2} compiles; at most {most:.2} compiles and 2 ns an entry", lists / compiles);
}

pub fn run(small: &Pair, large: &Pair) {
    let (free, capped) = (unread(64, false), unread(64, true));
    let pairs = [("program A", small), ("64 signals", large), ("64 unread signals", &free), ("64 unread signals, CAP", &capped)];
    let named = |name: &str, pair: &Pair, other: Call| row(format!("moves of {name}"), entries(pair), [Box::new(list(pair)), other]);
    let beside = |&(name, pair): &(&str, &Pair)| named(name, pair, Box::new(compile(pair)));
    let mut rows: Vec<Row> = pairs.iter().map(beside).collect();
    measure(&mut rows, ROUNDS);
    print("moves beside a compile", "entries", ["moves", "compile"], &mut rows);
    let against = |&(name, pair): &(&str, &Pair)| named(name, pair, Box::new(try_every(pair)));
    let mut rows: Vec<Row> = pairs.iter().map(against).collect();
    measure(&mut rows, FEW_ROUNDS);
    print("moves by trying every phase", "entries", ["ours", "Rust"], &mut rows);
    print_random();
}
