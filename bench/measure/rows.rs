//! Rows of a benchmark: the same call by two sides, the medians of one interleaved run.
//!
//! Every round goes through all rows, and in a row through both sides, so that what disturbs the machine disturbs both. Buffers
//! and states are used again and not cleared first.
use crate::generate::{self, Pair, Shape, Twist};
use crate::images;
use crate::parts::{self, Fault, Join};
use crate::random::Random;
use crate::reference;
use std::time::Instant;

pub const ROUNDS: usize = 201;
/// How long one side of a row takes in a round, so that the clock's own time does not count.
const BATCH_NANOSECONDS: f64 = 100_000.0;
const SEED: u64 = 20_260_101;

pub type Call = Box<dyn FnMut()>;

pub struct Row {
    name: String,
    /// The length of the image, or the entries of a list.
    length: usize,
    calls: [Call; 2],
    repeats: usize,
    times: [Vec<f64>; 2],
}

fn nanoseconds(repeats: usize, call: &mut Call) -> f64 {
    let start = Instant::now();
    for _ in 0..repeats {
        call();
    }
    start.elapsed().as_nanos() as f64 / repeats as f64
}

pub fn row(name: String, length: usize, mut calls: [Call; 2]) -> Row {
    // The first call warms up, the second tells how often to repeat.
    let slowest = calls.iter_mut().map(|call| nanoseconds(1, call).min(nanoseconds(1, call))).fold(1.0, f64::max);
    let repeats = (BATCH_NANOSECONDS / slowest).ceil() as usize;
    Row { name, length, calls, repeats, times: [vec![], vec![]] }
}

pub fn program_a() -> Pair {
    let program = [
        0x10, 1, 0, 0, 0, 0, 0x11, 2, 5, 0, 0, 0, 3, 0, 0x23, 0, 1, 2, 0x11, 1, 0, 0, 0, 0, 1, 0, 0x30, 0x25, 1, 0xFF, 2, 0x22,
        2, 0,
    ];
    let schedule = [0x40, 0, 0, 0x40, 1, 1, 0x40, 2, 0, 0];
    Pair { program: program.to_vec(), schedule: schedule.to_vec(), expected: 0 }
}

/// A legal program of so many signals, with as long expressions for each as the text's bound allows for 64.
pub fn program_of(signals: usize, periods: &[usize], hypercycle: usize) -> Pair {
    let bytes = signals * 124;
    let chains = signals / 4;
    let shape = Shape {
        signals,
        periods: periods.to_vec(),
        hypercycle,
        depth: 16,
        bushy: true,
        chains,
        capped: true,
        tagged: false,
        rows: 0,
        least: 2,
        bytes,
    };
    let mut random = Random(SEED);
    loop {
        let pair = generate::pair(&mut random, &shape, Twist::None);
        if pair.expected == 0 {
            return pair;
        }
    }
}

pub fn image_of(pair: &Pair) -> Vec<u8> {
    let mut image = vec![0; 24_679];
    let length = reference::compile(&pair.program, &pair.schedule, &mut image).expect("a legal pair");
    image.truncate(length);
    image
}

/// A sum of leaves, as flat as it can be.
fn sum_of(leaves: &[Vec<u8>]) -> Vec<u8> {
    match leaves {
        [leaf] => leaf.clone(),
        _ => {
            let (first, second) = leaves.split_at(leaves.len() / 2);
            [vec![0x30], sum_of(first), sum_of(second)].concat()
        }
    }
}

fn pair_of(commands: &[Vec<u8>], schedule: &[u8]) -> Pair {
    Pair { program: [&commands.concat()[..], &[0]].concat(), schedule: schedule.to_vec(), expected: 0 }
}

/// 16 chains of 16 links, all over one equation of some 7,600 bytes that reads itself once, at its end; hypercycle 240.
pub fn long_chains() -> Pair {
    let mut leaves = vec![vec![0x20, 1, 0, 0, 0]; 1264];
    leaves.push(vec![0x22, 0]);
    let equation = [vec![0x11, 1, 0, 0, 0, 0, 0, 0], sum_of(&leaves)].concat();
    let chain = [vec![0x12, 1, 0xFF, 0xFF], [0x13, 0].repeat(16)].concat();
    let mut commands = vec![chain; 16];
    commands.extend([equation, vec![0x10, 240, 0, 0, 0, 0]]);
    pair_of(&commands, &[0x40, 0, 0, 0x40, 1, 0, 0])
}

/// So many open reads by 240 that settle at 239.
pub fn open_reads(reads: usize) -> Pair {
    let equation = [vec![0x11, 240, 0, 0, 0, 0, 0, 0], sum_of(&vec![vec![0x23, 0, 255, 240]; reads])].concat();
    pair_of(&[vec![0x10, 1, 0, 0, 0, 0], equation], &[0x40, 0, 0, 0x40, 1, 239, 0])
}

/// 32 rows of 2^27 words, and 63 equations that look up the sum of an input and their own last word. The result of a row lies in the
/// middle of another one, so that from cycle to cycle an equation goes through all rows, up and down.
pub fn look_ups() -> Pair {
    let next = |row: i32| (5 * row + 7) % 32;
    let middle = |row: i32| i32::MIN + (row << 27) + (1 << 26);
    let words = |words: &[i32]| words.iter().flat_map(|word| word.to_le_bytes()).collect::<Vec<u8>>();
    let row = |row: i32| {
        let low = i32::MIN + (row << 27);
        [vec![0x16], words(&[low, low + ((1 << 27) - 1), middle(next(row))])].concat()
    };
    let equation = |own: u8| {
        let initial = words(&[middle(i32::from(own) % 32)]);
        [vec![0x11, 1], initial, vec![0, 0, 0x3B, 0x30, 0x21, 0, 0x22, own]].concat()
    };
    let mut commands = vec![vec![0x10, 1, 0, 0, 0, 0]];
    commands.extend((0..32).map(next).map(row));
    commands.extend((1..64).map(equation));
    pair_of(&commands, &in_phase_0(64))
}

/// So many signals: inputs first, then equations at the rates 1, 2, 4, 8 and 24, every operand of every operator as deep as its neighbour,
/// so that words lie on the stack.
pub fn balanced(inputs: usize, signals: usize) -> Pair {
    let mut random = Random(SEED);
    let mut periods: Vec<u8> = vec![1; inputs];
    let mut commands = vec![vec![0x10, 1, 0, 0, 0, 0]; inputs];
    for own in inputs..signals {
        let period = random.pick(&[1, 2, 4, 8, 24]);
        let head = [vec![0x11, period], (own as i32).to_le_bytes().to_vec(), vec![1, 0]].concat();
        commands.push([head, balanced_of(&mut random, 4, &periods, period)].concat());
        periods.push(period);
    }
    pair_of(&commands, &in_phase_0(signals))
}

/// The schedule that puts so many signals in phase 0, by number.
fn in_phase_0(signals: usize) -> Vec<u8> {
    let mut schedule: Vec<u8> = (0..signals).flat_map(|signal| [0x40, signal as u8, 0]).collect();
    schedule.push(0);
    schedule
}

/// An expression of this depth over the signals before, for an equation of this period.
fn balanced_of(random: &mut Random, depth: usize, periods: &[u8], period: u8) -> Vec<u8> {
    if depth == 0 {
        return balanced_leaf(random, periods, period);
    }
    let (operator, operands) = match random.below(14) {
        0 => (0x3A, 3),
        1 => (0x38, 1),
        _ => (random.pick(&[0x30, 0x31, 0x32, 0x33, 0x35, 0x36]), 2),
    };
    let mut expression = vec![operator];
    for _ in 0..operands {
        expression.extend(balanced_of(random, depth - 1, periods, period));
    }
    expression
}

/// A constant, a read at the same rate, or one of a faster signal.
fn balanced_leaf(random: &mut Random, periods: &[u8], period: u8) -> Vec<u8> {
    let signals = |kept: &dyn Fn(u8) -> bool| (0..periods.len()).filter(|&x| kept(periods[x])).map(|x| x as u8).collect::<Vec<u8>>();
    let (same, faster) = (signals(&|other| other == period), signals(&|other| other < period && period % other == 0));
    let kind = random.below(4);
    if kind > 1 && !same.is_empty() {
        return vec![0x21, random.pick(&same)];
    }
    if kind == 1 && !faster.is_empty() {
        let read = random.pick(&faster);
        return vec![0x23, read, 0, period / periods[usize::from(read)]];
    }
    [vec![0x20], (random.below(2000) as i32 - 1000).to_le_bytes().to_vec()].concat()
}

/// Equations of period 240 that nobody reads: with CAP, under which each has room in every cycle, or without.
pub fn unread(signals: usize, capped: bool) -> Pair {
    let mut commands = vec![vec![0x11, 240, 0, 0, 0, 0, 1, 0, 0x20, 0, 0, 0, 0]; signals];
    if capped {
        commands.push(vec![0x14, 64, 0, 0, 0]);
    }
    pair_of(&commands, &in_phase_0(signals))
}

/// So many legal pairs as the differential test has them.
pub fn random_pairs(count: usize) -> Vec<Pair> {
    let mut random = Random(SEED);
    let mut pair = || {
        let shape = Shape::any(&mut random);
        generate::pair(&mut random, &shape, Twist::None)
    };
    std::iter::repeat_with(&mut pair).filter(|pair| pair.expected == 0).take(count).collect()
}

/// So many parts, each this pair, the input of each but the first linked to a signal of the one before.
pub fn parts_of(pair: &Pair, parts: usize, signal: u8) -> Join {
    let texts = [&pair.program[..], &pair.schedule].concat();
    let part = [0, pair.program.len(), pair.program.len(), pair.schedule.len()];
    let links = (1..parts as u8).flat_map(|part| [part, 0, part - 1, signal]).collect();
    Join { texts, parts: vec![part; parts], links, fault: Fault::None, expected: 0 }
}

/// Eight random parts with at least so many bytes of program and so many links.
pub fn random_parts(bytes: usize, links: usize) -> Join {
    let mut random = Random(SEED);
    loop {
        let join = parts::join(&mut random, Fault::None);
        let long = join.parts.iter().map(|part| part[1]).sum::<usize>() >= bytes;
        if join.expected == 0 && join.parts.len() == 8 && long && join.links.len() >= 4 * links {
            return join;
        }
    }
}

/// The images that reset and cycle are measured on: of the two programs, and two that no program was compiled to.
pub fn images_of(small: &Pair, large: &Pair) -> [(&'static str, Vec<u8>); 4] {
    let mut random = Random(SEED);
    [
        ("program A", image_of(small)),
        ("64 signals, hypercycle 240", image_of(large)),
        ("64 signals in each of 24 cycles", images::large_image(&mut random, 24)),
        ("64 signals in each of 240 cycles", images::large_image(&mut random, 240)),
    ]
}

pub fn measure(rows: &mut [Row], rounds: usize) {
    for round in 0..rounds {
        for row in rows.iter_mut() {
            // The sides take turns to be first.
            for side in [round % 2, 1 - round % 2] {
                row.times[side].push(nanoseconds(row.repeats, &mut row.calls[side]));
            }
        }
    }
}

fn median(times: &mut [f64]) -> f64 {
    times.sort_by(f64::total_cmp);
    times[times.len() / 2]
}

/// The medians of both sides of a row.
pub fn medians(row: &mut Row) -> [f64; 2] {
    row.times.each_mut().map(|times| median(times))
}

/// The medians of both sides, named, and their ratio.
pub fn print(title: &str, length: &str, sides: [&str; 2], rows: &mut [Row]) {
    let [ours, other] = sides.map(|side| format!("{side} (ns)"));
    let each = format!("ns / {length}");
    println!("{title:<52} {length:>7} {ours:>11} {other:>11} {:>6} {each:>11}", "ratio");
    for row in rows {
        let [ours, other] = medians(row);
        let length = row.length;
        println!("{:<52} {length:>7} {ours:>11.0} {other:>11.0} {:>6.2} {:>11.2}", row.name, ours / other, ours / length as f64);
    }
    println!();
}
