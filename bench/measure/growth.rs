//! How the cost of a call grows with the size of what it is lent: the straight line that fits best, ours and the reference's.
use crate::generate::Pair;
use crate::moves::{list, try_every};
use crate::rows::{balanced, image_of, measure, medians, open_reads, parts_of, program_a, row, unread, Row};
use crate::{compile_row, cycle_row, join_row, reference, reset_row};

const ROUNDS: usize = 101;

/// A call over a range of sizes: what is counted, and a row for each size.
struct Series {
    name: &'static str,
    unit: &'static str,
    sizes: Vec<f64>,
    rows: Vec<Row>,
}

fn series<T>(name: &'static str, unit: &'static str, cases: &[T], size: impl Fn(&T) -> f64, row: impl Fn(&T) -> Row) -> Series {
    Series { name, unit, sizes: cases.iter().map(size).collect(), rows: cases.iter().map(row).collect() }
}

/// What the line starts at, and by how much it rises for one more.
fn line(sizes: &[f64], times: &[f64]) -> [f64; 2] {
    let count = sizes.len() as f64;
    let mean = |values: &[f64]| values.iter().sum::<f64>() / count;
    let (size, time) = (mean(sizes), mean(times));
    let both: f64 = sizes.iter().zip(times).map(|(x, y)| (x - size) * (y - time)).sum();
    let rise = both / sizes.iter().map(|x| (x - size).powi(2)).sum::<f64>();
    [time - rise * size, rise]
}

fn print(name: &str, unit: &str, sizes: &[f64], times: [Vec<f64>; 2]) {
    let range = format!("{:.0} to {:.0}", sizes[0], sizes[sizes.len() - 1]);
    let [[fixed, ours], [_, other]] = times.map(|times| line(sizes, &times));
    println!("{name:<52} {unit:>16} {range:>16} {ours:>9.2} {other:>9.2} {:>6.2} {fixed:>9.0}", ours / other);
}

/// The commands that a cycle runs, in the mean over a hypercycle.
fn commands(image: &[u8]) -> f64 {
    let (cycles, signals) = (usize::from(image[0]), usize::from(image[1]));
    let (mut state, samples) = (vec![0; signals + 1], vec![0; signals]);
    reference::reset(image, &mut state).expect("a well-formed image");
    let run = (0..cycles).map(|_| f64::from(reference::cycle(image, &mut state, &samples).expect("a well-formed image")));
    run.sum::<f64>() / cycles as f64
}

fn moves_row(pair: &Pair) -> Row {
    row(String::new(), 0, [Box::new(list(pair)), Box::new(try_every(pair))])
}

pub fn run() {
    let pairs: Vec<Pair> = [9, 16, 24, 32, 40, 48, 56, 64].map(|signals| balanced(8, signals)).into();
    let images: Vec<Vec<u8>> = pairs.iter().map(image_of).collect();
    let reads: Vec<Pair> = [100, 200, 400, 800, 1560].map(open_reads).into();
    let idle: Vec<Pair> = [8, 16, 32, 64].map(|signals| unread(signals, true)).into();
    let (small, part) = (program_a(), balanced(1, 8));
    let counts: Vec<usize> = (1..=8).collect();
    let bytes = |pair: &Pair| pair.program.len() as f64;
    let mut all = [
        series("compile, balanced, 9 to 64 signals", "byte of program", &pairs, bytes, |pair| compile_row("", pair)),
        series("compile, open reads", "read", &reads, |pair| (bytes(pair) - 14.0) / 5.0, |pair| compile_row("", pair)),
        series("reset, balanced, 9 to 64 signals", "byte of image", &images, |image| image.len() as f64, |image| reset_row("", image)),
        series("cycle, the same, its reset included", "command run", &images, |image| commands(image), |image| cycle_row("", image)),
        series("moves, open reads", "read", &reads, |pair| (bytes(pair) - 14.0) / 5.0, moves_row),
        series("moves, signals that nobody reads, CAP", "entry", &idle, |pair| (bytes(pair) - 6.0) / 13.0 * 240.0, moves_row),
        series("join, parts of program A", "part", &counts, |&count| count as f64, |&count| join_row("", &parts_of(&small, count, 2))),
        series("join, parts of 8 balanced signals", "byte of programs", &counts, |&count| count as f64 * bytes(&part), |&count| {
            join_row("", &parts_of(&part, count, 0))
        }),
    ];
    for Series { rows, .. } in &mut all {
        measure(rows, ROUNDS);
    }
    println!("{:<52} {:>16} {:>16} {:>9} {:>9} {:>6} {:>9}", "growth: ns for one more", "of", "from", "ours", "Rust", "ratio", "fixed");
    let mut resets = [vec![], vec![]];
    for Series { name, unit, sizes, rows } in &mut all {
        let mut times = [vec![], vec![]];
        for row in rows {
            let [ours, other] = medians(row);
            times[0].push(ours);
            times[1].push(other);
        }
        if *unit == "byte of image" {
            resets = times.clone();
        }
        if *unit == "command run" {
            let less = [0, 1].map(|side| times[side].iter().zip(&resets[side]).map(|(cycle, reset)| cycle - reset).collect());
            print("cycle less reset, the same", unit, sizes, less);
        }
        print(name, unit, sizes, times);
    }
}
