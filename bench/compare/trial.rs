//! The program `trial` against the reference doing the same.
//!
//!     trial run PROGRAM SCHEDULE SCRIPT      prints what the reference's trial does
//!     trial compare TRIAL FOLDER [ROUNDS]    runs the program TRIAL on random files in FOLDER and compares what it prints
//!     trial measure TRIAL FOLDER             times both programs on the longest scripts, in one interleaved run
// The differential test uses the rest of these.
#[allow(dead_code)]
#[path = "../cases/generate.rs"]
mod generate;
#[allow(dead_code)]
#[path = "../cases/images.rs"]
mod images;
#[allow(dead_code)]
#[path = "../cases/parts.rs"]
mod parts;
#[allow(dead_code)]
#[path = "../cases/random.rs"]
mod random;
#[allow(dead_code)]
#[path = "../reference/mod.rs"]
mod reference;
#[allow(dead_code)]
#[path = "../measure/rows.rs"]
mod rows;
#[allow(dead_code)]
#[path = "../cases/tables.rs"]
mod tables;

use generate::{Pair, Shape, Twist};
use random::Random;
use std::fs;
use std::io::Write;
use std::path::Path;
use std::process::{exit, Command, Stdio};
use std::time::Instant;

const ROUNDS: u64 = 2_000;
const SEED: u64 = 20_260_101;
const TIMED: usize = 41;
const FILES: [&str; 3] = ["program", "schedule", "script"];

/// What the reference prints, and whether it is a refusal.
fn printed(files: [&[u8]; 3]) -> (Vec<u8>, bool) {
    let mut bytes = vec![];
    match reference::trial(files[0], files[1], files[2], |block| bytes.extend_from_slice(block)) {
        Ok(_) => (bytes, false),
        Err((number, _)) => (format!("{number}\n").into_bytes(), true),
    }
}

fn run(names: &[String]) {
    let files: Vec<Vec<u8>> = names.iter().map(|name| fs::read(name).unwrap_or_default()).collect();
    let mut out = std::io::stdout().lock();
    let mut write = |bytes: &[u8]| out.write_all(bytes).expect("standard output");
    if let Err((number, _)) = reference::trial(&files[0], &files[1], &files[2], &mut write) {
        write(format!("{number}\n").as_bytes());
    }
}

/// A script for a pair: mostly legal, its SETs mostly of inputs.
fn script(random: &mut Random, pair: &Pair) -> Vec<u8> {
    let mut text = vec![];
    let inputs = inputs(pair);
    for _ in 0..random.below(12) {
        if random.one_in(2) {
            let other = random.one_in(40) || inputs.is_empty();
            let signal = if other { random.byte() } else { random.pick(&inputs) };
            if !other || random.one_in(4) {
                text.extend([0x70, signal]);
                text.extend(random.word().to_le_bytes());
            }
        } else {
            text.extend([0x71, random.pick(&[0, 1, 2, 3, 17, 255])]);
        }
    }
    text.push(0);
    match random.below(12) {
        0 => random.damage(&mut text),
        1 => text.resize(text.len().max(2047 + random.below(3)), random.pick(&[0, 0x71, 1])),
        _ => {}
    }
    text
}

/// The inputs of a pair: a SET of each is accepted.
fn inputs(pair: &Pair) -> Vec<u8> {
    let accepted = |&signal: &u8| reference::trial(&pair.program, &pair.schedule, &[0x70, signal, 0, 0, 0, 0, 0], |_| ()).is_ok();
    (0..64).filter(accepted).collect()
}

fn write_files(folder: &Path, files: [&[u8]; 3]) -> [String; 3] {
    let mut at = 0;
    FILES.map(|name| {
        let path = folder.join(name);
        fs::write(&path, files[at]).expect("a file in the folder");
        at += 1;
        path.to_string_lossy().into_owned()
    })
}

fn compare(trial: &str, folder: &Path, rounds: u64) {
    let (mut lines, mut refused) = (0, 0);
    for round in 0..rounds {
        let mut random = Random(Random(SEED ^ round << 32).next());
        let shape = Shape::any(&mut random);
        let twist = if random.one_in(8) { Twist::Cap } else { Twist::None };
        let mut pair = generate::pair(&mut random, &shape, twist);
        let text = script(&mut random, &pair);
        if random.one_in(16) {
            random.damage(&mut pair.program);
        }
        let files = [&pair.program[..], &pair.schedule, &text];
        let names = write_files(folder, files);
        let ours = Command::new(trial).args(&names).stderr(Stdio::null()).output().expect("the program trial").stdout;
        let (other, fails) = printed(files);
        if ours != other {
            println!("round {round}: what is printed differs; the files are left in {}", folder.display());
            exit(1);
        }
        lines += ours.iter().filter(|&&byte| byte == b'\n').count();
        refused += usize::from(fails);
    }
    println!("{rounds} trials, {refused} of them refused, {lines} lines: no difference");
}

fn seconds(command: &mut Command) -> f64 {
    let start = Instant::now();
    assert!(command.stdout(Stdio::null()).stderr(Stdio::null()).status().expect("a program").success());
    start.elapsed().as_secs_f64()
}

fn measure(trial: &str, folder: &Path) {
    let own = std::env::current_exe().expect("this program");
    println!("{:<44} {:>8} {:>14} {:>14} {:>6}", "trial", "lines", "ours (line/s)", "Rust (line/s)", "time");
    let (small, large) = (rows::program_a(), rows::program_of(64, &[1, 2, 8, 24, 240], 240));
    for (name, pair, runs) in [("program A", &small, 1023), ("64 signals, hypercycle 240", &large, 255)] {
        let mut text = [0x71, 255].repeat(runs);
        text.push(0);
        let names = write_files(folder, [&pair.program, &pair.schedule, &text]);
        let mut times = [vec![], vec![]];
        for round in 0..TIMED {
            for side in [round % 2, 1 - round % 2] {
                let mut command = if side == 0 { Command::new(trial) } else { Command::new(&own) };
                if side == 1 {
                    command.arg("run");
                }
                times[side].push(seconds(command.args(&names)));
            }
        }
        let [ours, other] = times.map(|mut times| {
            times.sort_by(f64::total_cmp);
            times[TIMED / 2]
        });
        let lines = (255 * runs) as f64;
        println!("{name:<44} {lines:>8} {:>14.0} {:>14.0} {:>6.2}", lines / ours, lines / other, ours / other);
    }
}

fn main() {
    let arguments: Vec<String> = std::env::args().skip(1).collect();
    match &arguments[..] {
        [mode, names @ ..] if mode == "run" && names.len() == 3 => run(names),
        [mode, trial, folder] if mode == "measure" => measure(trial, Path::new(folder)),
        [mode, trial, folder] if mode == "compare" => compare(trial, Path::new(folder), ROUNDS),
        [mode, trial, folder, rounds] if mode == "compare" => compare(trial, Path::new(folder), rounds.parse().expect("a number")),
        _ => {
            eprintln!("usage: trial run PROGRAM SCHEDULE SCRIPT | compare TRIAL FOLDER [ROUNDS] | measure TRIAL FOLDER");
            exit(2);
        }
    }
}
