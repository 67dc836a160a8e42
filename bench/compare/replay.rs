//! Runs cases with expected answers (docs/VECTORS.md) on the reference: every line must be equal.
// The text form has no cases.
#[allow(dead_code)]
#[path = "../reference/mod.rs"]
mod reference;
mod widths;

use reference::{Board, Outcome, Part, Place};
use std::process::exit;

/// The bytes of the cases, taken from the front.
struct Cases<'a>(&'a [u8]);

impl<'a> Cases<'a> {
    fn take(&mut self, count: usize) -> &'a [u8] {
        let (taken, rest) = self.0.split_at(count);
        self.0 = rest;
        taken
    }

    fn number(&mut self, bytes: usize) -> usize {
        self.take(bytes).iter().rev().fold(0, |number, &byte| number << 8 | usize::from(byte))
    }

    fn words(&mut self) -> Vec<i32> {
        let count = self.number(2);
        let word = |bytes: &[u8]| i32::from_le_bytes(bytes.try_into().expect("four bytes"));
        self.take(4 * count).chunks_exact(4).map(word).collect()
    }
}

fn hash(bytes: impl Iterator<Item = u8>) -> u32 {
    bytes.fold(2166136261, |hash: u32, byte| (hash ^ u32::from(byte)).wrapping_mul(16777619))
}

fn line(answer: u64, hash: u32) -> String {
    format!("{} {} {hash}", answer >> 32, answer as u32)
}

fn compile(cases: &mut Cases) -> String {
    let (program, schedule) = (cases.number(2), cases.number(2));
    let buffer = cases.number(4);
    let mut buffer = vec![cases.number(1) as u8; buffer];
    let (program, schedule) = (cases.take(program), cases.take(schedule));
    let result = reference::compile(program, schedule, &mut buffer);
    line(reference::answer(result), hash(buffer.into_iter()))
}

fn report(cases: &mut Cases) -> String {
    let (program, schedule) = (cases.number(2), cases.number(2));
    let mut counts = [u32::from_le_bytes([cases.number(1) as u8; 4]); 240];
    let (program, schedule) = (cases.take(program), cases.take(schedule));
    let sizes = reference::report(program, schedule, &mut counts);
    let answer = reference::answer(sizes.map(|sizes| sizes.length));
    let (written, stack) = sizes.map_or((0, 0), |sizes| (sizes.written, sizes.stack));
    let hash = hash(counts.iter().flat_map(|count| count.to_le_bytes()));
    format!("{} {} {written} {stack} {hash}", answer >> 32, answer as u32)
}

fn tail(image: &[u8]) -> String {
    let tail = reference::tail(image);
    line(reference::answer(tail.map(<[u8]>::len)), hash(tail.unwrap_or(&[]).iter().copied()))
}

fn convert(cases: &mut Cases) -> String {
    let (program, buffer) = (cases.number(2), cases.number(4));
    let mut buffer = vec![cases.number(1) as u8; buffer];
    let result = reference::convert(cases.take(program), &mut buffer);
    line(reference::answer(result), hash(buffer.into_iter()))
}

fn join(cases: &mut Cases) -> String {
    let length = cases.number(4);
    let texts = cases.take(length);
    let count = cases.number(1);
    let parts: Vec<Part> = (0..count).map(|_| part(cases)).collect();
    let length = cases.number(2);
    let links = cases.take(length);
    let length = cases.number(4);
    let mut buffer = vec![cases.number(1) as u8; length];
    let result = reference::join(texts, &parts, links, &mut buffer);
    let named = result.err().and_then(|(_, part)| part).unwrap_or(255);
    let answer = reference::answer(result.map_err(|(refusal, _)| refusal));
    format!("{} {} {named} {}", answer >> 32, answer as u32, hash(buffer.into_iter()))
}

fn part(cases: &mut Cases) -> Part {
    let [program, schedule] = [0; 2].map(|_| (cases.number(4), cases.number(4)));
    Part { program, schedule }
}

fn moves(cases: &mut Cases) -> String {
    let [program, schedule] = [0; 2].map(|_| cases.number(2));
    let length = cases.number(4);
    let mut list = vec![cases.number(1) as u8; length];
    let [program, schedule] = [program, schedule].map(|length| cases.take(length));
    line(reference::answer(reference::moves(program, schedule, &mut list)), hash(list.into_iter()))
}

fn listed(cases: &mut Cases) -> String {
    let kind = cases.number(1);
    let widths: Vec<String> = (0..=255).map(|byte| widths::width(kind, byte).unwrap_or(0).to_string()).collect();
    widths.join(" ")
}

fn trial(cases: &mut Cases) -> String {
    let [program, schedule, script] = [0; 3].map(|_| cases.number(2));
    let [program, schedule, script] = [program, schedule, script].map(|length| cases.take(length));
    let mut printed = vec![];
    let result = reference::trial(program, schedule, script, |bytes| printed.extend_from_slice(bytes));
    if let Err((number, _)) = result {
        printed = format!("{number}\n").into_bytes();
    }
    line(reference::answer(result), hash(printed.into_iter()))
}

/// The record that a case puts as it is.
fn record(cases: &mut Cases) -> Board {
    let [loaded, due, last] = [0; 3].map(|_| cases.number(1));
    let counts = [0; 4].map(|_| cases.number(4) as u32);
    let place = |at: usize| {
        let [start, size] = [0; 2].map(|_| cases.number(4));
        Place { loaded: loaded >> at & 1 != 0, due: due >> at & 1 != 0, start, size, count: counts[at] }
    };
    Board { places: [0, 1, 2, 3].map(place), last }
}

/// A call of the board and its line.
fn board_call(call: usize, cases: &mut Cases, board: &mut Board, image: &[u8], state: &mut [i32]) -> String {
    let result = match call {
        11 => {
            *board = Board::default();
            Ok(Outcome::Idle)
        }
        12 => {
            let (place, start, size) = (cases.number(1), cases.number(4), cases.number(4));
            board.load(image, state, place, start, size).map(|()| Outcome::Idle)
        }
        13 => board.mark(cases.number(1)).map(|()| Outcome::Idle),
        _ => board.turn(image, state, &cases.words()),
    };
    let number = result.map_or_else(|(number, _)| number, |_| 0);
    let [outcome, place, value] = result.map_or([0; 3], Outcome::words);
    let sum = |flag: fn(&Place) -> bool| (0..4).filter(|&at| flag(&board.places[at])).map(|at| 1 << at).sum::<usize>();
    let [loaded, due] = [sum(|place| place.loaded), sum(|place| place.due)];
    let stretches = board.places.iter().flat_map(|place| [place.start, place.size]);
    let stretches = hash(stretches.flat_map(|number| (number as u32).to_le_bytes()));
    let words = hash(state.iter().flat_map(|word| word.to_le_bytes()));
    let counts = board.places.map(|place| place.count.to_string()).join(" ");
    format!("{number} {outcome} {place} {value} {loaded} {due} {} {counts} {stretches} {words}", board.last)
}

/// The lines that the cases print.
fn replay(cases: &[u8]) -> Vec<String> {
    let mut cases = Cases(cases);
    let (mut image, mut state, mut lines) = (&[][..], vec![], vec![]);
    let mut board = Board::default();
    while !cases.0.is_empty() {
        let result = match cases.number(1) {
            1 => {
                let length = cases.number(4);
                image = cases.take(length);
                continue;
            }
            2 => {
                state = cases.words();
                continue;
            }
            3 => reference::reset(image, &mut state).map(|()| 0),
            4 => reference::cycle(image, &mut state, &cases.words()),
            5 => {
                lines.push(compile(&mut cases));
                continue;
            }
            6 => {
                lines.push(report(&mut cases));
                continue;
            }
            7 => {
                lines.push(listed(&mut cases));
                continue;
            }
            8 => {
                lines.push(trial(&mut cases));
                continue;
            }
            9 => {
                lines.push(tail(image));
                continue;
            }
            10 => {
                lines.push(convert(&mut cases));
                continue;
            }
            call @ 11..=14 => {
                lines.push(board_call(call, &mut cases, &mut board, image, &mut state));
                continue;
            }
            15 => {
                lines.push(join(&mut cases));
                continue;
            }
            16 => {
                lines.push(moves(&mut cases));
                continue;
            }
            17 => {
                board = record(&mut cases);
                continue;
            }
            command => panic!("no such case: {command}"),
        };
        let answer = reference::answer(result.map(|commands| commands as usize));
        lines.push(line(answer, hash(state.iter().flat_map(|word| word.to_le_bytes()))));
    }
    lines
}

fn main() {
    let arguments: Vec<String> = std::env::args().collect();
    let [_, cases, expected] = &arguments[..] else {
        eprintln!("usage: replay CASES.stdin CASES.stdout");
        exit(2);
    };
    let lines = replay(&std::fs::read(cases).expect("the cases"));
    let expected = std::fs::read_to_string(expected).expect("the expected lines");
    let expected: Vec<&str> = expected.lines().collect();
    if let Some(at) = lines.iter().zip(&expected).position(|(line, expected)| line != expected) {
        println!("line {}: {}, expected {}", at + 1, lines[at], expected[at]);
        exit(1);
    }
    println!("{cases}: {} lines of {} equal", lines.len(), expected.len());
    exit((lines.len() != expected.len()).into());
}
