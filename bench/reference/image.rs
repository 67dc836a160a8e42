//! The image of an accepted pair and its tail.
use super::table::{Row, ROW_BYTES};
use super::Accepted;

const HEAD: usize = 4;
const RECORD: usize = 6;

/// Where the run lists start.
fn lists(pair: &Accepted) -> usize {
    HEAD + RECORD * pair.program.signals.len() + 2 * (pair.hypercycle as usize + 1)
}

/// The bytes of the count and the rows.
fn table_bytes(pair: &Accepted) -> usize {
    1 + ROW_BYTES * pair.rows.len()
}

pub fn length(pair: &Accepted) -> usize {
    let runs: u32 = pair.program.signals.iter().map(|signal| pair.hypercycle / signal.period).sum();
    lists(pair) + runs as usize + table_bytes(pair) + pair.program.code.len()
}

/// Writes four bytes a signal after an image: label, period and phase.
pub fn write_tail(pair: &Accepted, tail: &mut [u8]) {
    for ((entry, signal), phase) in tail.chunks_exact_mut(4).zip(&pair.program.signals).zip(pair.schedule.phase) {
        entry[..2].copy_from_slice(&signal.label.to_le_bytes());
        entry[2..].copy_from_slice(&[signal.period as u8, phase as u8]);
    }
}

/// Writes the image into the L bytes that are its own.
pub fn write(pair: &Accepted, image: &mut [u8]) {
    let length = image.len();
    let code = length - pair.program.code.len();
    image[0] = pair.hypercycle as u8;
    image[1] = pair.program.signals.len() as u8;
    image[2..4].copy_from_slice(&offset(length));
    let records = image[HEAD..].chunks_exact_mut(RECORD);
    for (record, signal) in records.zip(&pair.program.signals) {
        record[..4].copy_from_slice(&signal.initial);
        record[4..].copy_from_slice(&offset(code + signal.code));
    }
    write_lists(pair, image);
    write_table(&pair.rows, &mut image[code - table_bytes(pair)..code]);
    image[code..].copy_from_slice(&pair.program.code);
}

/// The run lists, in PUT order, and the offsets before them.
fn write_lists(pair: &Accepted, image: &mut [u8]) {
    let Accepted { program, schedule, .. } = pair;
    let hypercycle = pair.hypercycle as usize;
    // For each cycle first how many runs it has, then where the next of them goes.
    let mut next = [0; 241];
    for (signal, phase) in program.signals.iter().zip(schedule.phase) {
        for count in next[..hypercycle].iter_mut().skip(phase as usize).step_by(signal.period as usize) {
            *count += 1;
        }
    }
    let mut at = lists(pair);
    let offsets = &mut image[HEAD + RECORD * program.signals.len()..at];
    for (entry, next) in offsets.chunks_exact_mut(2).zip(&mut next) {
        entry.copy_from_slice(&offset(at));
        (*next, at) = (at, at + *next);
    }
    for &signal in schedule.order() {
        let (phase, period) = (schedule.phase[usize::from(signal)], program.signals[usize::from(signal)].period);
        for next in next[..hypercycle].iter_mut().skip(phase as usize).step_by(period as usize) {
            image[*next] = signal;
            *next += 1;
        }
    }
}

fn write_table(rows: &[Row], table: &mut [u8]) {
    table[0] = rows.len() as u8;
    for (entry, row) in table[1..].chunks_exact_mut(ROW_BYTES).zip(rows) {
        entry.copy_from_slice(&row.bytes());
    }
}

/// The longest image, 64 signals in each of 240 cycles and code of a program of 8,192 bytes, is far below 2^16.
fn offset(at: usize) -> [u8; 2] {
    (at as u16).to_le_bytes()
}
