//! Where one signal may go (request l): every phase of every signal is tried with the checks of a schedule, 14 to 16.
use super::program::{Program, Read};
use super::schedule::Schedule;
use super::{check, checks, latency, Accepted, Refusal};

/// Puts as many entries, signal and phase, as the list has space for whole, and yields how many there are.
pub fn moves(program: &[u8], schedule: &[u8], list: &mut [u8]) -> Result<usize, Refusal> {
    let mut pair = check(program, schedule)?;
    let settled = indices(&pair.program, &pair.schedule);
    let mut entries = vec![];
    for signal in 0..pair.program.signals.len() {
        let present = pair.schedule.phase[signal];
        for phase in 0..pair.program.signals[signal].period {
            pair.schedule.phase[signal] = phase;
            if accepted(&pair) && indices(&pair.program, &pair.schedule) == settled {
                entries.extend([signal as u8, phase as u8]);
            }
        }
        pair.schedule.phase[signal] = present;
    }
    let written = entries.len().min(list.len() / 2 * 2);
    list[..written].copy_from_slice(&entries[..written]);
    Ok(entries.len() / 2)
}

/// With a schedule that is a list of PUTs, and phases below the periods.
fn accepted(pair: &Accepted) -> bool {
    let Accepted { program, schedule, hypercycle, .. } = pair;
    checks::reads_met(program, schedule).is_ok()
        && checks::load(program, schedule, *hypercycle).is_ok()
        && latency::check(program, schedule, *hypercycle).is_ok()
}

/// The index of each read that leaves it open.
fn indices(program: &Program, schedule: &Schedule) -> Vec<Option<u32>> {
    let open = |read: &&Read| read.index.is_none();
    program.reads.iter().filter(open).map(|read| checks::settled(program, schedule, read)).collect()
}
