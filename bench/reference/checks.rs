//! The checks of a parsed program, alone (refusals 7 to 10) and with its schedule (14 and 15).
use super::program::{Kind, Program, Read};
use super::schedule::Schedule;
use super::Refusal;

const HYPERCYCLE: u32 = 240;

/// 7 and 8, the fault of lowest offset.
pub fn mentions(program: &Program) -> Result<(), Refusal> {
    let count = program.signals.len();
    let read = program.reads.iter().find_map(|read| read_fault(program, read));
    let link = program.links.iter().find(|link| usize::from(link.signal) >= count).map(|link| (7, link.at));
    match [read, link].into_iter().flatten().min_by_key(|&(_, at)| at) {
        Some(fault) => Err(fault),
        None => Ok(()),
    }
}

fn read_fault(program: &Program, read: &Read) -> Option<Refusal> {
    let Some(written) = program.signals.get(usize::from(read.signal)) else {
        return Some((7, read.at.into()));
    };
    let reader = &program.signals[usize::from(read.reader)];
    let factor = u32::from(read.factor);
    let kept = match read.kind {
        Kind::Now | Kind::Last => reader.period == written.period,
        Kind::When | Kind::LastWhen => reader.period == factor * written.period,
        Kind::Current => written.period == factor * reader.period,
    };
    (!kept).then_some((8, read.at.into()))
}

/// The least common multiple of all periods, or 9.
pub fn hypercycle(program: &Program) -> Result<u32, Refusal> {
    program.signals.iter().try_fold(1, |multiple, signal| {
        let multiple = multiple / common_divisor(multiple, signal.period) * signal.period;
        if multiple <= HYPERCYCLE {
            Ok(multiple)
        } else {
            Err((9, 0))
        }
    })
}

fn common_divisor(mut a: u32, mut b: u32) -> u32 {
    while b != 0 {
        (a, b) = (b, a % b);
    }
    a
}

/// 10: each link after the first has exactly one read of the link before.
pub fn links(program: &Program) -> Result<(), Refusal> {
    let linked = |before: u8, link: u8| {
        let reads = &program.reads[program.signals[usize::from(link)].reads.clone()];
        reads.iter().filter(|read| read.signal == before).count() == 1
    };
    let broken = program.chains.iter().find(|chain| {
        let links = &program.links[chain.links.clone()];
        links.windows(2).any(|pair| !linked(pair[0].signal, pair[1].signal))
    });
    match broken {
        Some(chain) => Err((10, chain.at)),
        None => Ok(()),
    }
}

/// 14: every read is met.
pub fn reads_met(program: &Program, schedule: &Schedule) -> Result<(), Refusal> {
    match program.reads.iter().find(|read| settled(program, schedule, read).is_none()) {
        Some(read) => Err((14, read.at.into())),
        None => Ok(()),
    }
}

/// The index at which a read is met, if there is one that it allows.
///
/// NOW and LAST are WHEN and LASTWHEN by 1 at 0. Each line says that a distance lies between two multiples of a step, the smaller
/// period. So the index is that distance in whole steps: rounded down for NOW and WHEN, which also need it not negative, and
/// rounded up, 0 for a negative distance, for the others. The smaller period divides the larger, so runs of the two share a
/// cycle exactly if the distance is a multiple of the step.
pub fn settled(program: &Program, schedule: &Schedule, read: &Read) -> Option<u32> {
    let (written, reader) = (usize::from(read.signal), usize::from(read.reader));
    let step = program.signals[written].period.min(program.signals[reader].period);
    let (later, earlier) = match read.kind {
        Kind::Current => (schedule.phase[written], schedule.phase[reader]),
        _ => (schedule.phase[reader], schedule.phase[written]),
    };
    let shared = later.abs_diff(earlier) % step == 0;
    let (written, reader) = (schedule.rank[written], schedule.rank[reader]);
    let (ordered, index) = match read.kind {
        Kind::Now | Kind::When => (written < reader, later.checked_sub(earlier)? / step),
        Kind::Last | Kind::LastWhen => (reader <= written, later.saturating_sub(earlier).div_ceil(step)),
        Kind::Current => (written < reader, later.saturating_sub(earlier).div_ceil(step)),
    };
    let allowed = index < read.factor.into() && read.index.is_none_or(|fixed| index == fixed.into());
    (allowed && (ordered || !shared)).then_some(index)
}

/// 15: no cycle is over CAP.
pub fn load(program: &Program, schedule: &Schedule, hypercycle: u32) -> Result<(), Refusal> {
    let Some(cap) = program.cap else {
        return Ok(());
    };
    let mut load = [0; HYPERCYCLE as usize];
    let load = &mut load[..hypercycle as usize];
    for (signal, phase) in program.signals.iter().zip(schedule.phase) {
        for load in load.iter_mut().skip(phase as usize).step_by(signal.period as usize) {
            *load += signal.weight;
        }
    }
    match load.iter().position(|&load| load > cap) {
        Some(cycle) => Err((15, cycle)),
        None => Ok(()),
    }
}
