//! The papers in plain Rust: compile, join, report, reset, cycle, tail, trial, convert, moves, dependents, a board of four programs
//! and the text form.
//!
//! Written from the paper alone and sharing nothing with the crates, so that a misreading on one side shows as a difference.
//! It is also the baseline of the benchmark: what one would write without a prover, with the same checks.
mod board;
mod checks;
mod convert;
mod dependents;
mod form;
mod image;
mod join;
mod latency;
mod machine;
mod moves;
mod program;
mod report;
mod schedule;
mod table;
mod trial;

// No program here uses all calls.
#[allow(unused_imports)]
pub use {
    board::{Board, Outcome, Place},
    convert::convert,
    dependents::dependents,
    form::{assemble, list},
    join::{join, Part},
    machine::{cycle, reset, tail},
    moves::moves,
    report::report,
    trial::trial,
};
use program::Program;
use schedule::Schedule;
use table::Row;

/// The number of a refusal and its place.
pub type Refusal = (u8, usize);

const PROGRAM_BYTES: usize = 8192;
const SCHEDULE_BYTES: usize = 193;

/// An accepted pair.
struct Accepted {
    program: Program,
    schedule: Schedule,
    hypercycle: u32,
    /// By rising low.
    rows: Vec<Row>,
}

/// The refusals 1 to 16, 29 and 30.
fn check(program: &[u8], schedule: &[u8]) -> Result<Accepted, Refusal> {
    if program.len() > PROGRAM_BYTES || schedule.len() > SCHEDULE_BYTES {
        return Err((1, 0));
    }
    let program = program::parse(program, 2)?;
    checks::mentions(&program)?;
    let hypercycle = checks::hypercycle(&program)?;
    checks::links(&program)?;
    let rows = table::sorted(&program)?;
    let schedule = schedule::parse(schedule, &program.signals)?;
    checks::reads_met(&program, &schedule)?;
    checks::load(&program, &schedule, hypercycle)?;
    latency::check(&program, &schedule, hypercycle)?;
    Ok(Accepted { program, schedule, hypercycle, rows })
}

/// Writes the image of an accepted pair and its tail to the start of `image` and yields how many bytes these are.
pub fn compile(program: &[u8], schedule: &[u8], image: &mut [u8]) -> Result<usize, Refusal> {
    write(&check(program, schedule)?, image)
}

/// The image and its tail, or 17.
fn write(pair: &Accepted, image: &mut [u8]) -> Result<usize, Refusal> {
    let length = image::length(pair);
    let written = length + 4 * pair.program.signals.len();
    if image.len() < written {
        return Err((17, written));
    }
    image::write(pair, &mut image[..length]);
    image::write_tail(pair, &mut image[length..written]);
    Ok(written)
}

/// The answer as the library's C calls give it: number × 2^32 + value.
pub fn answer(result: Result<usize, Refusal>) -> u64 {
    match result {
        Ok(value) => value as u64,
        Err((number, place)) => (u64::from(number) << 32) + place as u64,
    }
}
