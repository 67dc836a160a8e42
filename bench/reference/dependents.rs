//! Which signals an input reaches: from the input on, each signal that is found leads to those that read it.
use super::join::is_input;
use super::{check, Refusal};

/// Marks by 1 each signal that reads the input, by itself or through others, and by 0 every other of 64.
pub fn dependents(program: &[u8], schedule: &[u8], input: usize, marks: &mut [u8; 64]) -> Result<usize, Refusal> {
    let program = check(program, schedule)?.program;
    if !program.signals.get(input).is_some_and(|signal| is_input(&program, signal)) {
        return Err((48, 0));
    }
    *marks = [0; 64];
    let mut found = vec![input];
    while let Some(signal) = found.pop() {
        for read in program.reads.iter().filter(|read| usize::from(read.signal) == signal) {
            let reader = usize::from(read.reader);
            if std::mem::replace(&mut marks[reader], 1) == 0 {
                found.push(reader);
            }
        }
    }
    Ok(0)
}
