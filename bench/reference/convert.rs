//! A program text of the earlier rule, with each sampling factor of 1 gone.
use super::program::{self, Kind};
use super::{Refusal, PROGRAM_BYTES};

/// Writes the new text to the start of `result` and yields its length.
pub fn convert(text: &[u8], result: &mut [u8]) -> Result<usize, Refusal> {
    if text.len() > PROGRAM_BYTES {
        return Err((1, 0));
    }
    let program = program::parse(text, 1)?;
    let mut converted = Vec::with_capacity(text.len());
    let mut copied = 0;
    for read in &program.reads {
        let operator = match read.kind {
            Kind::Now | Kind::Last => continue,
            _ if read.factor != 1 => continue,
            Kind::LastWhen => 0x22,
            Kind::When | Kind::Current => 0x21,
        };
        let at = usize::from(read.at);
        converted.extend(&text[copied..at]);
        converted.extend([operator, read.signal]);
        copied = at + 4;
    }
    converted.extend(&text[copied..]);
    let space = result.get_mut(..converted.len()).ok_or((17, converted.len()))?;
    space.copy_from_slice(&converted);
    Ok(converted.len())
}
