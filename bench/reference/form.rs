//! The text form: words for the bytes of a program, a schedule or a script, and back.
use super::Refusal;

const LONGEST: usize = 1 << 24;

#[derive(Clone, Copy)]
pub enum Operand {
    One,
    Two,
    Four,
    Signed,
    Index,
    Mode,
}
use Operand::{Four, Index, Mode, One, Signed, Two};

/// A word, its byte and its operands in the order of the bytes.
type Command = (&'static str, u8, &'static [Operand]);

/// Those that start a line, and those that do not.
const LINES: [Command; 10] = [
    ("IN", 0x10, &[One, Signed]),
    ("EQ", 0x11, &[One, Signed, Two]),
    ("LAT", 0x12, &[Mode, Two]),
    ("CAP", 0x14, &[Four]),
    ("TAG", 0x15, &[Two]),
    ("ROW", 0x16, &[Signed, Signed, Signed]),
    ("PUT", 0x40, &[One, One]),
    ("SET", 0x70, &[One, Signed]),
    ("RUN", 0x71, &[One]),
    ("END", 0x00, &[]),
];
const PHRASES: [Command; 17] = [
    ("LINK", 0x13, &[One]),
    ("CONST", 0x20, &[Signed]),
    ("NOW", 0x21, &[One]),
    ("LAST", 0x22, &[One]),
    ("WHEN", 0x23, &[One, Index, One]),
    ("LASTWHEN", 0x24, &[One, Index, One]),
    ("CURRENT", 0x25, &[One, Index, One]),
    ("ADD", 0x30, &[]),
    ("SUB", 0x31, &[]),
    ("MUL", 0x32, &[]),
    ("LESS", 0x33, &[]),
    ("SAME", 0x34, &[]),
    ("MIN", 0x35, &[]),
    ("MAX", 0x36, &[]),
    ("NEG", 0x38, &[]),
    ("IF", 0x3A, &[]),
    ("TABLE", 0x3B, &[]),
];

fn command(wanted: impl Fn(&Command) -> bool) -> Option<(Command, char)> {
    let line = LINES.into_iter().find(&wanted).map(|command| (command, '\n'));
    line.or_else(|| PHRASES.into_iter().find(&wanted).map(|command| (command, ' ')))
}

impl Operand {
    fn size(self) -> usize {
        match self {
            One | Index | Mode => 1,
            Two => 2,
            Four | Signed => 4,
        }
    }

    fn names(self) -> &'static [(&'static str, u8)] {
        match self {
            Index => &[("open", 255)],
            Mode => &[("exists", 0), ("backward", 1)],
            _ => &[],
        }
    }

    /// The bytes of a token, or the number of the refusal.
    fn bytes(self, token: &[u8]) -> Result<Vec<u8>, u8> {
        if let Some(&(_, byte)) = self.names().iter().find(|(name, _)| name.as_bytes() == token) {
            return Ok(vec![byte]);
        }
        let value = match (self, token) {
            (Signed, [b'-', digits @ ..]) => match number(digits)? {
                magnitude @ 1..=0x8000_0000 => (1 << 32) - magnitude,
                _ => return Err(43),
            },
            (Signed, digits) => number(digits).and_then(|value| if value < 1 << 31 { Ok(value) } else { Err(43) })?,
            (_, digits) => number(digits).and_then(|value| if value < 1 << (8 * self.size()) { Ok(value) } else { Err(43) })?,
        };
        Ok(value.to_le_bytes()[..self.size()].to_vec())
    }

    fn token(self, bytes: &[u8]) -> String {
        let value = bytes.iter().rev().fold(0u32, |value, &byte| value << 8 | u32::from(byte));
        match self.names().iter().find(|&&(_, byte)| u32::from(byte) == value) {
            Some((name, _)) => name.to_string(),
            None if matches!(self, Signed) => (value as i32).to_string(),
            None => value.to_string(),
        }
    }
}

/// Digits without a zero before them; a number that is too large stays so.
fn number(digits: &[u8]) -> Result<u64, u8> {
    if digits.is_empty() || !digits.iter().all(u8::is_ascii_digit) || (digits[0] == b'0' && digits.len() > 1) {
        return Err(42);
    }
    Ok(digits.iter().fold(0u64, |value, digit| value.saturating_mul(10).saturating_add(u64::from(digit - b'0'))))
}

/// With the offset of each.
fn tokens(text: &[u8]) -> Vec<(usize, &[u8])> {
    let mut found = Vec::new();
    let mut start = 0;
    for line in text.split(|&byte| byte == b'\n') {
        let said = line.split(|&byte| byte == b';').next().unwrap_or(line);
        let mut at = start;
        for token in said.split(|byte| b" \t\r".contains(byte)) {
            if !token.is_empty() {
                found.push((at, token));
            }
            at += token.len() + 1;
        }
        start += line.len() + 1;
    }
    found
}

fn put(written: &[u8], result: &mut [u8]) -> Result<usize, Refusal> {
    let space = result.get_mut(..written.len()).ok_or((44, written.len()))?;
    space.copy_from_slice(written);
    Ok(written.len())
}

/// Writes the bytes of a text to the start of `result` and yields how many these are.
pub fn assemble(text: &[u8], result: &mut [u8]) -> Result<usize, Refusal> {
    if text.len() > LONGEST {
        return Err((47, 0));
    }
    let mut bytes = Vec::new();
    let mut pending: &[Operand] = &[];
    for (place, token) in tokens(text) {
        if let [operand, rest @ ..] = pending {
            bytes.extend(operand.bytes(token).map_err(|number| (number, place))?);
            pending = rest;
        } else {
            let ((_, byte, operands), _) = command(|(word, _, _)| word.as_bytes() == token).ok_or((40, place))?;
            bytes.push(byte);
            pending = operands;
        }
    }
    if !pending.is_empty() {
        return Err((41, text.len()));
    }
    put(&bytes, result)
}

/// Writes the text of bytes to the start of `result` and yields its length.
pub fn list(bytes: &[u8], result: &mut [u8]) -> Result<usize, Refusal> {
    if bytes.len() > LONGEST {
        return Err((47, 0));
    }
    let mut text = String::new();
    let mut pending: &[Operand] = &[];
    let mut at = 0;
    while at < bytes.len() {
        let (before, token, width);
        if let [operand, rest @ ..] = pending {
            width = operand.size();
            (before, token) = (' ', operand.token(bytes.get(at..at + width).ok_or((46, at))?));
            pending = rest;
        } else {
            let ((word, _, operands), separator) = command(|(_, byte, _)| *byte == bytes[at]).ok_or((45, at))?;
            (before, token, width) = (separator, word.to_string(), 1);
            pending = operands;
        }
        if at > 0 {
            text.push(before);
        }
        text += &token;
        at += width;
    }
    if !pending.is_empty() {
        return Err((46, at));
    }
    text.push('\n');
    put(text.as_bytes(), result)
}
