//! Reset and cycle (refusals 20 to 23) on any bytes.
use super::table::{self, ROW_BYTES};
use super::Refusal;

const STACK: usize = 32;

/// The parts of a well-formed image.
pub(super) struct Image<'a> {
    bytes: &'a [u8],
    hypercycle: usize,
    pub(super) signals: usize,
    rows: &'a [[u8; ROW_BYTES]],
}

impl<'a> Image<'a> {
    fn two(&self, at: usize) -> usize {
        u16::from_le_bytes([self.bytes[at], self.bytes[at + 1]]).into()
    }

    fn offsets(&self) -> usize {
        4 + 6 * self.signals
    }

    fn initial(&self, signal: usize) -> i32 {
        let at = 4 + 6 * signal;
        i32::from_le_bytes(self.bytes[at..at + 4].try_into().expect("four bytes"))
    }

    /// Where the code of a signal starts; for the signal after the last, the end of the image.
    fn code_start(&self, signal: usize) -> usize {
        if signal < self.signals {
            self.two(8 + 6 * signal)
        } else {
            self.bytes.len()
        }
    }

    fn code(&self, signal: usize) -> &'a [u8] {
        &self.bytes[self.code_start(signal)..self.code_start(signal + 1)]
    }

    fn list(&self, cycle: usize) -> &'a [u8] {
        let at = self.offsets() + 2 * cycle;
        &self.bytes[self.two(at)..self.two(at + 2)]
    }

    /// The image, without its tail, if it is well formed, else 20.
    pub(super) fn check(lent: &'a [u8]) -> Result<Self, Refusal> {
        let &[hypercycle, signals, low, high, ..] = lent else {
            return Err((20, 0));
        };
        let length = usize::from(u16::from_le_bytes([low, high]));
        if lent.len() != length && lent.len() != length + 4 * usize::from(signals) {
            return Err((20, 0));
        }
        if length < 4 || !(1..=240).contains(&hypercycle) || signals > 64 {
            return Err((20, 0));
        }
        let image = Image { bytes: &lent[..length], hypercycle: hypercycle.into(), signals: signals.into(), rows: &[] };
        let rows = image.lists_end().and_then(|end| image.rows_from(end)).ok_or((20, 0))?;
        let image = Image { rows, ..image };
        (table::formed(rows) && image.codes_formed()).then_some(image).ok_or((20, 0))
    }

    /// Runs the cycle at a position, on a state and samples that are long enough. Yields how many commands ran.
    pub(super) fn run(&self, position: usize, state: &mut [i32], samples: &[i32]) -> u32 {
        let mut stack = Stack { words: [0; STACK], height: 0, commands: 0 };
        for &signal in self.list(position) {
            let signal = usize::from(signal);
            state[signal + 1] = stack.run(self.code(signal), self.rows, state, samples);
        }
        state[0] = if position + 1 == self.hypercycle { 0 } else { position as i32 + 1 };
        stack.commands
    }

    /// Where the run lists end, if they follow their offsets and each other and name signals only.
    fn lists_end(&self) -> Option<usize> {
        let start = self.offsets() + 2 * (self.hypercycle + 1);
        if self.bytes.len() < start || self.two(self.offsets()) != start {
            return None;
        }
        let mut last = start;
        for pair in self.bytes[self.offsets() + 2..start].chunks_exact(2) {
            let next = u16::from_le_bytes([pair[0], pair[1]]).into();
            if next < last {
                return None;
            }
            last = next;
        }
        let lists = self.bytes.get(start..last)?;
        lists.iter().all(|&signal| usize::from(signal) < self.signals).then_some(last)
    }

    /// The rows of the table that starts here, if it ends where the first code starts.
    fn rows_from(&self, start: usize) -> Option<&'a [[u8; ROW_BYTES]]> {
        let (&count, rows) = self.bytes.get(start..self.code_start(0))?.split_first()?;
        let (rows, rest) = rows.as_chunks();
        (rest.is_empty() && rows.len() == usize::from(count)).then_some(rows)
    }

    /// The codes follow each other up to the end.
    fn codes_formed(&self) -> bool {
        let shapes = if self.rows.is_empty() { &WITHOUT_ROWS } else { &WITH_ROWS };
        let mut start = self.code_start(0);
        (0..self.signals).all(|signal| {
            let end = self.code_start(signal + 1);
            let code = self.bytes.get(start..end);
            start = end;
            code.is_some_and(|code| code_formed(code, signal as u8, self.signals, shapes))
        })
    }
}

/// For each byte that is an operator: how many bytes it has with its operand, and how many words it takes from the stack. A table,
/// since which operator comes next is hard to predict.
type Shapes = [(u8, u8); 256];

static WITHOUT_ROWS: Shapes = shapes(false);
static WITH_ROWS: Shapes = shapes(true);

/// Without rows nothing can be looked up.
const fn shapes(rows: bool) -> Shapes {
    let mut shapes = [(0, 0); 256];
    shapes[0x50] = (5, 0);
    shapes[0x51] = (2, 0);
    shapes[0x52] = (2, 0);
    shapes[0x38] = (1, 1);
    shapes[0x3A] = (1, 3);
    let mut binary = 0x30;
    while binary <= 0x36 {
        shapes[binary] = (1, 2);
        binary += 1;
    }
    if rows {
        shapes[0x3B] = (1, 1);
    }
    shapes
}

fn code_formed(mut code: &[u8], own: u8, signals: usize, shapes: &Shapes) -> bool {
    let mut height = 0;
    // No operator but STORE can stand last, and STORE has an operand: so two bytes are left at each.
    while let &[operator, operand, ..] = code {
        if operator == 0x5F {
            return code.len() == 2 && operand == own && height == 1;
        }
        let (bytes, words) = shapes[usize::from(operator)];
        let below = height - i32::from(words);
        height = below + 1;
        let formed = (bytes != 0)
            & (below >= 0)
            & (height <= STACK as i32)
            & ((operator != 0x51) | (usize::from(operand) < signals))
            & ((operator != 0x52) | (operand == own));
        match code.get(usize::from(bytes)..) {
            Some(rest) if formed => code = rest,
            _ => return false,
        }
    }
    false
}

/// The bytes after the image, none where it has no tail.
pub fn tail(lent: &[u8]) -> Result<&[u8], Refusal> {
    let image = Image::check(lent)?;
    Ok(&lent[image.bytes.len()..])
}

pub fn reset(image: &[u8], state: &mut [i32]) -> Result<(), Refusal> {
    let image = Image::check(image)?;
    if state.len() <= image.signals {
        return Err((21, 0));
    }
    state[0] = 0;
    for signal in 0..image.signals {
        state[signal + 1] = image.initial(signal);
    }
    Ok(())
}

/// Yields how many commands ran.
pub fn cycle(image: &[u8], state: &mut [i32], samples: &[i32]) -> Result<u32, Refusal> {
    let image = Image::check(image)?;
    if state.len() <= image.signals {
        return Err((21, 0));
    }
    let position = match usize::try_from(state[0]) {
        Ok(position) if position < image.hypercycle => position,
        _ => return Err((22, 0)),
    };
    if samples.len() < image.signals {
        return Err((23, 0));
    }
    Ok(image.run(position, state, samples))
}

/// The working stack, never short or full in a checked code.
struct Stack {
    words: [i32; STACK],
    height: usize,
    /// How many commands have run.
    commands: u32,
}

impl Stack {
    fn push(&mut self, word: i32) {
        self.words[self.height] = word;
        self.height += 1;
    }

    fn pop(&mut self) -> i32 {
        self.height -= 1;
        self.words[self.height]
    }

    fn binary(&mut self, operator: impl Fn(i32, i32) -> i32) {
        let second = self.pop();
        let first = self.pop();
        self.push(operator(first, second));
    }

    fn unary(&mut self, operator: impl Fn(i32) -> i32) {
        let word = self.pop();
        self.push(operator(word));
    }

    fn choose(&mut self) {
        let otherwise = self.pop();
        let then = self.pop();
        let condition = self.pop();
        self.push(if condition != 0 { then } else { otherwise });
    }

    /// The word that a checked code stores. Leaves the stack empty.
    fn run(&mut self, code: &[u8], rows: &[[u8; ROW_BYTES]], state: &[i32], samples: &[i32]) -> i32 {
        let mut at = 0;
        loop {
            let operator = code[at];
            at += 1;
            self.commands += 1;
            match operator {
                0x50 => {
                    self.push(i32::from_le_bytes(code[at..at + 4].try_into().expect("four bytes")));
                    at += 4;
                }
                0x51 => {
                    self.push(state[usize::from(code[at]) + 1]);
                    at += 1;
                }
                0x52 => {
                    self.push(samples[usize::from(code[at])]);
                    at += 1;
                }
                0x30 => self.binary(i32::saturating_add),
                0x31 => self.binary(i32::saturating_sub),
                0x32 => self.binary(i32::saturating_mul),
                0x33 => self.binary(|a, b| (a < b).into()),
                0x34 => self.binary(|a, b| (a == b).into()),
                0x35 => self.binary(i32::min),
                0x36 => self.binary(i32::max),
                0x38 => self.unary(i32::saturating_neg),
                0x3A => self.choose(),
                0x3B => self.unary(|word| table::look_up(rows, word)),
                _ => return self.pop(),
            }
        }
    }
}
