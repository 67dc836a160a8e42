//! The schedule text (refusals 11 to 13).
use super::program::Signal;
use super::Refusal;

/// The schedule of a program whose signals are all put.
pub struct Schedule {
    /// The phase of each signal.
    pub phase: [u32; 64],
    /// The place of each signal in PUT order.
    pub rank: [u8; 64],
    /// The signals in PUT order, the program's count of them.
    order: [u8; 64],
    count: usize,
}

impl Schedule {
    /// No signal is put.
    pub fn new() -> Schedule {
        Schedule { phase: [0; 64], rank: [NOT_PUT; 64], order: [0; 64], count: 0 }
    }

    /// Puts one of at most 64 signals, which is not put yet, after the others.
    pub fn put(&mut self, signal: u8, phase: u32) {
        self.phase[usize::from(signal)] = phase;
        self.rank[usize::from(signal)] = self.count as u8;
        self.order[self.count] = signal;
        self.count += 1;
    }

    pub fn order(&self) -> &[u8] {
        &self.order[..self.count]
    }
}

const PUT: u8 = 0x40;
const PUT_BYTES: usize = 3;
const NOT_PUT: u8 = 255;

pub fn parse(text: &[u8], signals: &[Signal]) -> Result<Schedule, Refusal> {
    let end = end(text)?;
    let mut schedule = Schedule::new();
    for (number, put) in text[..end].chunks_exact(PUT_BYTES).enumerate() {
        let at = number * PUT_BYTES;
        let (signal, phase) = (usize::from(put[1]), u32::from(put[2]));
        if signal >= signals.len() || schedule.rank[signal] != NOT_PUT {
            return Err((12, at));
        }
        if phase >= signals[signal].period {
            return Err((13, at));
        }
        schedule.put(signal as u8, phase);
    }
    if schedule.count < signals.len() {
        return Err((12, end));
    }
    Ok(schedule)
}

/// The offset of END. Before it stand whole PUTs, after it nothing.
fn end(text: &[u8]) -> Result<usize, Refusal> {
    let mut at = 0;
    while text.get(at) == Some(&PUT) {
        at += PUT_BYTES;
    }
    match text.get(at) {
        None => Err((11, text.len())),
        Some(0) if at + 1 < text.len() => Err((11, at + 1)),
        Some(0) => Ok(at),
        Some(_) => Err((11, at)),
    }
}
