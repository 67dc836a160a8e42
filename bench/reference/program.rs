//! The program text (refusals 2 to 6). One pass reads the tables and writes each signal's code.
use super::table::{Row, ROWS};
use super::Refusal;
use std::ops::Range;

pub const SIGNALS: usize = 64;
pub const CHAINS: usize = 16;
const LINKS: usize = 16;
const DEPTH: usize = 16;
const PERIODS: std::ops::RangeInclusive<u8> = 1..=240;
const OPEN: u8 = 255;

pub struct Signal {
    pub period: u32,
    pub initial: [u8; 4],
    /// 0 for an input.
    pub weight: u32,
    pub reads: Range<usize>,
    /// Where its code starts in the program's code.
    pub code: usize,
    /// That of the TAG before it, or 0.
    pub label: u16,
}

#[derive(Clone, Copy, PartialEq)]
pub enum Kind {
    Now,
    Last,
    When,
    LastWhen,
    Current,
}

#[derive(Clone, Copy)]
pub struct Read {
    pub at: u16,
    pub kind: Kind,
    pub reader: u8,
    pub signal: u8,
    /// None is open.
    pub index: Option<u8>,
    pub factor: u8,
}

pub struct Link {
    pub at: usize,
    pub signal: u8,
}

pub struct Chain {
    pub at: usize,
    pub backward: bool,
    pub bound: u32,
    pub links: Range<usize>,
}

/// All tables are in order of offset.
pub struct Program {
    pub signals: Vec<Signal>,
    pub reads: Vec<Read>,
    pub chains: Vec<Chain>,
    pub links: Vec<Link>,
    /// With the offset of each ROW.
    pub rows: Vec<(usize, Row)>,
    /// Whether there is a TABLE.
    pub looks_up: bool,
    pub cap: Option<u32>,
    pub code: Vec<u8>,
}

impl Program {
    pub fn empty() -> Program {
        Program {
            signals: vec![],
            reads: vec![],
            chains: vec![],
            links: vec![],
            rows: vec![],
            looks_up: false,
            cap: None,
            code: vec![],
        }
    }
}

/// Factors go from `least` on: 2, or 1 by the earlier rule.
pub fn parse(text: &[u8], least: u8) -> Result<Program, Refusal> {
    let mut parser = Parser {
        text,
        at: 0,
        label: 0,
        least,
        program: Program {
            signals: Vec::with_capacity(SIGNALS.min(text.len() / 6)),
            reads: Vec::with_capacity(text.len() / 4),
            // No command's code is longer than the command.
            code: Vec::with_capacity(text.len()),
            ..Program::empty()
        },
    };
    while parser.command()? {}
    Ok(parser.program)
}

struct Parser<'a> {
    text: &'a [u8],
    at: usize,
    /// For the signal that comes next.
    label: u16,
    least: u8,
    program: Program,
}

impl Parser<'_> {
    fn take<const COUNT: usize>(&mut self) -> Result<[u8; COUNT], Refusal> {
        let rest = &self.text[self.at..];
        let bytes = rest.first_chunk().ok_or((2, self.text.len()))?;
        self.at += COUNT;
        Ok(*bytes)
    }

    fn byte(&mut self) -> Result<u8, Refusal> {
        self.take::<1>().map(|[byte]| byte)
    }

    fn word(&mut self) -> Result<i32, Refusal> {
        self.take().map(i32::from_le_bytes)
    }

    /// One command with its operands. False after END.
    fn command(&mut self) -> Result<bool, Refusal> {
        let at = self.at;
        match self.byte()? {
            0x00 if self.at < self.text.len() => return Err((6, self.at)),
            0x00 => return Ok(false),
            0x10 => self.input(at)?,
            0x11 => self.equation(at)?,
            0x12 => self.chain(at)?,
            0x14 => self.cap(at)?,
            0x15 => self.tag(at)?,
            0x16 => self.row(at)?,
            _ => return Err((3, at)),
        }
        Ok(true)
    }

    fn declare(&mut self, at: usize) -> Result<u8, Refusal> {
        let signal = self.program.signals.len();
        if signal == SIGNALS {
            return Err((4, at));
        }
        let period = self.byte()?;
        if !PERIODS.contains(&period) {
            return Err((5, at));
        }
        let initial = self.take()?;
        let reads = self.program.reads.len();
        self.program.signals.push(Signal {
            period: period.into(),
            initial,
            weight: 0,
            reads: reads..reads,
            code: self.program.code.len(),
            label: std::mem::take(&mut self.label),
        });
        Ok(signal as u8)
    }

    fn input(&mut self, at: usize) -> Result<(), Refusal> {
        let signal = self.declare(at)?;
        self.program.code.extend([0x52, signal, 0x5F, signal]);
        Ok(())
    }

    fn equation(&mut self, at: usize) -> Result<(), Refusal> {
        let signal = self.declare(at)?;
        let weight = u16::from_le_bytes(self.take()?);
        self.expression(signal, 1)?;
        self.program.code.extend([0x5F, signal]);
        let entry = &mut self.program.signals[signal as usize];
        entry.weight = weight.into();
        entry.reads.end = self.program.reads.len();
        Ok(())
    }

    /// The code of an expression is its operands' code in order, then its operator.
    fn expression(&mut self, reader: u8, depth: usize) -> Result<(), Refusal> {
        let at = self.at;
        let operator = self.byte()?;
        let operands = match operator {
            0x20..=0x25 => 0,
            0x38 | 0x3B => 1,
            0x30..=0x36 => 2,
            0x3A => 3,
            _ => return Err((3, at)),
        };
        if depth > DEPTH {
            return Err((4, at));
        }
        match operator {
            0x20 => {
                let word = self.take::<4>()?;
                self.program.code.push(0x50);
                self.program.code.extend(word);
            }
            0x21 => self.read(at, Kind::Now, reader)?,
            0x22 => self.read(at, Kind::Last, reader)?,
            0x23 => self.read(at, Kind::When, reader)?,
            0x24 => self.read(at, Kind::LastWhen, reader)?,
            0x25 => self.read(at, Kind::Current, reader)?,
            _ => {
                for _ in 0..operands {
                    self.expression(reader, depth + 1)?;
                }
                self.program.looks_up |= operator == 0x3B;
                self.program.code.push(operator);
            }
        }
        Ok(())
    }

    fn read(&mut self, at: usize, kind: Kind, reader: u8) -> Result<(), Refusal> {
        let signal = self.byte()?;
        let (index, factor, least) = match kind {
            Kind::Now | Kind::Last => (0, 1, 1),
            _ => (self.byte()?, self.byte()?, self.least),
        };
        if !(least..=240).contains(&factor) || (index >= factor && index != OPEN) {
            return Err((5, at));
        }
        self.program.code.extend([0x51, signal]);
        self.program.reads.push(Read {
            // A program has at most 8,192 bytes.
            at: at as u16,
            kind,
            reader,
            signal,
            index: (index != OPEN).then_some(index),
            factor,
        });
        Ok(())
    }

    fn chain(&mut self, at: usize) -> Result<(), Refusal> {
        if self.program.chains.len() == CHAINS {
            return Err((4, at));
        }
        let mode = self.byte()?;
        if mode > 1 {
            return Err((5, at));
        }
        let bound = u16::from_le_bytes(self.take()?);
        let first = self.program.links.len();
        while self.text.get(self.at) == Some(&0x13) {
            self.link(first)?;
        }
        let links = first..self.program.links.len();
        if links.len() < 2 {
            return Err((5, at));
        }
        self.program.chains.push(Chain { at, backward: mode == 1, bound: bound.into(), links });
        Ok(())
    }

    fn link(&mut self, first: usize) -> Result<(), Refusal> {
        let at = self.at;
        if self.program.links.len() - first == LINKS {
            return Err((4, at));
        }
        let [_, signal] = self.take()?;
        self.program.links.push(Link { at, signal });
        Ok(())
    }

    fn cap(&mut self, at: usize) -> Result<(), Refusal> {
        if self.program.cap.is_some() {
            return Err((5, at));
        }
        self.program.cap = Some(u32::from_le_bytes(self.take()?));
        Ok(())
    }

    /// The ends are judged before the result is taken.
    fn row(&mut self, at: usize) -> Result<(), Refusal> {
        if self.program.rows.len() == ROWS {
            return Err((4, at));
        }
        let (low, high) = (self.word()?, self.word()?);
        if low > high {
            return Err((5, at));
        }
        let result = self.word()?;
        self.program.rows.push((at, Row { low, high, result }));
        Ok(())
    }

    /// What follows a TAG is looked at once its label is taken.
    fn tag(&mut self, at: usize) -> Result<(), Refusal> {
        self.label = u16::from_le_bytes(self.take()?);
        match self.text.get(self.at) {
            Some(0x10 | 0x11) => Ok(()),
            Some(_) => Err((3, at)),
            None => Err((2, self.text.len())),
        }
    }
}
