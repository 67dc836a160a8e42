//! Parts compiled alone, then joined (request k).
//!
//! In this order: 1, 4 and 27 of what is lent, the refusals of each part, 31, then 4, 9, 14, 15 and 17 of the joined pair.
use super::program::{Kind, Program, Read, Signal, CHAINS, SIGNALS};
use super::schedule::Schedule;
use super::{check, checks, write, Accepted, Refusal, PROGRAM_BYTES};

const PARTS: usize = 8;
const LINK_BYTES: usize = 4;

/// Where its texts stand in the lent buffer: start and length of each.
#[derive(Clone, Copy, Debug)]
pub struct Part {
    pub program: (usize, usize),
    pub schedule: (usize, usize),
}

/// An IN that reads a signal, both by their joined numbers.
struct Link {
    input: u8,
    signal: u8,
}

/// Writes the image of the joined parts and its tail, as a compile does. A refusal inside a part comes with its part.
pub fn join(texts: &[u8], parts: &[Part], links: &[u8], image: &mut [u8]) -> Result<usize, (Refusal, Option<usize>)> {
    let of_none = |refusal| (refusal, None);
    let texts = lent(texts, parts).map_err(of_none)?;
    let mut accepted = Vec::with_capacity(texts.len());
    for (number, (program, schedule)) in texts.into_iter().enumerate() {
        accepted.push(check(program, schedule).map_err(|refusal| (refusal, Some(number)))?);
    }
    joined(accepted, links).and_then(|pair| write(&pair, image)).map_err(of_none)
}

/// Program and schedule of each part.
fn lent<'a>(texts: &'a [u8], parts: &[Part]) -> Result<Vec<(&'a [u8], &'a [u8])>, Refusal> {
    let total = parts.iter().fold(0usize, |total, part| total.saturating_add(part.program.1));
    if total > PROGRAM_BYTES {
        return Err((1, 0));
    }
    if parts.len() > PARTS {
        return Err((4, 0));
    }
    let text = |(start, length): (usize, usize)| texts.get(start..start.checked_add(length)?);
    let both = |part: &Part| Some((text(part.program)?, text(part.schedule)?));
    parts.iter().map(both).collect::<Option<_>>().ok_or((27, 0))
}

fn joined(parts: Vec<Accepted>, links: &[u8]) -> Result<Accepted, Refusal> {
    judge_links(&parts, links)?;
    if parts.iter().filter(|part| !part.rows.is_empty()).count() > 1 {
        return Err((31, 0));
    }
    let total = |count: fn(&Program) -> usize| parts.iter().map(|part| count(&part.program)).sum::<usize>();
    if total(|program| program.signals.len()) > SIGNALS || total(|program| program.chains.len()) > CHAINS {
        return Err((4, 0));
    }
    let links = renumbered(&parts, links);
    let pair = concatenated(parts, &links)?;
    if let Some(unmet) = links.iter().position(|link| !met(&pair, link)) {
        return Err((14, unmet));
    }
    checks::load(&pair.program, &pair.schedule, pair.hypercycle)?;
    Ok(pair)
}

/// 31, the lowest link that is wrong. One that is cut is the last.
fn judge_links(parts: &[Accepted], links: &[u8]) -> Result<(), Refusal> {
    let mut linked = [[false; SIGNALS]; PARTS];
    let (links, cut) = links.as_chunks::<LINK_BYTES>();
    for (number, &[part, input, other, signal]) in links.iter().enumerate() {
        let sound = part != other && joins(parts, [part, input], [other, signal]);
        if !sound || std::mem::replace(&mut linked[usize::from(part)][usize::from(input)], true) {
            return Err((31, number));
        }
    }
    match cut {
        [] => Ok(()),
        _ => Err((31, links.len())),
    }
}

/// Whether there are an IN and a signal with these numbers, part and number in the part, and their periods are equal.
fn joins(parts: &[Accepted], input: [u8; 2], signal: [u8; 2]) -> bool {
    let found = |[part, signal]: [u8; 2]| {
        let program = &parts.get(usize::from(part))?.program;
        Some((program, program.signals.get(usize::from(signal))?))
    };
    match (found(input), found(signal)) {
        (Some((program, input)), Some((_, signal))) => is_input(program, input) && input.period == signal.period,
        _ => false,
    }
}

pub fn is_input(program: &Program, signal: &Signal) -> bool {
    program.code[signal.code] == 0x52
}

/// The links of parts with at most 64 signals in all.
fn renumbered(parts: &[Accepted], links: &[u8]) -> Vec<Link> {
    let mut bases = [0; PARTS];
    let mut next = 0;
    for (base, part) in bases.iter_mut().zip(parts) {
        *base = next;
        next += part.program.signals.len() as u8;
    }
    let (links, _) = links.as_chunks::<LINK_BYTES>();
    let number = |part: u8, signal: u8| bases[usize::from(part)] + signal;
    links.iter().map(|&[part, input, other, signal]| Link { input: number(part, input), signal: number(other, signal) }).collect()
}

/// The parts one after another, with the links in place of their inputs; or 9.
fn concatenated(parts: Vec<Accepted>, links: &[Link]) -> Result<Accepted, Refusal> {
    let mut program = Program::empty();
    let (mut schedule, mut rows) = (Schedule::new(), vec![]);
    for part in parts {
        // At most 64 signals in all.
        let base = program.signals.len() as u8;
        for &signal in part.schedule.order() {
            schedule.put(base + signal, part.schedule.phase[usize::from(signal)]);
        }
        append(&mut program, part.program);
        if !part.rows.is_empty() {
            rows = part.rows;
        }
    }
    for link in links {
        let code = program.signals[usize::from(link.input)].code;
        program.code[code..code + 2].copy_from_slice(&[0x51, link.signal]);
    }
    let hypercycle = checks::hypercycle(&program)?;
    Ok(Accepted { program, schedule, hypercycle, rows })
}

/// Signals, code and CAP. Reads and chains are judged in their part.
fn append(program: &mut Program, part: Program) {
    let (base, start) = (program.signals.len() as u8, program.code.len());
    program.code.extend(part.code);
    renumber(&mut program.code[start..], base);
    program.signals.extend(part.signals.into_iter().map(|signal| Signal { code: start + signal.code, ..signal }));
    program.cap = program.cap.into_iter().chain(part.cap).min();
}

/// Adds the base to each signal that the code names.
fn renumber(mut code: &mut [u8], base: u8) {
    loop {
        let width = match code {
            [] => return,
            [0x50, ..] => 5,
            [0x51 | 0x52 | 0x5F, signal, ..] => {
                *signal += base;
                2
            }
            _ => 1,
        };
        code = &mut code[width..];
    }
}

/// Whether the link's read by NOW is met.
fn met(pair: &Accepted, link: &Link) -> bool {
    let read = Read { at: 0, kind: Kind::Now, reader: link.input, signal: link.signal, index: Some(0), factor: 1 };
    checks::settled(&pair.program, &pair.schedule, &read).is_some()
}
