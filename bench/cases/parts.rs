//! Random parts and links to join: legal by construction, or with one fault put in.
use crate::generate::{self, Pair, Shape, Signal, Twist, PROGRAM_BYTES};
use crate::random::Random;
use crate::tables;

const PARTS: usize = 8;
const SIGNALS: usize = 64;
const CHAINS: usize = 16;

/// Part, IN, part, signal.
type Link = [u8; 4];

pub struct Join {
    pub texts: Vec<u8>,
    /// Start and length of a part's program and of its schedule.
    pub parts: Vec<[usize; 4]>,
    pub links: Vec<u8>,
    /// The fault that is in it, and the number of its refusal.
    pub fault: Fault,
    pub expected: u8,
}

/// The fault put in.
#[derive(Clone, Copy, Debug, PartialEq)]
pub enum Fault {
    None,
    TooLong,
    NinthPart,
    Outside,
    InPart,
    Cut,
    NoInput,
    NoSignal,
    OwnPart,
    LinkedTwice,
    Periods,
    RowsTwice,
    Signals,
    Chains,
    Hypercycle,
    Unmet,
    Ring,
    Cap,
}

/// All but None, in the order in which they are judged.
pub const FAULTS: [Fault; 17] = [
    Fault::TooLong,
    Fault::NinthPart,
    Fault::Outside,
    Fault::InPart,
    Fault::Cut,
    Fault::NoInput,
    Fault::NoSignal,
    Fault::OwnPart,
    Fault::LinkedTwice,
    Fault::Periods,
    Fault::RowsTwice,
    Fault::Signals,
    Fault::Chains,
    Fault::Hypercycle,
    Fault::Unmet,
    Fault::Ring,
    Fault::Cap,
];

impl Fault {
    pub fn any(random: &mut Random) -> Fault {
        let fault = random.pick(&FAULTS);
        if random.one_in(2) {
            fault
        } else {
            Fault::None
        }
    }
}

#[derive(Clone)]
struct Part {
    pair: Pair,
    signals: Vec<Signal>,
    tabled: bool,
}

/// Parts being joined.
struct Draft {
    parts: Vec<Part>,
    links: Vec<Link>,
    hypercycle: usize,
    /// 0 as long as no fault is in it.
    expected: u8,
}

pub fn join(random: &mut Random, fault: Fault) -> Join {
    let mut draft = Draft::of_parts(random, fault);
    draft.add_parts(random, fault);
    draft.link(random);
    draft.spoil_links(random, fault);
    draft.cap(random, fault);
    draft.lay_out(random, fault)
}

impl Draft {
    /// All periods divide the same hypercycle, and rows stand in one part at most.
    fn of_parts(random: &mut Random, fault: Fault) -> Draft {
        let shape = Shape::any(random);
        let count = match random.below(16) {
            0 => random.below(2),
            1..=11 => 2 + random.below(3),
            _ => 2 + random.below(PARTS - 1),
        };
        let tabled = if shape.rows > 0 || fault == Fault::RowsTwice { random.below(count.max(1)) } else { count };
        let both = fault == Fault::RowsTwice && count > 1;
        let faulty = if fault == Fault::InPart { random.below(count.max(1)) } else { count };
        let expected = if both { 31 } else { 0 };
        let mut draft = Draft { parts: vec![], links: vec![], hypercycle: shape.hypercycle, expected };
        for number in 0..count {
            let tabled = number == tabled || both && number == (tabled + 1) % count;
            let shape = part_shape(random, &shape, count, tabled);
            draft.add_part(random, &shape, number == faulty);
        }
        draft
    }

    fn add_part(&mut self, random: &mut Random, shape: &Shape, faulty: bool) {
        let tabled = shape.rows > 0;
        if let Some(part) = self.parts.last().filter(|part| !(part.tabled || tabled || faulty) && random.one_in(8)) {
            return self.parts.push(part.clone());
        }
        let twist = |random: &mut Random| if faulty { Twist::any(random) } else { Twist::None };
        let (mut pair, signals) = loop {
            let twist = twist(random);
            let (pair, signals) = generate::pair_with_signals(random, shape, twist);
            if faulty == (pair.expected > 0) || pair.expected == 1 {
                break (pair, signals);
            }
        };
        if faulty && random.one_in(6) {
            pair.schedule.resize(generate::SCHEDULE_BYTES + 1 + random.below(2), 0);
            pair.expected = 1;
        }
        self.expected = self.expected.max(pair.expected);
        self.parts.push(Part { pair, signals, tabled });
    }

    fn signals(&self) -> usize {
        self.parts.iter().map(|part| part.signals.len()).sum()
    }

    /// Parts that go over a bound together, or up to it.
    fn add_parts(&mut self, random: &mut Random, fault: Fault) {
        let (signals, room) = (self.signals(), PARTS - self.parts.len());
        match fault {
            Fault::Signals if room >= 2 => {
                let over = SIGNALS + 1 - signals + random.below(3);
                self.parts.extend([inputs(over / 2, 1), inputs(over - over / 2, 1)]);
                self.expected = 4;
            }
            Fault::Chains if room >= 2 => {
                let first = 1 + random.below(CHAINS);
                self.parts.extend([chains(first), chains(CHAINS + 1 - first)]);
                self.expected = 4;
            }
            Fault::Hypercycle if room >= 2 && signals <= SIGNALS - 2 => {
                let periods = [random.pick(&[16, 32, 240]), random.pick(&[17, 19, 239])];
                self.parts.extend(periods.map(|period| inputs(1, period)));
                self.expected = 9;
            }
            Fault::None if room >= 1 && random.one_in(8) => self.parts.push(inputs(SIGNALS - signals, 1)),
            _ => {}
        }
    }

    /// Each IN with each signal of another part, as links.
    fn candidates(&self) -> Vec<Link> {
        let inputs = self.numbered().filter(|(_, _, signal)| signal.input);
        let link = |part: usize, input: usize| {
            let others = self.numbered().filter(move |&(other, _, _)| other != part);
            others.map(move |(other, signal, _)| [part, input, other, signal].map(|number| number as u8))
        };
        inputs.flat_map(|(part, input, _)| link(part, input)).collect()
    }

    /// Every signal with its part and its number in it.
    fn numbered(&self) -> impl Iterator<Item = (usize, usize, &Signal)> {
        let parts = self.parts.iter().enumerate();
        parts.flat_map(|(number, part)| part.signals.iter().enumerate().map(move |(signal, of)| (number, signal, of)))
    }

    fn signal(&self, part: u8, signal: u8) -> &Signal {
        &self.parts[usize::from(part)].signals[usize::from(signal)]
    }

    fn equal_periods(&self, &[part, input, other, signal]: &Link) -> bool {
        self.signal(part, input).period == self.signal(other, signal).period
    }

    /// By the line of NOW, and the order of the parts where both run in one cycle.
    fn met(&self, &[part, input, other, signal]: &Link) -> bool {
        let (reader, written) = (self.signal(part, input).phase, self.signal(other, signal).phase);
        written < reader || written == reader && other < part
    }

    fn any_candidate(&self, random: &mut Random, which: impl Fn(&Link) -> bool) -> Option<Link> {
        let candidates: Vec<Link> = self.candidates().into_iter().filter(which).collect();
        (!candidates.is_empty()).then(|| random.pick(&candidates))
    }

    /// Links that are right, in any order.
    fn link(&mut self, random: &mut Random) {
        let mut candidates = self.candidates();
        candidates.sort_by_cached_key(|_| random.next());
        let most = random.below(24);
        for link in candidates {
            let linked = self.links.iter().any(|other| other[..2] == link[..2]);
            if self.links.len() < most && !linked && self.equal_periods(&link) && self.met(&link) {
                self.links.push(link);
            }
        }
    }

    /// Puts a link anywhere among the others, in place of one of the same IN.
    fn put_link(&mut self, random: &mut Random, link: Link, expected: u8) {
        self.links.retain(|other| other[..2] != link[..2]);
        self.links.insert(random.below(self.links.len() + 1), link);
        self.expected = expected;
    }

    fn spoil_links(&mut self, random: &mut Random, fault: Fault) {
        let found = match fault {
            Fault::NoInput => Some(self.without_input(random)),
            Fault::NoSignal => self.any_candidate(random, |_| true).map(|link| self.without_signal(random, link)),
            Fault::OwnPart => self.any_candidate(random, |_| true).map(|[part, input, _, _]| [part, input, part, input]),
            Fault::LinkedTwice => return self.link_again(random),
            Fault::Periods => self.any_candidate(random, |link| !self.equal_periods(link)),
            Fault::Unmet => self.any_candidate(random, |link| self.equal_periods(link) && !self.met(link)),
            Fault::Ring => return self.close_ring(random),
            _ => None,
        };
        if let Some(link) = found {
            self.put_link(random, link, if fault == Fault::Unmet { 14 } else { 31 });
        }
    }

    /// A link of a part that is not there, of an equation, or of a signal that is not there.
    fn without_input(&self, random: &mut Random) -> Link {
        let equations: Vec<(usize, usize)> = self.numbered().filter(|(_, _, signal)| !signal.input).map(|(a, b, _)| (a, b)).collect();
        let [other, signal] = [random.below(self.parts.len() + 1), random.below(4)];
        let (part, input) = match random.below(3) {
            0 if !equations.is_empty() => random.pick(&equations),
            1 if !self.parts.is_empty() => {
                let part = random.below(self.parts.len());
                let over = self.parts[part].signals.len() + random.below(2);
                (part, random.pick(&[over, 64, 255]))
            }
            _ => (random.pick(&[self.parts.len(), PARTS, 255]), random.below(2)),
        };
        [part, input, other, signal].map(|number| number as u8)
    }

    fn without_signal(&self, random: &mut Random, [part, input, other, _]: Link) -> Link {
        let over = self.parts[usize::from(other)].signals.len() + random.below(2);
        match random.below(2) {
            0 => [part, input, other, random.pick(&[over, 64, 255]) as u8],
            _ => [part, input, random.pick(&[self.parts.len(), PARTS, 255]) as u8, 0],
        }
    }

    fn link_again(&mut self, random: &mut Random) {
        if self.links.is_empty() {
            return;
        }
        let link = random.pick(&self.links);
        let same_input = |other: &Link| other[..2] == link[..2] && self.equal_periods(other);
        let again = self.any_candidate(random, same_input).unwrap_or(link);
        self.links.insert(random.below(self.links.len() + 1), again);
        self.expected = 31;
    }

    /// Two inputs that read each other.
    fn close_ring(&mut self, random: &mut Random) {
        let both = |link: &Link| self.equal_periods(link) && self.signal(link[2], link[3]).input;
        if let Some(link @ [part, input, other, signal]) = self.any_candidate(random, both) {
            self.put_link(random, link, 14);
            self.put_link(random, [other, signal, part, input], 14);
        }
    }

    /// Gives some parts a CAP that holds for all.
    fn cap(&mut self, random: &mut Random, fault: Fault) {
        let most = generate::most_load(self.parts.iter().flat_map(|part| &part.signals), self.hypercycle);
        let over = fault == Fault::Cap && most > 0;
        let least = if over { random.below(self.parts.len()) } else { self.parts.len() };
        let capped = over || random.one_in(3);
        for (number, part) in self.parts.iter_mut().enumerate().filter(|(_, part)| part.pair.expected == 0) {
            if number == least {
                add_cap(&mut part.pair, most - 1);
            } else if capped && random.one_in(2) {
                add_cap(&mut part.pair, most + random.pick(&[0, 0, 1, 1000, u32::MAX - most]));
            }
        }
        self.expected = if over { 15 } else { self.expected };
    }

    /// The texts in one buffer, with bytes between them.
    fn lay_out(self, random: &mut Random, fault: Fault) -> Join {
        let Draft { parts: drafts, links, mut expected, .. } = self;
        let (mut texts, mut parts) = (vec![], vec![]);
        for Part { pair, .. } in drafts {
            let mut lay = |text: &[u8], random: &mut Random| {
                texts.extend((0..random.below(3)).map(|_| random.byte()));
                let start = texts.len();
                texts.extend_from_slice(text);
                [start, text.len()]
            };
            let first = random.one_in(2).then(|| lay(&pair.schedule, random));
            let program = lay(&pair.program, random);
            let schedule = first.unwrap_or_else(|| lay(&pair.schedule, random));
            parts.push([program[0], program[1], schedule[0], schedule[1]]);
        }
        let mut links = links.concat();
        if fault == Fault::Cut {
            cut(random, &mut links);
            expected = 31;
        }
        spoil_parts(random, texts.len(), &mut parts, fault, &mut expected);
        let over = parts.iter().fold(0usize, |total, part| total.saturating_add(part[1])) > PROGRAM_BYTES;
        let fault = if over { Fault::TooLong } else { fault };
        expected = if over { 1 } else { expected };
        Join { texts, parts, links, fault: if expected > 0 { fault } else { Fault::None }, expected }
    }
}

fn part_shape(random: &mut Random, whole: &Shape, count: usize, tabled: bool) -> Shape {
    Shape {
        signals: random.below((SIGNALS / count).min(10) + 1),
        periods: whole.periods.clone(),
        chains: random.below(CHAINS / count + 1).min(whole.chains),
        capped: false,
        rows: if tabled { tables::any_count(random) } else { 0 },
        bytes: whole.bytes / count,
        ..*whole
    }
}

/// A part of so many inputs of a period.
fn inputs(count: usize, period: u8) -> Part {
    let mut program = [0x10, period, 7, 0, 0, 0].repeat(count);
    program.push(0);
    let mut schedule: Vec<u8> = (0..count as u8).flat_map(|signal| [0x40, signal, 0]).collect();
    schedule.push(0);
    let signals = generate::inputs(count, period.into());
    Part { pair: Pair { program, schedule, expected: 0 }, signals, tabled: false }
}

/// A part of one equation, which reads itself, and so many chains over it.
fn chains(count: usize) -> Part {
    let equation = [0x11, 1, 0, 0, 0, 0, 0, 0, 0x22, 0];
    let chain = [0x12, 1, 2, 0, 0x13, 0, 0x13, 0].repeat(count);
    let program = [&equation[..], &chain, &[0]].concat();
    // Its signal is not linked.
    Part { pair: Pair { program, schedule: vec![0x40, 0, 0, 0], expected: 0 }, signals: vec![], tabled: false }
}

fn add_cap(pair: &mut Pair, cap: u32) {
    pair.program.pop();
    pair.program.push(0x14);
    pair.program.extend(cap.to_le_bytes());
    pair.program.push(0);
}

/// Leaves one to three bytes of the last link, or adds as many.
fn cut(random: &mut Random, links: &mut Vec<u8>) {
    let bytes = 1 + random.below(3);
    if links.is_empty() || random.one_in(2) {
        links.extend((0..bytes).map(|_| random.byte()));
    } else {
        links.truncate(links.len() - bytes);
    }
}

fn spoil_parts(random: &mut Random, length: usize, parts: &mut Vec<[usize; 4]>, fault: Fault, expected: &mut u8) {
    if parts.is_empty() {
        return;
    }
    let at = random.below(parts.len());
    match fault {
        // The last of these are sums that would go round to a small one.
        Fault::TooLong => match random.below(4) {
            0 => parts[at][1] += PROGRAM_BYTES,
            1 => parts[at][1] = usize::MAX - random.below(3),
            2 => parts.extend([[0, usize::MAX, 0, 0], [0, 1, 0, 0]]),
            _ => parts.extend([[0, 1 << 63, 0, 0]; 2]),
        },
        Fault::NinthPart => {
            let part = random.pick(&[parts[at], [0; 4], [usize::MAX, 0, 1, usize::MAX]]);
            parts.resize(PARTS + 1 + random.below(3), part);
            *expected = 4;
        }
        Fault::Outside => {
            let text = 2 * random.below(2);
            let [start, size] = [parts[at][text], parts[at][text + 1]];
            match random.below(4) {
                0 => parts[at][text] = length - size + 1,
                1 => parts[at][text] = usize::MAX - random.below(3),
                2 => parts[at][3] = usize::MAX - random.below(length),
                // A text of no bytes is outside, too.
                _ => parts[at][text..text + 2].copy_from_slice(&[start + length + 1, 0]),
            }
            *expected = 27;
        }
        _ => {}
    }
}
