//! Random pairs of program and schedule: legal by construction, or with one fault put in.
//!
//! Here it is found by trial (every index, every cycle, many runs) what a met read, a load or a latency is, and not by the
//! reference's arithmetic. So what is expected of these pairs tests the reference too.
use crate::random::Random;
use crate::tables::{self, ROWS};

pub const PROGRAM_BYTES: usize = 8192;
pub const SCHEDULE_BYTES: usize = 193;
const NOW: u8 = 0x21;
const LAST: u8 = 0x22;
const WHEN: u8 = 0x23;
const LASTWHEN: u8 = 0x24;
const CURRENT: u8 = 0x25;
const TABLE: u8 = 0x3B;
const ROW: u8 = 0x16;

#[derive(Clone)]
pub struct Pair {
    pub program: Vec<u8>,
    pub schedule: Vec<u8>,
    /// The number of the refusal, 0 where the pair is accepted.
    pub expected: u8,
}

/// What a pair is like, and how large.
pub struct Shape {
    pub signals: usize,
    /// The periods to choose from, and a multiple of them all.
    pub periods: Vec<usize>,
    pub hypercycle: usize,
    /// How deep an expression may nest.
    pub depth: usize,
    /// Whether all operands of an operator nest, or one.
    pub bushy: bool,
    pub chains: usize,
    pub capped: bool,
    /// Whether some signals have labels.
    pub tagged: bool,
    /// How many rows its table has. Without one there is no TABLE.
    pub rows: usize,
    /// The least factor of a sampled read: 2, or 1 in a text of the earlier rule.
    pub least: i64,
    /// About how many bytes all expressions have at most.
    pub bytes: usize,
}

impl Shape {
    pub fn any(random: &mut Random) -> Shape {
        let large = random.one_in(16);
        let hypercycle = match random.below(4) {
            0 => 1 + random.below(240),
            1 => random.pick(&[120, 144, 168, 180, 210, 216, 240]),
            _ => random.pick(&[1, 2, 4, 6, 8, 12, 16, 20, 24, 30, 48, 60]),
        };
        let divisors: Vec<usize> = (1..=hypercycle).filter(|period| hypercycle % period == 0).collect();
        Shape {
            signals: match random.below(8) {
                0 => random.below(3),
                1..=5 => 1 + random.below(8),
                _ if large => 33 + random.below(32),
                _ => 8 + random.below(16),
            },
            // Few different periods, so that many pairs of signals have a ratio.
            periods: (0..1 + random.below(4)).map(|_| random.pick(&divisors)).collect(),
            hypercycle,
            depth: random.pick(&[1, 2, 3, 4, 6, 16]),
            bushy: random.one_in(2),
            chains: if random.one_in(2) { random.below(if large { 17 } else { 4 }) } else { 0 },
            capped: random.one_in(3),
            tagged: random.one_in(2),
            rows: if random.one_in(3) { tables::any_count(random) } else { 0 },
            least: 2,
            bytes: if large { 7300 } else { 40 + random.below(600) },
        }
    }
}

/// The fault put in.
#[derive(Clone, Copy)]
pub enum Twist {
    None,
    Signals,
    Depth,
    Chains,
    Links,
    Hypercycle,
    LinkUnread,
    Cap,
    Latency,
    Tag,
    Rows,
    RowTurnedOver,
    RowCut,
    RowTagged,
    Gap,
    Meeting,
    TableAlone,
}

impl Twist {
    pub fn any(random: &mut Random) -> Twist {
        match random.below(60) {
            0 => Twist::Signals,
            1 => Twist::Depth,
            2 => Twist::Chains,
            3 => Twist::Links,
            4 => Twist::Hypercycle,
            5 => Twist::LinkUnread,
            6 | 7 => Twist::Cap,
            8..=10 => Twist::Latency,
            11..=13 => Twist::Tag,
            14 => Twist::Rows,
            15 => Twist::RowTurnedOver,
            16 => Twist::RowCut,
            17 => Twist::RowTagged,
            18 | 19 => Twist::Gap,
            20 | 21 => Twist::Meeting,
            22 => Twist::TableAlone,
            _ => Twist::None,
        }
    }
}

#[derive(Clone)]
pub struct Signal {
    pub input: bool,
    pub period: i64,
    pub phase: i64,
    /// Its place in PUT order.
    rank: usize,
    weight: u16,
    reads: Vec<Read>,
}

#[derive(Clone, Copy)]
pub struct Read {
    kind: u8,
    signal: usize,
    index: i64,
    factor: i64,
}

pub fn pair(random: &mut Random, shape: &Shape, twist: Twist) -> Pair {
    pair_with_signals(random, shape, twist).0
}

/// The signals are those without what a fault has added.
pub fn pair_with_signals(random: &mut Random, shape: &Shape, twist: Twist) -> (Pair, Vec<Signal>) {
    let mut signals = signals(random, shape);
    let room = shape.bytes / shape.signals.max(1);
    let mut commands: Vec<Vec<u8>> = vec![];
    for signal in 0..signals.len() {
        let (text, reads) = declaration(random, shape, &signals, signal, room);
        signals[signal].reads = reads;
        commands.push(text);
    }
    let declared = commands.len();
    let constrained = constraints(random, shape, &signals, twist, &mut commands);
    let tabled = table(random, shape, twist, &mut commands);
    let mut expected = if tabled > 0 { tabled } else { constrained };
    // Constraints and rows may stand anywhere between declarations.
    for constraint in declared..commands.len() {
        let text = commands.remove(constraint);
        commands.insert(random.below(constraint + 1), text);
    }
    excess(random, &signals, twist, &mut commands, &mut expected);
    let mut program = commands.concat();
    program.push(0);
    if program.len() > PROGRAM_BYTES {
        expected = 1;
    }
    (Pair { program, schedule: schedule(&signals), expected }, signals)
}

fn signals(random: &mut Random, shape: &Shape) -> Vec<Signal> {
    let mut ranks: Vec<usize> = (0..shape.signals).collect();
    for last in (1..ranks.len()).rev() {
        ranks.swap(last, random.below(last + 1));
    }
    let signal = |rank| {
        let period = random.pick(&shape.periods);
        let phase = if random.one_in(2) { random.below(period) } else { random.below(period.min(2)) };
        let weight = if random.one_in(8) { 65535 } else { random.below(20) as u16 };
        Signal { input: random.one_in(4), period: period as i64, phase: phase as i64, rank, weight, reads: vec![] }
    };
    ranks.into_iter().map(signal).collect()
}

/// So many inputs of a period and phase 0.
pub fn inputs(count: usize, period: i64) -> Vec<Signal> {
    let input = |rank| Signal { input: true, period, phase: 0, rank, weight: 0, reads: vec![] };
    (0..count).map(input).collect()
}

fn declaration(random: &mut Random, shape: &Shape, signals: &[Signal], own: usize, room: usize) -> (Vec<u8>, Vec<Read>) {
    let signal = &signals[own];
    let mut text = if shape.tagged && random.one_in(2) { tag(random) } else { vec![] };
    text.extend([if signal.input { 0x10 } else { 0x11 }, signal.period as u8]);
    text.extend(random.word().to_le_bytes());
    if signal.input {
        return (text, vec![]);
    }
    text.extend(signal.weight.to_le_bytes());
    let mut equation = Equation { signals, own, least: shape.least, looks_up: shape.rows > 0, room, text, reads: vec![] };
    equation.expression(random, shape.depth, shape.bushy);
    (equation.text, equation.reads)
}

/// A TAG, its label now and then of bytes that are commands themselves.
fn tag(random: &mut Random) -> Vec<u8> {
    let byte = |random: &mut Random| if random.one_in(2) { random.byte() } else { 0x10 + random.below(7) as u8 };
    vec![0x15, byte(random), byte(random)]
}

/// An equation being written.
struct Equation<'a> {
    signals: &'a [Signal],
    own: usize,
    least: i64,
    looks_up: bool,
    room: usize,
    text: Vec<u8>,
    reads: Vec<Read>,
}

impl Equation<'_> {
    fn expression(&mut self, random: &mut Random, depth: usize, bushy: bool) {
        if depth == 1 || self.text.len() >= self.room || random.one_in(8) {
            return self.leaf(random);
        }
        let operators = [0x30, 0x31, 0x32, 0x33, 0x34, 0x35, 0x36, 0x38, 0x3A, TABLE];
        let operator = random.pick(&operators[..9 + usize::from(self.looks_up)]);
        let operands = match operator {
            0x38 | TABLE => 1,
            0x3A => 3,
            _ => 2,
        };
        self.text.push(operator);
        let spine = random.below(operands);
        for operand in 0..operands {
            let nests = bushy || operand == spine;
            self.expression(random, if nests { depth - 1 } else { 1 }, bushy);
        }
    }

    fn leaf(&mut self, random: &mut Random) {
        if random.one_in(5) {
            self.text.push(0x20);
            self.text.extend(random.word().to_le_bytes());
            return;
        }
        let read = self.read(random);
        self.text.extend([read.kind, read.signal as u8]);
        if read.kind >= WHEN {
            let open = random.one_in(2);
            self.text.extend([if open { 255 } else { read.index as u8 }, read.factor as u8]);
        }
        self.reads.push(read);
    }

    /// A read that is met. LAST of oneself always is.
    fn read(&self, random: &mut Random) -> Read {
        for _ in 0..6 {
            let signal = random.below(self.signals.len());
            let met = reads_met(self.signals, self.own, signal, self.least);
            if !met.is_empty() {
                return random.pick(&met);
            }
        }
        Read { kind: LAST, signal: self.own, index: 0, factor: 1 }
    }
}

/// Every read of `signal` by `own` that keeps the period rule and is met.
fn reads_met(signals: &[Signal], own: usize, signal: usize, least: i64) -> Vec<Read> {
    let (reader, written) = (&signals[own], &signals[signal]);
    let shared = (0..480).any(|cycle| runs(reader, cycle) && runs(written, cycle));
    let mut met = vec![];
    for kind in NOW..=CURRENT {
        let (longer, shorter) = if kind == CURRENT { (written, reader) } else { (reader, written) };
        let factor = longer.period / shorter.period;
        let allowed = if kind >= WHEN { factor >= least } else { factor == 1 };
        let fits = allowed && longer.period == factor * shorter.period;
        let ordered = match kind {
            LAST | LASTWHEN => reader.rank <= written.rank,
            _ => written.rank < reader.rank,
        };
        if fits && (ordered || !shared) {
            let lines = (0..factor).filter(|&index| line(kind, index, reader, written));
            met.extend(lines.map(|index| Read { kind, signal, index, factor }));
        }
    }
    met
}

fn runs(signal: &Signal, cycle: i64) -> bool {
    cycle % signal.period == signal.phase
}

/// The lines as the paper has them.
fn line(kind: u8, i: i64, r: &Signal, w: &Signal) -> bool {
    match kind {
        NOW => w.phase <= r.phase,
        LAST => r.phase <= w.phase,
        WHEN => i * w.period + w.phase <= r.phase && r.phase < (i + 1) * w.period + w.phase,
        LASTWHEN => (i - 1) * w.period + w.phase < r.phase && r.phase <= i * w.period + w.phase,
        _ => (i - 1) * r.period + r.phase < w.phase && w.phase <= i * r.period + r.phase,
    }
}

/// Adds CAP and chains. Yields the number expected.
fn constraints(random: &mut Random, shape: &Shape, signals: &[Signal], twist: Twist, commands: &mut Vec<Vec<u8>>) -> u8 {
    let mut expected = 0;
    if shape.capped || matches!(twist, Twist::Cap) {
        let most = most_load(signals.iter(), shape.hypercycle);
        let over = matches!(twist, Twist::Cap) && most > 0;
        let cap = if over { most - 1 } else { most + random.pick(&[0, 0, 1, 1000]) };
        commands.push([&[0x14][..], &cap.to_le_bytes()].concat());
        expected = if over { 15 } else { 0 };
    }
    for _ in 0..shape.chains + usize::from(matches!(twist, Twist::Latency) && shape.chains < 16) {
        let Some(links) = chain(random, signals) else {
            continue;
        };
        let backward = random.one_in(2);
        let (least, most) = latencies(signals, &links, shape.hypercycle as i64);
        let bound = if backward { most } else { least };
        let over = matches!(twist, Twist::Latency) && expected == 0;
        let bound = if over { bound - 1 } else { bound + random.pick(&[0, 0, 1, 60000]) };
        commands.push(chain_text(backward, bound as u16, &links));
        expected = if over { 16 } else { expected };
    }
    expected
}

/// Adds the rows. Yields the number expected. Where a twist is judged before 29 and 30, or after, one of these now and then is too.
fn table(random: &mut Random, shape: &Shape, twist: Twist, commands: &mut Vec<Vec<u8>>) -> u8 {
    let expected = match twist {
        Twist::RowTurnedOver => 5,
        Twist::Meeting => 29,
        Twist::Gap => 30,
        Twist::Hypercycle | Twist::LinkUnread | Twist::Cap | Twist::Latency if random.one_in(3) => random.pick(&[29, 30]),
        _ => 0,
    };
    let count = if expected > 0 { shape.rows.max(1) } else { shape.rows };
    if count == 0 {
        return 0;
    }
    let mut rows = tables::covering(random, count);
    match expected {
        5 => tables::turn_over(random, &mut rows),
        29 => tables::meet(random, &mut rows),
        30 => tables::gap(random, &mut rows),
        _ => {}
    }
    commands.extend(rows.into_iter().map(row_text));
    expected
}

fn row_text(row: tables::Row) -> Vec<u8> {
    [vec![ROW], tables::bytes(row)].concat()
}

fn chain_text(backward: bool, bound: u16, links: &[usize]) -> Vec<u8> {
    let mut text = vec![0x12, backward.into()];
    text.extend(bound.to_le_bytes());
    text.extend(links.iter().flat_map(|&link| [0x13, link as u8]));
    text
}

pub fn most_load<'a>(signals: impl Iterator<Item = &'a Signal> + Clone, hypercycle: usize) -> u32 {
    let load = |cycle| {
        let run = signals.clone().filter(|signal| !signal.input && runs(signal, cycle));
        run.map(|signal| u32::from(signal.weight)).sum()
    };
    (0..hypercycle as i64).map(load).max().unwrap_or(0)
}

fn reads_of(signals: &[Signal], link: usize, before: usize) -> Vec<Read> {
    let reads = signals[link].reads.iter();
    reads.copied().filter(|read| read.signal == before).collect()
}

/// A chain of 2 to 16 links, gone back from its last by signals that are read once.
fn chain(random: &mut Random, signals: &[Signal]) -> Option<Vec<usize>> {
    if signals.is_empty() {
        return None;
    }
    let mut links = vec![random.below(signals.len())];
    let length = if random.one_in(4) { 16 } else { 2 + random.below(4) };
    while links.len() < length {
        let link = links[links.len() - 1];
        let once = |before: &usize| reads_of(signals, link, *before).len() == 1;
        let before: Vec<usize> = (0..signals.len()).filter(once).collect();
        if before.is_empty() {
            break;
        }
        links.push(random.pick(&before));
    }
    links.reverse();
    (links.len() >= 2).then_some(links)
}

/// The least and the greatest latency of counted runs, over more hypercycles than there are links. Neither is 0.
fn latencies(signals: &[Signal], links: &[usize], hypercycle: i64) -> (i64, i64) {
    let last = &signals[links[links.len() - 1]];
    let first = &signals[links[0]];
    let (mut least, mut most) = (i64::MAX, 0);
    for k in 0..(links.len() as i64 + 2) * hypercycle / last.period {
        if let Some(m) = way_back(signals, links, k) {
            let latency = k * last.period + last.phase - (m * first.period + first.phase) + 1;
            (least, most) = (least.min(latency), most.max(latency));
        }
    }
    (least, most)
}

/// The element of the first link, if no element on the way is negative.
fn way_back(signals: &[Signal], links: &[usize], element: i64) -> Option<i64> {
    let mut k = element;
    for pair in links.windows(2).rev() {
        let read = reads_of(signals, pair[1], pair[0])[0];
        let (i, n) = (read.index, read.factor);
        k = match read.kind {
            NOW => k,
            LAST => k - 1,
            WHEN => k * n + i,
            LASTWHEN => k * n + i - 1,
            _ => (k - i).div_euclid(n),
        };
        if k < 0 {
            return None;
        }
    }
    Some(k)
}

/// Appends what the twist asks for, beyond a bound or a rule.
fn excess(random: &mut Random, signals: &[Signal], twist: Twist, commands: &mut Vec<Vec<u8>>, expected: &mut u8) {
    let input = |period: usize| vec![0x10, period as u8, 0, 0, 0, 0];
    match twist {
        Twist::Signals => {
            commands.extend((signals.len()..65).map(|_| input(1)));
            *expected = 4;
        }
        Twist::Depth => {
            let mut equation = vec![0x11, 1, 0, 0, 0, 0, 0, 0];
            equation.extend([0x38; 16]);
            equation.extend([0x20, 0, 0, 0, 0]);
            commands.push(equation);
            *expected = 4;
        }
        Twist::Chains => {
            commands.extend((0..17).map(|_| chain_text(false, 0, &[0, 0])));
            *expected = 4;
        }
        Twist::Links => {
            commands.push(chain_text(true, 65535, &[0; 17]));
            *expected = 4;
        }
        Twist::Hypercycle if signals.len() <= 62 => {
            commands.extend([input(random.pick(&[16, 32, 240])), input(random.pick(&[17, 19, 239]))]);
            *expected = 9;
        }
        Twist::LinkUnread if !signals.is_empty() => {
            let (before, link) = (random.below(signals.len()), random.below(signals.len()));
            if reads_of(signals, link, before).len() != 1 {
                let full = commands.iter().filter(|command| command[0] == 0x12).count() == 16;
                commands.push(chain_text(true, 65535, &[before, link]));
                *expected = if full { 4 } else { 10 };
            }
        }
        // Well placed before an IN or EQ that has no other.
        Twist::Tag => {
            let place = random.below(commands.len() + 1);
            let placed = commands.get(place).is_some_and(|next| matches!(next[0], 0x10 | 0x11));
            commands.insert(place, tag(random));
            *expected = if placed { *expected } else { 3 };
        }
        _ => excess_of_rows(random, signals, twist, commands, expected),
    }
}

fn excess_of_rows(random: &mut Random, signals: &[Signal], twist: Twist, commands: &mut Vec<Vec<u8>>, expected: &mut u8) {
    let rows = commands.iter().filter(|command| command[0] == ROW).count();
    match twist {
        // The last of them may be cut: it is refused before.
        Twist::Rows => {
            commands.extend((rows..ROWS).map(|_| row_text(tables::any(random))));
            let mut over = row_text([random.word(), random.word(), 0]);
            over.truncate(1 + random.below(over.len()));
            commands.push(over);
            *expected = 4;
        }
        // END is taken for a byte of the row.
        Twist::RowCut => {
            let mut cut = row_text([random.word(), random.word(), random.word()]);
            cut.truncate(1 + random.below(12));
            *expected = if rows == ROWS { 4 } else { cut_row(&cut) };
            commands.push(cut);
        }
        Twist::RowTagged => {
            let place = commands.iter().position(|command| command[0] == ROW).unwrap_or(commands.len());
            if rows == 0 {
                commands.push(row_text([i32::MIN, i32::MAX, 0]));
            }
            commands.insert(place, tag(random));
            *expected = 3;
        }
        Twist::TableAlone if rows == 0 && signals.len() < 64 => {
            commands.push(vec![0x11, 1, 0, 0, 0, 0, 0, 0, TABLE, 0x20, 0, 0, 0, 0]);
            *expected = 30;
        }
        _ => {}
    }
}

/// What is expected where these bytes and END are the last: 5 if both ends are there and low is above high, else 2.
fn cut_row(row: &[u8]) -> u8 {
    let bytes = [row, &[0]].concat();
    let word = |at: usize| bytes.get(at..at + 4).map(|word| i32::from_le_bytes(word.try_into().expect("four bytes")));
    match (word(1), word(5)) {
        (Some(low), Some(high)) if low > high => 5,
        _ => 2,
    }
}

fn schedule(signals: &[Signal]) -> Vec<u8> {
    let mut order: Vec<usize> = (0..signals.len()).collect();
    order.sort_by_key(|&signal| signals[signal].rank);
    let mut text: Vec<u8> = order.iter().flat_map(|&signal| [0x40, signal as u8, signals[signal].phase as u8]).collect();
    text.push(0);
    text
}

/// One change to a schedule that leaves it a list of PUTs.
pub fn reschedule(random: &mut Random, schedule: &mut Vec<u8>) {
    let puts = schedule.len() / 3;
    if puts == 0 {
        return;
    }
    let (put, other) = (3 * random.below(puts), 3 * random.below(puts));
    match random.below(6) {
        0 => schedule[put + 2] = random.byte(),
        1 => schedule[put + 2] = random.below(8) as u8,
        2 => drop(schedule.drain(put..put + 3)),
        3 => schedule[put + 1] = random.below(puts + 1) as u8,
        _ => (0..3).for_each(|byte| schedule.swap(put + byte, other + byte)),
    }
}

/// One change to what seems a command or a read: to its byte or to an operand, now and then with the text cut just there, so that
/// what is judged first shows.
pub fn mistake(random: &mut Random, program: &mut Vec<u8>) {
    let seems = |&at: &usize| matches!(program[at], 0x10..=ROW | NOW..=CURRENT);
    let places: Vec<usize> = (0..program.len()).filter(seems).collect();
    if places.is_empty() {
        return;
    }
    let command = random.pick(&places);
    let offset = random.below(if program[command] == ROW { 13 } else { 4 });
    let at = (command + offset).min(program.len() - 1);
    program[at] = match random.below(4) {
        0 if offset == 0 => NOW + random.below(5) as u8,
        1 if offset == 0 => 0x10 + random.below(7) as u8,
        0 | 1 => random.below(6) as u8,
        2 => random.below(65) as u8,
        _ => random.byte(),
    };
    if random.one_in(6) {
        program.truncate(at + 1 + random.below(2));
    }
}
