//! The library's calls against the reference, on random and damaged inputs.
//!
//!     differential [COUNT [SEED]]
//!
//! Each of COUNT rounds lends one pair to compile, to report, to moves and to dependents, parts and links to join, a program text of the
//! earlier rule to convert, bytes to list and their text to assemble, and then images, states and samples to reset, cycle and tail, and
//! makes calls of a board. After each call the answers and all that was lent must be equal. It stops at the first difference with the
//! bytes lent. Round r depends on the seed and on r alone. At the end it prints how often each call gave each number, how often rows or
//! the table were the reason where a number has others too, and how often a join was refused for each fault put in.
mod board;
mod forms;
#[path = "../cases/generate.rs"]
mod generate;
// The benchmark uses the rest of these.
#[allow(dead_code)]
#[path = "../cases/images.rs"]
mod images;
#[path = "../library.rs"]
mod library;
#[path = "../cases/parts.rs"]
mod parts;
#[path = "../cases/random.rs"]
mod random;
#[path = "../cases/tables.rs"]
mod tables;
// A trial is compared by a program of its own.
#[allow(dead_code)]
#[path = "../reference/mod.rs"]
mod reference;

use generate::{Pair, Shape, Twist};
use parts::{Fault, Join, FAULTS};
use random::Random;
use reference::{Board, Outcome};
use std::process::exit;

const COUNT: u64 = 200_000;
const SEED: u64 = 20_260_101;
/// Every image fits, with its tail.
const IMAGE_BYTES: usize = 24_679;
/// The refusals of the papers, of the text form and of dependents.
const NUMBERS: [usize; 36] = [
    1, 2, 3, 4, 5, 6, 7, 8, 9, 10, 29, 30, 11, 12, 13, 14, 15, 16, 31, 17, 20, 21, 22, 23, 26, 27, 28, 40, 41, 42, 43, 44, 45, 46, 47,
    48,
];
/// One more than the highest.
const TOP: usize = 49;
/// Those of a join, of the whole and inside a part.
const JOINED: [usize; 8] = [1, 4, 27, 31, 9, 14, 15, 17];
const INSIDE: [usize; 18] = [1, 2, 3, 4, 5, 6, 7, 8, 9, 10, 29, 30, 11, 12, 13, 14, 15, 16];
const ROW: u8 = 0x16;
/// Every list of moves fits.
const LIST_BYTES: usize = 30_720;

/// How many answers of each number a call gave.
struct Counts([u64; TOP]);

impl Default for Counts {
    fn default() -> Self {
        Counts([0; TOP])
    }
}

/// By call, and what else is to be met.
#[derive(Default)]
struct Seen {
    compile: Counts,
    /// Joins that are refused inside a part count in the second.
    join: Counts,
    part: Counts,
    report: Counts,
    reset: Counts,
    cycle: Counts,
    tail: Counts,
    convert: Counts,
    assemble: Counts,
    list: Counts,
    moves: Counts,
    dependents: Counts,
    load: Counts,
    mark: Counts,
    turn: Counts,
    /// What the runs of turns answered.
    run: Counts,
    /// Compiles refused by 4 and by 5 at a ROW.
    row_counts: u64,
    row_ranges: u64,
    /// Well-formed images that a change to the table alone has made 20.
    tables: u64,
    /// Well-formed images as they were before there were tables.
    older: u64,
    /// Joins refused for each fault put in.
    faults: [u64; FAULTS.len()],
    /// Joins done that have links, and those whose hypercycle is not 1.
    linked: u64,
    mixed: u64,
    /// Lists of moves that were too short, and those with more entries than signals.
    short: u64,
    moved: u64,
    /// Inputs that reach no signal, and those that reach several.
    unread: u64,
    reaching: u64,
}

impl Seen {
    /// With the name of each.
    fn calls(&self) -> [(&'static str, &Counts); 16] {
        [
            ("compile", &self.compile),
            ("join", &self.join),
            ("in a part", &self.part),
            ("report", &self.report),
            ("reset", &self.reset),
            ("cycle", &self.cycle),
            ("tail", &self.tail),
            ("convert", &self.convert),
            ("assemble", &self.assemble),
            ("list", &self.list),
            ("moves", &self.moves),
            ("dependents", &self.dependents),
            ("load", &self.load),
            ("mark", &self.mark),
            ("turn", &self.turn),
            ("run", &self.run),
        ]
    }
}

fn hexadecimal(bytes: &[u8]) -> String {
    bytes.iter().map(|byte| format!("{byte:02X}")).collect::<Vec<_>>().join(" ")
}

fn count(seen: &mut Counts, answer: u64) {
    seen.0[(answer >> 32) as usize] += 1;
}

fn count_rows(seen: &mut Seen, program: &[u8], answer: u64) {
    let at_row = program.get(answer as u32 as usize) == Some(&ROW);
    match answer >> 32 {
        4 if at_row => seen.row_counts += 1,
        5 if at_row => seen.row_ranges += 1,
        _ => {}
    }
}

/// Prints the call that differs and stops.
fn differ(round: u64, call: &str, lent: &[String], library: u64, reference: u64, kept: bool) -> ! {
    println!("round {round}: {call} differs");
    lent.iter().for_each(|line| println!("  {line}"));
    for (name, answer) in [("library", library), ("reference", reference)] {
        println!("  {name}: number {}, value {}", answer >> 32, answer as u32);
    }
    println!("  what was lent is {} after both", if kept { "equal" } else { "not equal" });
    exit(1);
}

/// What is lent to the calls of a board, on one side.
#[derive(Clone)]
struct Lent {
    record: library::Record,
    images: Vec<u8>,
    state: Vec<i32>,
    outcome: [u32; 3],
}

/// L, by bytes 2-3.
fn stated(image: &[u8]) -> usize {
    u16::from_le_bytes([image[2], image[3]]).into()
}

fn lent_to_join(join: &Join) -> [String; 3] {
    let [texts, links] = [&join.texts, &join.links].map(|bytes| hexadecimal(bytes));
    [format!("texts: {texts}"), format!("parts: {:?}", join.parts), format!("links: {links}")]
}

fn parts_of(join: &Join) -> Vec<reference::Part> {
    let part = |&[program, size, schedule, schedule_size]: &[usize; 4]| reference::Part {
        program: (program, size),
        schedule: (schedule, schedule_size),
    };
    join.parts.iter().map(part).collect()
}

struct Round<'a> {
    number: u64,
    random: Random,
    seen: &'a mut Seen,
    buffers: &'a mut [Vec<u8>; 2],
}

impl Round<'_> {
    /// A legal pair, one with a fault put in, or one of them damaged.
    fn pair(&mut self) -> Pair {
        let random = &mut self.random;
        let shape = Shape::any(random);
        let twist = Twist::any(random);
        let mut pair = generate::pair(random, &shape, twist);
        let answer = reference::compile(&pair.program, &pair.schedule, &mut self.buffers[0]);
        let number = answer.map_or_else(|(number, _)| number, |_| 0);
        if number != pair.expected {
            println!("round {}: the reference gives {number}, but {} was put in", self.number, pair.expected);
            println!("  program: {}", hexadecimal(&pair.program));
            println!("  schedule: {}", hexadecimal(&pair.schedule));
            exit(1);
        }
        self.spoil(&mut pair);
        pair
    }

    /// Leaves two pairs in five as they are.
    fn spoil(&mut self, pair: &mut Pair) {
        let random = &mut self.random;
        match random.below(20) {
            0..=7 => {}
            8..=10 => generate::reschedule(random, &mut pair.schedule),
            11..=13 => (0..1 + random.below(3)).for_each(|_| generate::mistake(random, &mut pair.program)),
            14..=16 => (0..1 + random.below(3)).for_each(|_| random.damage(&mut pair.program)),
            17 => (0..1 + random.below(3)).for_each(|_| random.damage(&mut pair.schedule)),
            18 => {
                random.damage(&mut pair.program);
                random.damage(&mut pair.schedule);
            }
            _ => self.lengthen(pair),
        }
    }

    /// Bytes after END, up to the bound of a text or past it.
    fn lengthen(&mut self, pair: &mut Pair) {
        let over = self.random.below(2);
        match self.random.below(4) {
            0 => pair.program.resize(pair.program.len().max(generate::PROGRAM_BYTES + over), 0),
            1 => pair.schedule.resize(pair.schedule.len().max(generate::SCHEDULE_BYTES + over), 0x40),
            2 => pair.program = (0..self.random.below(40)).map(|_| self.random.byte()).collect(),
            _ => pair.schedule = (0..self.random.below(40)).map(|_| self.random.byte()).collect(),
        }
    }

    /// Compiles the pair by both into equal buffers. Yields the image of an accepted pair.
    fn compile(&mut self, pair: &Pair) -> Option<Vec<u8>> {
        let [ours, other] = &mut *self.buffers;
        let result = reference::compile(&pair.program, &pair.schedule, other);
        let image = result.ok().map(|length| other[..length].to_vec());
        let length = match &image {
            None => self.random.below(100),
            Some(image) => match self.random.below(8) {
                0 => image.len() - 1,
                1 => self.random.below(image.len()),
                2 => image.len(),
                3 => IMAGE_BYTES,
                _ => image.len() + self.random.below(64),
            },
        };
        let fill = self.random.next() as u8;
        ours[..length].fill(fill);
        other[..length].fill(fill);
        let library = library::compile(&pair.program, &pair.schedule, &mut ours[..length]);
        let reference = reference::answer(reference::compile(&pair.program, &pair.schedule, &mut other[..length]));
        let kept = ours[..length] == other[..length];
        if library != reference || !kept {
            let program = format!("program: {}", hexadecimal(&pair.program));
            let schedule = format!("schedule: {}", hexadecimal(&pair.schedule));
            let buffer = format!("image buffer: {length} bytes of {fill:02X}");
            differ(self.number, "compile", &[program, schedule, buffer], library, reference, kept);
        }
        count(&mut self.seen.compile, library);
        count_rows(self.seen, &pair.program, library);
        image
    }

    /// Reports on the pair by both into equal counts.
    fn report(&mut self, pair: &Pair) {
        let (fill, old) = (self.random.next() as u32, [0; 2].map(|_| self.random.next() as usize));
        let (mut ours, mut other, mut told) = ([fill; 240], [fill; 240], old);
        let library = library::report(&pair.program, &pair.schedule, &mut ours, &mut told);
        let sizes = reference::report(&pair.program, &pair.schedule, &mut other);
        let reference = reference::answer(sizes.map(|sizes| sizes.length));
        let kept = ours == other && told == sizes.map_or(old, |sizes| [sizes.written, sizes.stack]);
        if library != reference || !kept {
            let program = format!("program: {}", hexadecimal(&pair.program));
            let schedule = format!("schedule: {}", hexadecimal(&pair.schedule));
            differ(self.number, "report", &[program, schedule, format!("counts of {fill}, sizes {old:?}")], library, reference, kept);
        }
        count(&mut self.seen.report, library);
    }

    /// Lists the moves of the pair by both into equal lists, often too short.
    fn moves(&mut self, pair: &Pair) {
        let [ours, other] = &mut *self.buffers;
        let length = if self.random.one_in(4) { LIST_BYTES } else { self.random.below(300) };
        let fill = self.random.next() as u8;
        ours[..length].fill(fill);
        other[..length].fill(fill);
        let library = library::moves(&pair.program, &pair.schedule, &mut ours[..length]);
        let result = reference::moves(&pair.program, &pair.schedule, &mut other[..length]);
        let reference = reference::answer(result);
        let kept = ours[..length] == other[..length];
        if library != reference || !kept {
            let program = format!("program: {}", hexadecimal(&pair.program));
            let schedule = format!("schedule: {}", hexadecimal(&pair.schedule));
            let list = format!("list: {length} bytes of {fill:02X}");
            differ(self.number, "moves", &[program, schedule, list], library, reference, kept);
        }
        count(&mut self.seen.moves, library);
        if let Ok(entries) = result {
            self.seen.short += u64::from(2 * entries > length);
            self.seen.moved += u64::from(entries > pair.schedule.len() / 3);
        }
    }

    /// Marks by both the signals that any number reaches, and those that each input of an accepted pair does.
    fn dependents(&mut self, pair: &Pair, accepted: bool) {
        let signals = pair.schedule.len() / 3;
        let any = self.random.below(signals + 2);
        self.marks(pair, any);
        for input in 0..if accepted { signals } else { 0 } {
            if reference::dependents(&pair.program, &pair.schedule, input, &mut [0; 64]).is_ok() {
                self.marks(pair, input);
            }
        }
    }

    /// Into equal marks.
    fn marks(&mut self, pair: &Pair, input: usize) {
        let (program, schedule) = (&pair.program, &pair.schedule);
        let fill = self.random.next() as u8;
        let (mut ours, mut other) = ([fill; 64], [fill; 64]);
        let library = library::dependents(program, schedule, input, &mut ours);
        let result = reference::dependents(program, schedule, input, &mut other);
        let reference = reference::answer(result);
        let kept = ours == other;
        if library != reference || !kept {
            let program = format!("program: {}", hexadecimal(program));
            let schedule = format!("schedule: {}", hexadecimal(schedule));
            let marks = format!("input {input}, marks of {fill:02X}");
            differ(self.number, "dependents", &[program, schedule, marks], library, reference, kept);
        }
        count(&mut self.seen.dependents, library);
        if result.is_ok() {
            let marked = ours.iter().filter(|&&mark| mark == 1).count();
            self.seen.unread += u64::from(marked == 0);
            self.seen.reaching += u64::from(marked > 1);
        }
    }

    /// Parts and links, half of them with a fault put in, one in four damaged besides.
    fn parts(&mut self) -> Join {
        let fault = Fault::any(&mut self.random);
        let mut join = parts::join(&mut self.random, fault);
        let answer = reference::join(&join.texts, &parts_of(&join), &join.links, &mut self.buffers[0]);
        let number = answer.map_or_else(|((number, _), _)| number, |_| 0);
        if number != join.expected {
            println!("round {}: the reference gives {number}, but {} ({:?}) was put in", self.number, join.expected, join.fault);
            lent_to_join(&join).iter().for_each(|line| println!("  {line}"));
            exit(1);
        }
        if let Some(fault) = FAULTS.iter().position(|&fault| fault == join.fault) {
            self.seen.faults[fault] += 1;
        }
        if self.random.one_in(4) {
            self.spoil_join(&mut join);
        }
        join
    }

    fn spoil_join(&mut self, join: &mut Join) {
        let random = &mut self.random;
        match random.below(6) {
            0 => random.damage(&mut join.texts),
            1 | 2 => generate::mistake(random, &mut join.texts),
            3 => random.damage(&mut join.links),
            4 => join.parts.reverse(),
            _ if join.parts.is_empty() => join.parts.push([0; 4]),
            _ => {
                let (part, number) = (random.below(join.parts.len()), random.below(4));
                let by = random.pick(&[1, 2, usize::MAX]);
                join.parts[part][number] = join.parts[part][number].wrapping_add(by);
            }
        }
    }

    /// Joins parts by both into equal buffers. Yields the image of an accepted join.
    fn join(&mut self) -> Option<Vec<u8>> {
        let join = self.parts();
        let parts = parts_of(&join);
        let [ours, other] = &mut *self.buffers;
        let result = reference::join(&join.texts, &parts, &join.links, other);
        let image = result.ok().map(|length| other[..length].to_vec());
        let length = match &image {
            None => self.random.below(100),
            Some(image) if self.random.one_in(8) => self.random.pick(&[image.len() - 1, 0, image.len() / 2]),
            Some(image) => image.len() + self.random.below(64),
        };
        let (fill, old) = (self.random.next() as u8, self.random.next() as usize);
        ours[..length].fill(fill);
        other[..length].fill(fill);
        // Numbers that are no whole part are not looked at.
        let mut numbers = join.parts.concat();
        numbers.extend((0..self.random.below(4)).map(|_| self.random.next() as usize));
        let mut part = old;
        let library = library::join(&join.texts, &numbers, &join.links, &mut ours[..length], &mut part);
        let result = reference::join(&join.texts, &parts, &join.links, &mut other[..length]);
        let named = result.err().and_then(|(_, part)| part);
        let reference = reference::answer(result.map_err(|(refusal, _)| refusal));
        let kept = ours[..length] == other[..length] && part == named.unwrap_or(old);
        if library != reference || !kept {
            let mut lent = lent_to_join(&join).to_vec();
            lent.push(format!("image buffer: {length} bytes of {fill:02X}; part {old} before, {part} after; {named:?} by the reference"));
            differ(self.number, "join", &lent, library, reference, kept);
        }
        count(if named.is_some() { &mut self.seen.part } else { &mut self.seen.join }, library);
        if result.is_ok() {
            self.seen.linked += u64::from(!join.links.is_empty());
            self.seen.mixed += u64::from(other[0] > 1);
        }
        image
    }

    /// Converts a text of the earlier rule by both into equal buffers, and compiles what comes of an accepted one.
    fn convert(&mut self) {
        let random = &mut self.random;
        let shape = Shape { least: 1, ..Shape::any(random) };
        let twist = Twist::any(random);
        let mut pair = generate::pair(random, &shape, twist);
        if random.one_in(3) {
            (0..1 + random.below(3)).for_each(|_| generate::mistake(random, &mut pair.program));
        }
        let (answer, result) = self.written("convert", &pair.program, library::convert, reference::convert);
        count(&mut self.seen.convert, answer);
        if let Some(program) = result {
            pair.program = program;
            self.compile(&pair);
        }
    }

    /// Lends bytes and equal buffers to both, mostly long enough. Yields the answer, and what was written.
    fn written(
        &mut self,
        call: &str,
        lent: &[u8],
        library: impl Fn(&[u8], &mut [u8]) -> u64,
        reference: impl Fn(&[u8], &mut [u8]) -> Result<usize, reference::Refusal>,
    ) -> (u64, Option<Vec<u8>>) {
        // A listing takes up to nine bytes for one and ends with a newline.
        let mut whole = vec![0; 9 * lent.len() + 1];
        let length = match reference(lent, &mut whole) {
            Ok(length) => length + self.random.below(8) - self.random.below(4).min(length),
            Err(_) => self.random.below(100),
        };
        let fill = self.random.next() as u8;
        let (mut ours, mut other) = (vec![fill; length], vec![fill; length]);
        let answer = library(lent, &mut ours);
        let result = reference(lent, &mut other);
        let expected = reference::answer(result);
        if answer != expected || ours != other {
            let lent = [format!("lent: {}", hexadecimal(lent)), format!("result: {length} bytes of {fill:02X}")];
            differ(self.number, call, &lent, answer, expected, ours == other);
        }
        (answer, result.ok().map(|length| ours[..length].to_vec()))
    }

    /// Lists bytes, and assembles what comes of them, spelled otherwise.
    fn forms(&mut self, pair: &Pair) {
        let mut bytes = match self.random.below(4) {
            0 | 1 => pair.program.clone(),
            2 => pair.schedule.clone(),
            _ => forms::script(&mut self.random),
        };
        if self.random.one_in(4) {
            self.random.damage(&mut bytes);
        }
        let (answer, listing) = self.written("list", &bytes, library::list, reference::list);
        count(&mut self.seen.list, answer);
        let text = forms::respell(&mut self.random, &listing.unwrap_or(bytes));
        let (answer, _) = self.written("assemble", &text, library::assemble, reference::assemble);
        count(&mut self.seen.assemble, answer);
    }

    /// Texts at the bound of their length and past it.
    fn long_forms(&mut self) {
        for length in [1 << 24, (1 << 24) + 1] {
            let (answer, _) = self.written("assemble", &vec![b' '; length], library::assemble, reference::assemble);
            count(&mut self.seen.assemble, answer);
            let (answer, _) = self.written("list", &vec![0x30; length], library::list, reference::list);
            count(&mut self.seen.list, answer);
        }
    }

    /// A state for the image: mostly long enough and at a position of the hypercycle.
    fn state(&mut self, image: &[u8]) -> Vec<i32> {
        let random = &mut self.random;
        let [hypercycle, signals] = [0, 1].map(|at| image.get(at).copied().unwrap_or(0));
        let words = match random.below(8) {
            0 => random.below(usize::from(signals) + 2),
            1 => random.below(80),
            _ => usize::from(signals) + 1 + random.below(3),
        };
        let mut state = random.words(words);
        if let Some(position) = state.first_mut() {
            *position = match random.below(8) {
                0 => random.pick(&[-1, hypercycle.into(), i32::from(hypercycle) + 1, i32::MIN, i32::MAX]),
                1 => random.word(),
                _ => random.below(usize::from(hypercycle).max(1)) as i32,
            };
        }
        state
    }

    /// Samples for the image: mostly enough.
    fn samples(&mut self, image: &[u8]) -> Vec<i32> {
        let signals = usize::from(image.get(1).copied().unwrap_or(0));
        let words = if self.random.one_in(12) { self.random.below(signals + 1) } else { signals + self.random.below(3) };
        self.random.words(words)
    }

    fn reset(&mut self, image: &[u8], state: &mut Vec<i32>) {
        let before = state.clone();
        let mut other = state.clone();
        let library = library::reset(image, state);
        let reference = reference::answer(reference::reset(image, &mut other).map(|()| 0));
        if library != reference || *state != other {
            let lent = [format!("image: {}", hexadecimal(image)), format!("state: {before:?}")];
            differ(self.number, "reset", &lent, library, reference, *state == other);
        }
        count(&mut self.seen.reset, library);
    }

    fn tail(&mut self, image: &[u8]) {
        let old = self.random.next() as usize;
        let mut start = old;
        let library = library::tail(image, &mut start);
        let tail = reference::tail(image);
        let reference = reference::answer(tail.map(<[u8]>::len));
        let kept = start == tail.map_or(old, |tail| image.len() - tail.len());
        if library != reference || !kept {
            differ(self.number, "tail", &[format!("image: {}", hexadecimal(image))], library, reference, kept);
        }
        count(&mut self.seen.tail, library);
    }

    fn cycle(&mut self, image: &[u8], state: &mut Vec<i32>) {
        let samples = self.samples(image);
        let before = state.clone();
        let mut other = state.clone();
        let library = library::cycle(image, state, &samples);
        let reference = reference::answer(reference::cycle(image, &mut other, &samples).map(|commands| commands as usize));
        if library != reference || *state != other {
            let [state_words, samples] = [format!("state: {before:?}"), format!("samples: {samples:?}")];
            let lent = [format!("image: {}", hexadecimal(image)), state_words, samples];
            differ(self.number, "cycle", &lent, library, reference, *state == other);
        }
        count(&mut self.seen.cycle, library);
    }

    /// Cycles from any state, then a reset and a list of cycles: now and then through more than two hypercycles.
    fn calls(&mut self, image: &[u8]) {
        self.tail(image);
        let mut state = self.state(image);
        self.cycle(image, &mut state);
        self.reset(image, &mut state);
        let hypercycle = usize::from(image.first().copied().unwrap_or(0));
        // A refused image has no hypercycle.
        let long = self.random.one_in(32) && reference::tail(image).is_ok();
        let cycles = if long { 2 * hypercycle + 3 } else { self.random.below(4) };
        for _ in 0..cycles {
            self.cycle(image, &mut state);
        }
    }

    /// The calls on a well-formed image with its table changed; where it has no rows, now and then and also without its count byte, as
    /// images were before there were tables.
    fn tables(&mut self, image: &[u8]) {
        let image = &image[..stated(image)];
        if reference::tail(image).is_err() {
            return;
        }
        let older = images::before_tables(image);
        if older.is_none() || self.random.one_in(8) {
            let mut changed = image.to_vec();
            images::change_table(&mut self.random, &mut changed);
            self.seen.tables += u64::from(reference::tail(&changed).is_err());
            self.calls(&changed);
        }
        if let Some(older) = older.filter(|_| self.random.one_in(8)) {
            assert_eq!(reference::tail(&older), Err((20, 0)));
            self.seen.older += 1;
            self.calls(&older);
        }
    }

    /// Puts another tail after the image, or none, or one a byte too long or short; or leaves it.
    fn retail(&mut self, image: &mut Vec<u8>) {
        let tail = 4 * usize::from(image[1]);
        let bytes = match self.random.below(8) {
            0..=2 => return,
            3 | 4 => 0,
            5 => tail + 1,
            6 => tail.saturating_sub(1),
            _ => tail,
        };
        image.truncate(stated(image));
        image.extend((0..bytes).map(|_| self.random.byte()));
    }

    /// Compares a call of the board: the answers, the record and the state after both.
    fn compare(&mut self, call: &str, library: u64, reference: u64, ours: &Lent, other: &Lent) {
        let kept = ours.record == other.record && ours.state == other.state && ours.outcome == other.outcome;
        if library != reference || !kept {
            let records = [&ours.record, &other.record].map(|record| format!("record after: {record:?}"));
            let outcomes = format!("outcomes: {:?} and {:?}", ours.outcome, other.outcome);
            let lent = [format!("images: {}", hexadecimal(&ours.images)), records.join("; "), outcomes];
            differ(self.number, call, &lent, library, reference, kept);
        }
    }

    fn load(&mut self, ours: &mut Lent, other: &mut Lent, place: usize, start: usize, size: usize) {
        let library = library::board_load(&mut ours.record, &ours.images, &mut ours.state, place, start, size);
        let mut board = board::of_words(&other.record);
        let result = board.load(&other.images, &mut other.state, place, start, size);
        if result.is_ok() {
            board::store(&mut other.record, &board, place);
        }
        self.compare(&format!("load {place} {start} {size}"), library, reference::answer(result.map(|()| 0)), ours, other);
        count(&mut self.seen.load, library);
    }

    fn mark(&mut self, ours: &mut Lent, other: &mut Lent, place: usize) {
        let library = library::board_mark(&mut ours.record, place);
        let mut board = board::of_words(&other.record);
        let result = board.mark(place);
        if result.is_ok() {
            other.record[4 * place] = board::flags(&board.places[place]);
        }
        self.compare(&format!("mark {place}"), library, reference::answer(result.map(|()| 0)), ours, other);
        count(&mut self.seen.mark, library);
    }

    fn turn(&mut self, ours: &mut Lent, other: &mut Lent) {
        let words = if self.random.one_in(16) { self.random.below(256) } else { 256 + self.random.below(3) };
        let samples = self.random.words(words);
        let library = library::board_turn(&mut ours.record, &ours.images, &mut ours.state, &samples, &mut ours.outcome);
        let mut board = board::of_words(&other.record);
        let result = board.turn(&other.images, &mut other.state, &samples);
        if let Ok(outcome) = result {
            other.outcome = outcome.words();
            if outcome != Outcome::Idle {
                board::store(&mut other.record, &board, other.outcome[1] as usize);
                self.seen.run.0[if other.outcome[0] == 2 { other.outcome[2] as usize } else { 0 }] += 1;
            }
        }
        self.compare("turn", library, reference::answer(result.map(|_| 0)), ours, other);
        count(&mut self.seen.turn, library);
    }

    /// Four images in one buffer, with bytes between them, and where each starts.
    fn buffer(&mut self, image: &[u8]) -> (Vec<u8>, [(usize, usize); 4]) {
        let mut images = vec![];
        let stretches = [0; 4].map(|_| {
            images.resize(images.len() + self.random.below(5), 0xAA);
            let own = if self.random.one_in(3) { images::foreign_image(&mut self.random) } else { image.to_vec() };
            let start = images.len();
            images.extend_from_slice(&own);
            (start, own.len())
        });
        (images, stretches)
    }

    /// A board in use: loads, marks, turns and changes from outside.
    fn board(&mut self, image: &[u8]) {
        let (images, stretches) = self.buffer(image);
        let words = if self.random.one_in(16) { self.random.below(260) } else { 260 + self.random.below(3) };
        let mut record = library::board_new();
        assert_eq!(record, board::words_of(&Board::default()));
        if self.random.one_in(4) {
            record = record.map(|_| if self.random.one_in(3) { self.random.next() as usize } else { self.random.below(8) });
        }
        let outcome = [self.random.next() as u32; 3];
        let mut ours = Lent { record, images, state: self.random.words(words), outcome };
        let mut other = ours.clone();
        for (place, (start, size)) in stretches.into_iter().enumerate() {
            self.load(&mut ours, &mut other, place, start, size);
        }
        for _ in 0..4 + self.random.below(24) {
            match self.random.below(16) {
                0 => {
                    let (start, size) = self.random.pick(&stretches);
                    let off = self.random.pick(&[(0, 0), (0, 1), (usize::MAX, 1), (1, usize::MAX), (usize::MAX, usize::MAX)]);
                    let place = self.random.below(6);
                    self.load(&mut ours, &mut other, place, start.wrapping_add(off.0), size.wrapping_add(off.1));
                }
                1 => self.change(&mut ours, &mut other),
                2..=8 => {
                    let place = self.random.below(5);
                    self.mark(&mut ours, &mut other, place);
                }
                _ => self.turn(&mut ours, &mut other),
            }
        }
    }

    /// The images or the state change from outside.
    fn change(&mut self, ours: &mut Lent, other: &mut Lent) {
        match self.random.below(3) {
            0 => self.random.damage(&mut ours.images),
            1 => ours.images.truncate(self.random.below(ours.images.len() + 1)),
            _ => {
                let at = self.random.below(ours.state.len().max(1));
                if let Some(word) = ours.state.get_mut(at / 65 * 65) {
                    *word = self.random.word();
                }
            }
        }
        other.images.clone_from(&ours.images);
        other.state.clone_from(&ours.state);
    }

    /// One pair, then its image or one from elsewhere, whole and damaged.
    fn run(&mut self) {
        let pair = self.pair();
        let own = self.compile(&pair);
        self.report(&pair);
        self.moves(&pair);
        self.dependents(&pair, own.is_some());
        if let Some(image) = self.join() {
            self.calls(&image);
        }
        self.convert();
        self.forms(&pair);
        let mut image = own.unwrap_or_else(|| images::foreign_image(&mut self.random));
        self.retail(&mut image);
        self.calls(&image);
        self.board(&image);
        self.tables(&image);
        if self.random.one_in(2) {
            image.truncate(stated(&image));
        }
        for _ in 0..1 + self.random.below(2) {
            self.random.damage(&mut image);
        }
        if self.random.one_in(2) {
            images::set_length(&mut image);
        }
        self.calls(&image);
    }
}

fn print_seen(seen: &Seen) -> bool {
    let calls = seen.calls();
    println!("number {}", calls.map(|(name, _)| format!("{name:>10}")).join(" "));
    let mut all = true;
    for number in [0].into_iter().chain(NUMBERS) {
        let row = calls.map(|(_, counts)| counts.0[number]);
        println!("{number:>6} {}", row.map(|count| format!("{count:>10}")).join(" "));
        all &= row.iter().sum::<u64>() > 0;
    }
    let totals = calls.map(|(_, counts)| counts.0.iter().sum::<u64>());
    println!(" calls {}", totals.map(|total| format!("{total:>10}")).join(" "));
    let by_rows = [seen.row_counts, seen.row_ranges, seen.tables, seen.older];
    let [counts, ranges, tables, older] = by_rows;
    println!("compiles refused at a ROW: {counts} by 4, {ranges} by 5");
    println!("images refused by 20 for their table alone: {tables}, as from before there were tables: {older}");
    all &= by_rows.iter().all(|&count| count > 0) && print_joins(seen);
    // A join that did its job is no refusal inside a part.
    all && calls.iter().zip(totals).all(|((name, counts), total)| *name == "in a part" || counts.0[0] * 4 >= total)
}

fn print_joins(seen: &Seen) -> bool {
    let faults = FAULTS.iter().zip(seen.faults).map(|(fault, count)| format!("{fault:?} {count}"));
    println!("joins refused for a fault put in: {}", faults.collect::<Vec<_>>().join(", "));
    println!("joins done with links: {}, with a hypercycle over 1: {}", seen.linked, seen.mixed);
    println!("lists of moves too short: {}, with more entries than signals: {}", seen.short, seen.moved);
    println!("inputs that reach no signal: {}, that reach several: {}", seen.unread, seen.reaching);
    let of_joins = JOINED.iter().all(|&number| seen.join.0[number] > 0) && INSIDE.iter().all(|&number| seen.part.0[number] > 0);
    let others = [seen.linked, seen.mixed, seen.short, seen.moved, seen.unread, seen.reaching];
    of_joins && seen.faults.iter().chain(&others).all(|&count| count > 0)
}

fn main() {
    let mut arguments = std::env::args().skip(1).map(|argument| argument.parse().expect("a number"));
    let rounds = arguments.next().unwrap_or(COUNT);
    let seed = arguments.next().unwrap_or(SEED);
    println!("{rounds} rounds from seed {seed}");
    let mut seen = Seen::default();
    let mut buffers = [vec![0; LIST_BYTES], vec![0; LIST_BYTES]];
    for number in 0..rounds {
        let random = Random(Random(seed ^ number << 32).next());
        Round { number, random, seen: &mut seen, buffers: &mut buffers }.run();
    }
    Round { number: rounds, random: Random(seed), seen: &mut seen, buffers: &mut buffers }.long_forms();
    let covered = print_seen(&seen);
    println!("no difference");
    if !covered {
        println!("but not every number was seen, or fewer than one call in four did its job: take more rounds");
        exit(1);
    }
}
