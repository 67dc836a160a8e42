//! Random images that no program was compiled to.
use crate::random::Random;
use crate::tables::{self, Row};

const ROW_BYTES: usize = 12;

/// An image from elsewhere: its run lists may repeat or miss signals. It is well formed unless it is just over a bound, of the
/// hypercycle, the signals, the stack or the rows, its rows have a fault, or a code looks up and there is no row.
pub fn foreign_image(random: &mut Random) -> Vec<u8> {
    let hypercycle = if random.one_in(16) { random.pick(&[240, 241, 255]) } else { 1 + random.below(12) };
    let signals = if random.one_in(32) { random.pick(&[64, 65]) } else { random.below(8) };
    let most = 32 + usize::from(random.one_in(8));
    let mut list = || match signals {
        0 => vec![],
        _ => (0..random.below(6)).map(|_| random.below(signals) as u8).collect(),
    };
    let lists: Vec<Vec<u8>> = (0..hypercycle).map(|_| list()).collect();
    let rows = if random.one_in(2) { rows(random) } else { vec![] };
    let looks_up = !rows.is_empty() || random.one_in(16);
    let mut code_of = |own| {
        let peak = if random.one_in(4) { most } else { 1 + random.below(6) };
        code(random, own, signals, peak, 0, looks_up)
    };
    let codes: Vec<Vec<u8>> = (0..signals).map(&mut code_of).collect();
    image(random, &lists, &rows, &codes)
}

/// Rows for an image, one table in six with a fault.
fn rows(random: &mut Random) -> Vec<Row> {
    let count = tables::any_count(random);
    let mut rows = tables::covering(random, count);
    match random.below(36) {
        0 => tables::gap(random, &mut rows),
        1 => tables::meet(random, &mut rows),
        2 => tables::turn_over(random, &mut rows),
        3 => rows = tables::covering(random, 33),
        4 => rows.rotate_left(1),
        5 => rows.swap(0, count / 2),
        _ => {}
    }
    rows
}

/// An image of 64 signals that all run in every cycle, with long codes.
pub fn large_image(random: &mut Random, hypercycle: usize) -> Vec<u8> {
    let lists = vec![(0..64).collect(); hypercycle];
    let codes: Vec<Vec<u8>> = (0..64).map(|own| code(random, own, 64, 8, 350, false)).collect();
    image(random, &lists, &[], &codes)
}

fn image(random: &mut Random, lists: &[Vec<u8>], rows: &[Row], codes: &[Vec<u8>]) -> Vec<u8> {
    let mut at = 4 + 6 * codes.len() + 2 * (lists.len() + 1);
    let mut offsets = vec![at as u16];
    for list in lists {
        at += list.len();
        offsets.push(at as u16);
    }
    at += 1 + ROW_BYTES * rows.len();
    let mut image = vec![lists.len() as u8, codes.len() as u8, 0, 0];
    for code in codes {
        image.extend(random.word().to_le_bytes());
        image.extend((at as u16).to_le_bytes());
        at += code.len();
    }
    image.extend(offsets.into_iter().flat_map(u16::to_le_bytes));
    image.extend(lists.concat());
    image.push(rows.len() as u8);
    image.extend(rows.iter().flat_map(|&row| tables::bytes(row)));
    image.extend(codes.concat());
    set_length(&mut image);
    image
}

fn number_at(image: &[u8], at: usize) -> usize {
    u16::from_le_bytes([image[at], image[at + 1]]).into()
}

/// Where the table of a well-formed image starts: at the end of the run lists.
fn table_start(image: &[u8]) -> usize {
    number_at(image, 4 + 6 * usize::from(image[1]) + 2 * usize::from(image[0]))
}

/// One change to the table of a well-formed image, to its count or within its rows; all else stays. Some leave it well formed.
pub fn change_table(random: &mut Random, image: &mut [u8]) {
    let start = table_start(image);
    let (count, rows) = image[start..].split_first_mut().expect("a count byte");
    if *count == 0 || random.one_in(16) {
        *count = match random.below(3) {
            0 => count.wrapping_add(1),
            1 => count.wrapping_sub(1),
            _ => random.byte(),
        };
        return;
    }
    let (rows, _) = rows[..ROW_BYTES * usize::from(*count)].as_chunks_mut::<4>();
    let (row, other) = (3 * random.below(rows.len() / 3), 3 * random.below(rows.len() / 3));
    let moved = |word: [u8; 4], by: i32| i32::from_le_bytes(word).wrapping_add(by).to_le_bytes();
    match random.below(10) {
        0..=3 => rows[row + 2] = random.word().to_le_bytes(),
        4 | 5 if row > 0 => {
            let by = random.pick(&[1, -1]);
            rows[row] = moved(rows[row], by);
            rows[row - 2] = moved(rows[row - 2], by);
        }
        6 => rows.swap(row, row + 1),
        7 => (0..3).for_each(|field| rows.swap(row + field, other + field)),
        8 => rows[row + random.below(2)] = random.word().to_le_bytes(),
        _ => {
            let field = row + random.below(2);
            rows[field] = moved(rows[field], random.pick(&[1, -1]));
        }
    }
}

/// A well-formed image that has no rows as it was before there were tables: without the count byte.
pub fn before_tables(image: &[u8]) -> Option<Vec<u8>> {
    let start = table_start(image);
    if image[start] != 0 {
        return None;
    }
    let mut before = image.to_vec();
    before.remove(start);
    let codes = (0..usize::from(image[1])).map(|signal| 8 + 6 * signal);
    for field in codes.chain([2]) {
        let offset = number_at(image, field) - 1;
        before[field..field + 2].copy_from_slice(&(offset as u16).to_le_bytes());
    }
    Some(before)
}

pub fn set_length(image: &mut [u8]) {
    let length = image.len() as u16;
    if let Some(field) = image.get_mut(2..4) {
        field.copy_from_slice(&length.to_le_bytes());
    }
}

/// Code of at least so many bytes whose stack reaches the peak and comes down to one word.
fn code(random: &mut Random, own: usize, signals: usize, peak: usize, least: usize, looks_up: bool) -> Vec<u8> {
    let (mut text, mut height, mut rising) = (vec![], 0, true);
    while rising || height > 1 {
        match random.below(8) {
            0 | 1 if height >= 2 => {
                text.push(0x30 + random.below(7) as u8);
                height -= 1;
            }
            2 if height >= 3 => {
                text.push(0x3A);
                height -= 2;
            }
            3 if height >= 1 => text.push(if looks_up && random.one_in(2) { 0x3B } else { 0x38 }),
            _ if rising && height < peak => {
                push(random, own, signals, &mut text);
                height += 1;
            }
            _ => {}
        }
        rising &= height < peak || text.len() < least;
    }
    text.extend([0x5F, own as u8]);
    text
}

fn push(random: &mut Random, own: usize, signals: usize, text: &mut Vec<u8>) {
    match random.below(4) {
        0 => {
            text.push(0x50);
            text.extend(random.word().to_le_bytes());
        }
        1 => text.extend([0x52, own as u8]),
        _ => text.extend([0x51, random.below(signals) as u8]),
    }
}
