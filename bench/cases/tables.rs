//! Random tables: with every word in exactly one row, or with a fault put in.
use crate::random::Random;
use std::collections::BTreeSet;

/// The most rows.
pub const ROWS: usize = 32;

/// Low, high and result.
pub type Row = [i32; 3];

/// So many rows, one at least, that cut the words into stretches, by rising low.
pub fn covering(random: &mut Random, count: usize) -> Vec<Row> {
    let mut lows = BTreeSet::from([i32::MIN]);
    while lows.len() < count {
        lows.insert(random.word());
    }
    let highs = lows.iter().skip(1).map(|next| next - 1).chain([i32::MAX]);
    lows.iter().zip(highs).map(|(&low, high)| [low, high, random.word()]).collect()
}

/// As many rows as a program or an image may have, often at a bound.
pub fn any_count(random: &mut Random) -> usize {
    let any = 1 + random.below(ROWS);
    random.pick(&[1, 2, 3, 31, ROWS, any])
}

/// Takes a word at least out of a covering table, now and then the lowest or the highest.
pub fn gap(random: &mut Random, rows: &mut Vec<Row>) {
    let (last, any) = (rows.len() - 1, random.below(rows.len()));
    let at = random.pick(&[0, last, any]);
    let [low, high, _] = rows[at];
    match random.below(3) {
        0 if low < high => rows[at][0] += 1,
        1 if low < high => rows[at][1] -= 1,
        // A row that is alone has more than one word.
        _ if last == 0 => rows[at][0] += 1,
        _ => drop(rows.remove(at)),
    }
}

/// Puts a word at least of a covering table into two rows.
pub fn meet(random: &mut Random, rows: &mut Vec<Row>) {
    let at = random.below(rows.len());
    let [low, high, _] = rows[at];
    match random.below(4) {
        0 if low > i32::MIN => rows[at][0] -= 1,
        1 if high < i32::MAX => rows[at][1] += 1,
        // The words of the row that goes lie in none, too.
        2 if rows.len() > 1 => rows[at] = rows[(at + 1) % rows.len()],
        _ if rows.len() < ROWS => rows.push(any(random)),
        _ => rows[at] = rows[(at + 1) % rows.len()],
    }
}

/// Puts the low of a row above its high.
pub fn turn_over(random: &mut Random, rows: &mut [Row]) {
    let at = random.below(rows.len());
    let [low, high, result] = any(random);
    rows[at] = if low < high { [high, low, result] } else { [0, -1, result] };
}

/// A row by itself.
pub fn any(random: &mut Random) -> Row {
    let (one, other) = (random.word(), random.word());
    [one.min(other), one.max(other), random.word()]
}

pub fn bytes(row: Row) -> Vec<u8> {
    row.into_iter().flat_map(i32::to_le_bytes).collect()
}
