//! The table: rows of a program (refusals 29 and 30) and of an image.
use super::program::Program;
use super::Refusal;

/// The most rows.
pub const ROWS: usize = 32;
/// The bytes of a row in an image.
pub const ROW_BYTES: usize = 12;
/// How many words there are.
const WORDS: i64 = 1 << 32;

/// Both ends belong to a row.
#[derive(Clone, Copy)]
pub struct Row {
    pub low: i32,
    pub high: i32,
    pub result: i32,
}

impl Row {
    pub fn of_bytes(bytes: &[u8; ROW_BYTES]) -> Row {
        let word = |at: usize| i32::from_le_bytes([bytes[at], bytes[at + 1], bytes[at + 2], bytes[at + 3]]);
        Row { low: word(0), high: word(4), result: word(8) }
    }

    pub fn bytes(self) -> [u8; ROW_BYTES] {
        let mut bytes = [0; ROW_BYTES];
        for (field, word) in bytes.chunks_exact_mut(4).zip([self.low, self.high, self.result]) {
            field.copy_from_slice(&word.to_le_bytes());
        }
        bytes
    }

    fn words(self) -> i64 {
        i64::from(self.high) - i64::from(self.low) + 1
    }
}

/// Whether rows that lie apart have every word: that is so if they have as many.
fn full(rows: impl Iterator<Item = Row>) -> bool {
    rows.map(Row::words).sum::<i64>() == WORDS
}

/// The program's rows by rising low. 29: a row meets an earlier one; 30: there is a ROW or a TABLE, and a word lies in no row.
pub fn sorted(program: &Program) -> Result<Vec<Row>, Refusal> {
    let mut table: Vec<Row> = Vec::with_capacity(program.rows.len());
    for &(at, row) in &program.rows {
        // Those taken lie apart, so only the first that does not end below this one can meet it.
        let next = table.partition_point(|earlier| earlier.high < row.low);
        if table.get(next).is_some_and(|earlier| earlier.low <= row.high) {
            return Err((29, at));
        }
        table.insert(next, row);
    }
    let needed = program.looks_up || !table.is_empty();
    if needed && !full(table.iter().copied()) {
        return Err((30, 0));
    }
    Ok(table)
}

/// Whether an image may have these rows: none, or every word in exactly one of them.
pub fn formed(rows: &[[u8; ROW_BYTES]]) -> bool {
    let each = || rows.iter().map(Row::of_bytes);
    let apart = || each().zip(each().skip(1)).all(|(row, next)| row.high < next.low);
    rows.len() <= ROWS && each().all(|row| row.low <= row.high) && apart() && (rows.is_empty() || full(each()))
}

/// The result of the row that contains a word, by rows that have every word.
pub fn look_up(rows: &[[u8; ROW_BYTES]], word: i32) -> i32 {
    let row = rows.partition_point(|row| Row::of_bytes(row).high < word);
    Row::of_bytes(&rows[row]).result
}
