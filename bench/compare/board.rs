//! The reference's record as the words of include/larderlate.h.
use crate::library::Record;
use crate::reference::{Board, Place};

/// 1 loaded, 2 due.
pub fn flags(place: &Place) -> usize {
    usize::from(place.loaded) + 2 * usize::from(place.due)
}

/// Sets the words of a place, flags, start, size and count, and the place last taken.
pub fn store(words: &mut Record, board: &Board, place: usize) {
    let stored = &board.places[place];
    words[4 * place..][..4].copy_from_slice(&[flags(stored), stored.start, stored.size, stored.count as usize]);
    words[16] = board.last;
}

pub fn words_of(board: &Board) -> Record {
    let mut words = [0; 17];
    for place in 0..4 {
        store(&mut words, board, place);
    }
    words
}

/// Any words are a record.
pub fn of_words(words: &Record) -> Board {
    let place = |at: usize| Place {
        loaded: words[at] & 1 != 0,
        due: words[at] & 2 != 0,
        start: words[at + 1],
        size: words[at + 2],
        count: words[at + 3] as u32,
    };
    Board { places: [0, 4, 8, 12].map(place), last: words[16] }
}
