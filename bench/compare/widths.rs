//! The command lists of the paper as widths, in plain Rust: the command byte and its operands.

/// The width of a command in a kind of text: 0 program, 1 expression, 2 schedule, 3 image code.
pub fn width(kind: usize, byte: u8) -> Option<usize> {
    const WORD: usize = 4;
    let operands = match (kind, byte) {
        (0, 0x00) | (2, 0x00) => 0,
        (0, 0x10) => 1 + WORD,
        (0, 0x11) => 1 + WORD + 2,
        (0, 0x12) => 1 + 2,
        (0, 0x13) => 1,
        (0, 0x14) => 4,
        (0, 0x15) => 2,
        (0, 0x16) => 3 * WORD,
        (1, 0x20) | (3, 0x50) => WORD,
        (1, 0x21 | 0x22) => 1,
        (1, 0x23..=0x25) => 3,
        (1 | 3, 0x30..=0x36 | 0x38 | 0x3A | 0x3B) => 0,
        (2, 0x40) => 2,
        (3, 0x51 | 0x52 | 0x5F) => 1,
        _ => return None,
    };
    Some(1 + operands)
}
