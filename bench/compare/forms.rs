//! Texts of the text form: listings with other separators, and with faults put in.
use super::random::Random;

const SEPARATORS: [&str; 8] = [" ", "\n", "\t", "\r\n", "  ", " ; NOW 3\n", ";\n", "\n;; IN\r;\n\n"];
/// Words, names and numbers at the ends of the ranges and past them.
const TOKENS: [&str; 28] = [
    "END", "IN", "TABLE", "ROW", "now", "ENDS", "open", "exists", "backward", "0", "-0", "00", "01", "-", "--1", "-1", "1x", "255",
    "256", "65535", "65536", "2147483647", "2147483648", "-2147483648", "-2147483649", "4294967295", "4294967296",
    "99999999999999999999",
];

/// One text in two has a token put in, one left out or one changed; one in eight is damaged besides.
pub fn respell(random: &mut Random, listing: &[u8]) -> Vec<u8> {
    let mut tokens: Vec<&[u8]> = listing.split(u8::is_ascii_whitespace).filter(|token| !token.is_empty()).collect();
    if random.one_in(2) && !tokens.is_empty() {
        let (at, other) = (random.below(tokens.len()), random.pick(&TOKENS).as_bytes());
        match random.below(8) {
            0 => tokens.insert(at, other),
            1 => drop(tokens.remove(at)),
            2 => tokens.truncate(at),
            _ => tokens[at] = other,
        }
    }
    let mut text = Vec::new();
    for token in tokens {
        text.extend(token);
        text.extend(random.pick(&SEPARATORS).as_bytes());
    }
    if random.one_in(8) {
        random.damage(&mut text);
    }
    text
}

/// A script: inputs set and cycles run.
pub fn script(random: &mut Random) -> Vec<u8> {
    let mut bytes = Vec::new();
    for _ in 0..random.below(12) {
        let operand = random.byte();
        if random.one_in(2) {
            bytes.extend([0x70, operand]);
            bytes.extend(random.word().to_le_bytes());
        } else {
            bytes.extend([0x71, operand]);
        }
    }
    bytes.push(0);
    bytes
}
