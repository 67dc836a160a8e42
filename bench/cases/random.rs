//! Random numbers from a seed, and damage to bytes.

pub struct Random(pub u64);

impl Random {
    /// SplitMix64: every seed will do, and each case can start from a seed of its own.
    pub fn next(&mut self) -> u64 {
        self.0 = self.0.wrapping_add(0x9E3779B97F4A7C15);
        let mixed = (self.0 ^ (self.0 >> 30)).wrapping_mul(0xBF58476D1CE4E5B9);
        let mixed = (mixed ^ (mixed >> 27)).wrapping_mul(0x94D049BB133111EB);
        mixed ^ (mixed >> 31)
    }

    pub fn below(&mut self, bound: usize) -> usize {
        (self.next() % bound as u64) as usize
    }

    pub fn one_in(&mut self, times: usize) -> bool {
        self.below(times) == 0
    }

    pub fn pick<T: Copy>(&mut self, from: &[T]) -> T {
        from[self.below(from.len())]
    }

    /// A word: often one at which an operator turns.
    pub fn word(&mut self) -> i32 {
        match self.below(4) {
            0 => self.pick(&[0, 1, -1, 2, i32::MIN, i32::MIN + 1, i32::MAX, 65536]),
            1 => self.below(21) as i32 - 10,
            _ => self.next() as i32,
        }
    }

    pub fn words(&mut self, count: usize) -> Vec<i32> {
        (0..count).map(|_| self.word()).collect()
    }

    /// A byte: often a command, or one at a bound.
    pub fn byte(&mut self) -> u8 {
        const TELLING: [u8; 45] = [
            0, 1, 2, 3, 63, 64, 65, 239, 240, 241, 254, 255, 0x10, 0x11, 0x12, 0x13, 0x14, 0x15, 0x16, 0x20, 0x21, 0x22, 0x23,
            0x24, 0x25, 0x26, 0x30, 0x33, 0x36, 0x37, 0x38, 0x39, 0x3A, 0x3B, 0x3C, 0x40, 0x50, 0x51, 0x52, 0x53, 0x5F, 16, 17,
            31, 128,
        ];
        if self.one_in(2) {
            self.pick(&TELLING)
        } else {
            self.next() as u8
        }
    }

    /// One change to any bytes.
    pub fn damage(&mut self, bytes: &mut Vec<u8>) {
        let (end, byte) = (bytes.len(), self.byte());
        if end == 0 {
            bytes.push(byte);
            return;
        }
        let (at, other) = (self.below(end), self.below(end));
        match self.below(16) {
            0..=4 => bytes[at] = byte,
            5 => bytes[at] = bytes[at].wrapping_add(1),
            6 => bytes[at] = bytes[at].wrapping_sub(1),
            7 => bytes.swap(at, other),
            8 if at + 1 < end => bytes.swap(at, at + 1),
            8 | 9 => bytes.insert(at, byte),
            10 | 11 => drop(bytes.remove(at)),
            12 => bytes.truncate(at),
            13 => bytes.truncate(end - 1 - self.below(end.min(8))),
            14 => bytes.push(byte),
            _ => {
                let stretch = bytes[at..end.min(at + 16)].to_vec();
                bytes.splice(other..other, stretch);
            }
        }
    }
}
