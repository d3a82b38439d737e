//! Random numbers, and random strings, bytes and sizes made of them.

/// splitmix64: the same inputs for the same seed everywhere.
#[derive(Clone)]
pub struct Rng(pub u64);

impl Rng {
    pub fn next(&mut self) -> u64 {
        self.0 = self.0.wrapping_add(0x9e37_79b9_7f4a_7c15);
        let mut z = self.0;
        z = (z ^ (z >> 30)).wrapping_mul(0xbf58_476d_1ce4_e5b9);
        z = (z ^ (z >> 27)).wrapping_mul(0x94d0_49bb_1331_11eb);
        z ^ (z >> 31)
    }

    pub fn below(&mut self, n: usize) -> usize {
        (self.next() % n as u64) as usize
    }

    pub fn pick<'a, T>(&mut self, xs: &'a [T]) -> &'a T {
        &xs[self.below(xs.len())]
    }

    pub fn one_in(&mut self, n: usize) -> bool {
        self.below(n) == 0
    }

    /// How many elements a list has.
    pub fn few(&mut self) -> usize {
        match self.below(10) {
            0..=2 => 0,
            3..=4 => 1,
            5 => 2,
            _ => self.below(6),
        }
    }

    fn size(&mut self) -> usize {
        match self.below(12) {
            0..=2 => 0,
            3 => 1,
            4 => *self.pick(&[15, 16, 17, 31, 32, 33, 63, 64, 65]),
            _ => self.below(12),
        }
    }

    /// A string with no zero byte: mostly plain, often UTF-8 of two to four bytes, and at times bytes that are no text.
    pub fn text(&mut self) -> Vec<u8> {
        let n = self.size();
        match self.below(16) {
            0 => (0..n).map(|_| (self.below(255) + 1) as u8).collect(),
            1..=5 => (0..n).flat_map(|_| self.pick(&LETTERS).bytes()).collect(),
            _ => (0..n).map(|_| (self.below(94) + 33) as u8).collect(),
        }
    }

    pub fn bytes(&mut self) -> Vec<u8> {
        let n = self.size();
        (0..n).map(|_| if self.one_in(4) { 0 } else { self.below(256) as u8 }).collect()
    }

    pub fn number(&mut self) -> i32 {
        match self.below(6) {
            0 => *self.pick(&[0, 1, -1, i32::MIN, i32::MAX, 255, 256, 65535, 65536]),
            _ => self.next() as i32,
        }
    }

    pub fn format(&mut self) -> i16 {
        match self.below(3) {
            0 => self.number() as i16,
            n => n as i16 - 1,
        }
    }
}

const LETTERS: [&str; 14] = ["a", "b", "S", "P", "1", " ", "é", "ß", "λ", "ж", "中", "€", "😀", "\u{7f}"];
