//! Numbers that are the same in every run. A bench need not use all of them.
#![allow(dead_code)]

pub struct Random(pub u64);

impl Random {
    pub fn below(&mut self, n: usize) -> usize {
        self.0 ^= self.0 << 13;
        self.0 ^= self.0 >> 7;
        self.0 ^= self.0 << 17;
        (self.0 >> 33) as usize % n
    }

    fn sign(&mut self) -> u32 {
        (self.below(2) as u32) << 31
    }

    /// The word of an integer between -2,000 and 2,000.
    pub fn integer(&mut self) -> u32 {
        match self.below(2_000) as u32 {
            0 => 0,
            magnitude => self.sign() | magnitude,
        }
    }

    /// The word of a float with a magnitude from 1 to 256.
    pub fn float(&mut self) -> u32 {
        self.sign() | 0x6000_0000 + self.below(0x200_0000) as u32
    }
}
