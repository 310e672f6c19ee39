//! Files of imports: records of numbers in groups of seven bits, the low group first.
use crate::loops::FIRST;
use crate::random::Random;

#[derive(Default)]
struct File(Vec<u8>);

impl File {
    fn number(mut self, mut n: u32) -> Self {
        assert!(n < 1 << 28);
        while n >= 0x80 {
            self.0.push(0x80 | n as u8);
            n >>= 7;
        }
        self.0.push(n as u8);
        self
    }

    fn numbers(self, all: impl IntoIterator<Item = u32>) -> Self {
        all.into_iter().fold(self, File::number)
    }

    /// Kind 0: a vector of non-negative integers for a global.
    fn load(self, global: u32, vector: &[u32]) -> Self {
        self.numbers([0, global, 1, vector.len() as u32]).numbers(vector.iter().copied())
    }

    /// Kind 1: so many steps.
    fn run(self, budget: u32) -> Self {
        self.numbers([1, budget])
    }
}

/// One run.
pub fn run(budget: u32) -> Vec<u8> {
    File::default().run(budget).0
}

/// So many loads of ten elements, each into any of the globals.
pub fn loads(count: usize, globals: usize, random: &mut Random) -> Vec<u8> {
    let mut file = File::default();
    for _ in 0..count {
        let global = FIRST as u32 + random.below(globals) as u32;
        file = file.load(global, &[(); 10].map(|_| element(random)));
    }
    file.0
}

/// A number of one to three bytes.
fn element(random: &mut Random) -> u32 {
    let bytes = 1 + random.below(3);
    random.below(1 << (7 * bytes)) as u32
}
