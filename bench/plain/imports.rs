//! A file of imports as one reads and replays it in Rust: one record at a time into two vectors that are used again, then the load
//! with the tests of the table, on the words of a segment. There is no machine on these words here: what a run does, the caller
//! says.
use crate::{acceptance, elements, storage};

const MOST_RANK: u32 = 15;
const MOST_ELEMENTS: u64 = 16_384;
const GREATEST_LENGTH: u32 = 65_535;
const GREATEST_INTEGER: u32 = 8_388_607;
const ARRAY: u32 = 0x0200_0000;
const RUN_DONE: u32 = 2;
const NO_RECORD: u32 = 25;

/// The number that a run of so many steps returns; it counts what finished.
pub type Run = fn(&mut [u32], [&[u8]; 2], u32, &mut [u32; 8]) -> u32;

/// For a file of loads alone.
pub fn no_run(_: &mut [u32], _: [&[u8]; 2], _: u32, _: &mut [u32; 8]) -> u32 {
    unreachable!("the file has no run")
}

enum Record {
    /// Of the value that was read, into a global.
    Load(u32),
    Run(u32),
}

#[derive(Default)]
struct Value {
    lengths: Vec<u32>,
    elements: Vec<u32>,
}

struct Reader<'a> {
    file: &'a [u8],
    place: usize,
}

impl Reader<'_> {
    /// One to four groups of seven bits, the low one first; a last group of zero is needless.
    #[inline]
    fn number(&mut self) -> Option<u32> {
        let mut n = 0;
        for group in 0..4 {
            let byte = *self.file.get(self.place)?;
            self.place += 1;
            n |= (byte as u32 & 0x7F) << (7 * group);
            if byte < 0x80 {
                return (byte != 0 || group == 0).then_some(n);
            }
        }
        None
    }

    /// So many numbers, none above a limit.
    fn numbers(&mut self, count: u32, limit: u32, into: &mut Vec<u32>) -> Option<()> {
        into.clear();
        for _ in 0..count {
            into.push(self.number().filter(|&n| n <= limit)?);
        }
        Some(())
    }

    fn record(&mut self, value: &mut Value) -> Option<Record> {
        match self.number()? {
            0 => {
                let global = self.number()?;
                let rank = self.number().filter(|&rank| rank <= MOST_RANK)?;
                self.numbers(rank, u32::MAX, &mut value.lengths)?;
                let count = product(&value.lengths);
                if count > MOST_ELEMENTS {
                    return None;
                }
                self.numbers(count as u32, GREATEST_INTEGER, &mut value.elements)?;
                Some(Record::Load(global))
            }
            1 => self.number().map(Record::Run),
            _ => None,
        }
    }
}

/// Exact up to 2^64, which is more than any count.
fn product(lengths: &[u32]) -> u64 {
    lengths.iter().fold(1, |n: u64, &length| n.saturating_mul(length as u64))
}

fn is_value(lengths: &[u32], ravel: &[u32]) -> bool {
    lengths.len() <= MOST_RANK as usize
        && lengths.iter().all(|&length| length <= GREATEST_LENGTH)
        && ravel.iter().all(|&w| elements::is_scalar(w))
        && product(lengths) == ravel.len() as u64
}

/// The number that a load returns into a segment that tests 10 to 18 accept: 0 where it is done. The old value is released last.
pub fn load(seg: &mut [u32], global: u32, lengths: &[u32], ravel: &[u32]) -> u32 {
    if global < 8 || global >= seg[4] {
        return 21;
    }
    if !is_value(lengths, ravel) {
        return 23;
    }
    let word = match lengths {
        [] => ravel[0],
        _ => match storage::place(seg, lengths, ravel) {
            Some(block) => ARRAY | block as u32,
            None => return 24,
        },
    };
    let old = std::mem::replace(&mut seg[global as usize], word);
    storage::drop_word(seg, old);
    0
}

/// 0 where every record was done, else the number at which it halted times 2^32, and the place of that record; and the tally.
pub fn replay(seg: &mut [u32], procedures: [&[u8]; 2], file: &[u8], run: Run) -> (u64, [u32; 8]) {
    let (mut reader, mut value, mut tally) = (Reader { file, place: 0 }, Value::default(), [0; 8]);
    // A load leaves what is accepted, so a load after it is not judged again.
    let mut accepted = false;
    while reader.place < file.len() {
        let place = reader.place;
        let number = match reader.record(&mut value) {
            None => NO_RECORD,
            Some(Record::Load(global)) => {
                let refused = if accepted { 0 } else { acceptance::judge(seg, procedures[0], procedures[1]) as u32 };
                accepted = true;
                if refused != 0 { refused } else { load(seg, global, &value.lengths, &value.elements) }
            }
            Some(Record::Run(budget)) => {
                accepted = false;
                match run(seg, procedures, budget, &mut tally) {
                    RUN_DONE => 0,
                    number => number,
                }
            }
        };
        if number != 0 {
            return ((number as u64) << 32 | place as u64, tally);
        }
    }
    (0, tally)
}
