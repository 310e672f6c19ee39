//! The proved engine, and the plain machine beside it on the same loop.
use crate::arrays::{value, Array, Cell, Value};
use crate::loops::{Loop, FIRST};
use crate::machine::{Machine, MANUAL};
use std::rc::Rc;

extern "C" {
    fn crms_lay_out(data: *mut u32, n: usize, regular: *const u8, nr: usize, alternate: *const u8, na: usize, segment: u32, function: u32, globals: u32, array_words: u32) -> u32;
    fn crms_run(data: *mut u32, n: usize, regular: *const u8, nr: usize, alternate: *const u8, na: usize, budget: u32) -> u64;
    fn crms_run_with(data: *mut u32, n: usize, regular: *const u8, nr: usize, alternate: *const u8, na: usize, table: *const u8, nt: usize, budget: u32) -> u64;
    fn crms_load(data: *mut u32, n: usize, regular: *const u8, nr: usize, alternate: *const u8, na: usize, global: u32, lengths: *const u32, rank: usize, elements: *const u32, count: usize) -> u32;
    fn crms_replay(data: *mut u32, n: usize, regular: *const u8, nr: usize, alternate: *const u8, na: usize, file: *const u8, nf: usize, tally: *mut u32) -> u64;
    fn crms_sheet(data: *const u32, n: usize, regular: *const u8, nr: usize, alternate: *const u8, na: usize, counts: *mut u32) -> u32;
}

/// A procedure segment without functions.
const NONE: [u8; 4] = [0, 0, 0, 1];

pub struct Engine<'a> {
    pub data: Vec<u32>,
    pub procedures: [&'a [u8]; 2],
    /// The table of operators that its runs are lent, where one is.
    pub table: Option<&'a [u8; 16]>,
}

impl<'a> Engine<'a> {
    pub fn new(l: &'a Loop) -> Self {
        let mut engine = Engine { data: vec![0; l.words], procedures: [&l.procedures, &NONE], table: l.table.as_ref() };
        let (data, [p, q]) = (&mut engine.data, engine.procedures);
        let done = unsafe { crms_lay_out(data.as_mut_ptr(), data.len(), p.as_ptr(), p.len(), q.as_ptr(), q.len(), 0, 1, l.globals as u32, l.array_words as u32) };
        assert_eq!(done, 0);
        for (k, array) in l.loaded.iter().enumerate() {
            engine.load(FIRST as u32 + k as u32, array);
        }
        engine
    }

    fn load(&mut self, global: u32, array: &Array) {
        let (data, [p, q], lengths, ravel) = (&mut self.data, self.procedures, array.shape.lengths(), &array.ravel);
        let done = unsafe { crms_load(data.as_mut_ptr(), data.len(), p.as_ptr(), p.len(), q.as_ptr(), q.len(), global, lengths.as_ptr(), lengths.len(), ravel.as_ptr(), ravel.len()) };
        assert_eq!(done, 0);
    }

    /// So many instructions, of which none traps.
    pub fn run(&mut self, budget: u32) {
        let (data, [p, q]) = (&mut self.data, self.procedures);
        let answer = match self.table {
            None => unsafe { crms_run(data.as_mut_ptr(), data.len(), p.as_ptr(), p.len(), q.as_ptr(), q.len(), budget) },
            Some(t) => unsafe { crms_run_with(data.as_mut_ptr(), data.len(), p.as_ptr(), p.len(), q.as_ptr(), q.len(), t.as_ptr(), t.len(), budget) },
        };
        assert_eq!(answer, 2 << 32 | budget as u64);
    }

    /// What a file's replay answers, and its tally.
    pub fn replay(&mut self, file: &[u8]) -> (u64, [u32; 8]) {
        let (data, [p, q], mut tally) = (&mut self.data, self.procedures, [u32::MAX; 8]);
        let answer = unsafe { crms_replay(data.as_mut_ptr(), data.len(), p.as_ptr(), p.len(), q.as_ptr(), q.len(), file.as_ptr(), file.len(), tally.as_mut_ptr()) };
        (answer, tally)
    }

    /// Where the words of array storage went.
    pub fn sheet(&self) -> [u32; 5] {
        let (data, [p, q], mut counts) = (&self.data, self.procedures, [0; 5]);
        let status = unsafe { crms_sheet(data.as_ptr(), data.len(), p.as_ptr(), p.len(), q.as_ptr(), q.len(), counts.as_mut_ptr()) };
        assert_eq!(status, 0);
        counts
    }

    /// What the cell at an address of the segment holds; nothing where it is undefined.
    fn value(&self, at: usize) -> Option<Value<'_>> {
        let w = self.data[at];
        if w == 0x0400_0000 {
            return None;
        }
        if w >> 16 != 0x200 {
            return Some(Value { lengths: &[], ravel: &self.data[at..=at] });
        }
        let block = &self.data[(w & 0xFFFF) as usize..];
        let (size, rank) = ((block[0] & 0xFFFF) as usize, (block[1] & 15) as usize);
        Some(Value { lengths: &block[2..2 + rank], ravel: &block[2 + rank..size] })
    }

    /// Both machines have the same values in their globals and on top of their stacks.
    pub fn must_agree(&self, other: &Machine) {
        let (sbase, ltop) = ((self.data[0] >> 16) as usize, (self.data[0] & 0xFFFF) as usize);
        let lbase = (self.data[1] >> 16) as usize;
        let places = (FIRST as usize..self.data[4] as usize).chain(sbase + lbase + 2..=sbase + ltop);
        let cells = other.globals.iter().chain(&other.stack[other.frame.temporaries..]);
        assert_eq!(places.clone().count(), cells.clone().count());
        for (at, cell) in places.zip(cells) {
            assert_eq!(self.value(at), value(cell).ok());
        }
    }

    /// How many blocks of array storage are free.
    pub fn free_blocks(&self) -> usize {
        let (mut at, mut free) = (self.data[4] as usize, 0);
        while at < (self.data[0] >> 16) as usize - 3 {
            let w = self.data[at];
            free += (w >> 31) as usize;
            at += (w & 0xFFFF) as usize + if w >> 31 == 1 { 0 } else { (w >> 16 & 3) as usize };
        }
        free
    }
}

/// The plain machine at the start of the same loop.
pub fn plain(l: &Loop) -> Machine<'_> {
    let mut globals: Vec<Cell> = l.loaded.iter().map(|array| Cell::Array(Rc::new(array.clone()))).collect();
    globals.resize(l.globals, Cell::Undefined);
    let table = l.table.as_ref().unwrap_or(&MANUAL);
    Machine::new([&l.procedures, &NONE], table, globals, l.words - 8 - l.globals - l.array_words).expect("the bottom function and a table are there")
}
