//! Procedure segments of a few instructions, and a data segment that is laid out for them.
#![allow(dead_code)] // each test file uses a part of it
use crms::{Layout, ProcedureSegment, Procedures, Ran, Refusal, Replayed, Sheet, Tally, Trap, Value};

pub const SUM: u8 = 0x68;
pub const QUOTIENT: u8 = 0x6B;
pub const ASSIGN_INDEXED_1: u8 = 0x81;
pub const ASSIGN_NO_RESULT: u8 = 0x91;
pub const EAT1: u8 = 0xA1;
pub const INDEXGEN: u8 = 0xA9;
pub const CONSTANT_SCALAR: u8 = 0xAA;
pub const GO: u8 = 0xAD;
pub const RETURN: u8 = 0xB0;
pub const NO_OPERATION: u8 = 0xB2;
/// The first byte of a LONGGLOBAL of an address below 256, and of such an address in a MEMREF.
pub const GLOBAL: u8 = 0xD0;
/// The first byte of a SHORTCONST of a number below 256.
pub const CONST: u8 = 0x40;

/// A function without lines: its flags (RESULT is 0x20), arguments, locals and code.
pub type Function<'c> = (u8, u8, u16, &'c [u8]);

/// A procedure segment of these functions, numbered from 1.
pub fn segment(functions: &[Function<'_>]) -> Vec<u8> {
    let entries = functions.len() as u16 + 1;
    let mut directory = u32::from(entries).to_be_bytes().to_vec();
    let mut blocks = Vec::new();
    for (flags, arguments, locals, code) in functions {
        let start = entries + (blocks.len() / 4) as u16;
        let words = code.len().div_ceil(4) as u16;
        directory.extend(start.to_be_bytes());
        directory.extend((words + 2).to_be_bytes());
        blocks.extend([*flags, *arguments, 0, 0]);
        blocks.extend(locals.to_be_bytes());
        blocks.extend(words.to_be_bytes());
        blocks.extend(*code);
        blocks.resize(blocks.len().next_multiple_of(4), NO_OPERATION);
    }
    directory.extend(blocks);
    directory
}

pub fn layout(globals: u32, array_words: u32) -> Layout {
    Layout { segment: ProcedureSegment::Regular, function: 1, globals, array_words }
}

/// A data segment of 64 words, 4 globals and 24 array words beside one function.
#[derive(Clone)]
pub struct Fixture {
    pub data: Vec<u32>,
    pub regular: Vec<u8>,
}

impl Fixture {
    pub fn new(code: &[u8]) -> Fixture {
        Fixture::of(64, 4, 24, code)
    }

    pub fn of(words: usize, globals: u32, array_words: u32, code: &[u8]) -> Fixture {
        let mut fixture = Fixture { data: vec![0x1234_5678; words], regular: segment(&[(0, 0, 0, code)]) };
        crms::lay_out(&mut fixture.data, Procedures::regular_only(&fixture.regular), layout(globals, array_words)).unwrap();
        fixture
    }

    pub fn run(&mut self, budget: u32) -> Result<Ran, Refusal> {
        crms::run(&mut self.data, Procedures::regular_only(&self.regular), budget)
    }

    pub fn run_with(&mut self, table: &[u8], budget: u32) -> Result<Ran, Refusal> {
        crms::run_with(&mut self.data, Procedures::regular_only(&self.regular), table, budget)
    }

    pub fn load(&mut self, global: u32, lengths: &[u32], elements: &[u32]) -> Result<(), Refusal> {
        crms::load(&mut self.data, Procedures::regular_only(&self.regular), global, lengths, elements)
    }

    /// A replay, and what it counts.
    pub fn replay(&mut self, file: &[u8]) -> (Replayed, Tally) {
        let mut tally = Tally { index: 7, ..Tally::default() };
        let answer = crms::replay(&mut self.data, Procedures::regular_only(&self.regular), file, &mut tally);
        (answer, tally)
    }

    /// A replay under a table, and what it counts.
    pub fn replay_with(&mut self, table: &[u8], file: &[u8]) -> (Replayed, Tally) {
        let mut tally = Tally { index: 7, ..Tally::default() };
        let answer = crms::replay_with(&mut self.data, Procedures::regular_only(&self.regular), table, file, &mut tally);
        (answer, tally)
    }

    pub fn look(&self, global: u32) -> Result<Value<'_>, Refusal> {
        crms::look(&self.data, Procedures::regular_only(&self.regular), global)
    }

    pub fn sheet(&self) -> Result<Sheet, Refusal> {
        crms::sheet(&self.data, Procedures::regular_only(&self.regular))
    }
}

pub fn array<'s>(lengths: &'s [u32], elements: &'s [u32]) -> Result<Value<'s>, Refusal> {
    Ok(Value::Array { lengths, elements })
}

pub fn done(steps: u32) -> Result<Ran, Refusal> {
    Ok(Ran::Done { steps })
}

pub fn trapped(steps: u32, class: u8, number: u8) -> Result<Ran, Refusal> {
    Ok(Ran::Trapped { steps, trap: Trap { class, number } })
}

/// A number of a file of imports, in groups of seven bits.
pub fn number(n: u32) -> Vec<u8> {
    let (low, high) = ((n & 0x7F) as u8, n >> 7);
    if high == 0 {
        return vec![low];
    }
    [vec![low | 0x80], number(high)].concat()
}

/// A record of kind 0.
pub fn load_record(global: u32, lengths: &[u32], elements: &[u32]) -> Vec<u8> {
    let numbers = [&[0, global, lengths.len() as u32], lengths, elements].concat();
    numbers.into_iter().flat_map(number).collect()
}

/// A record of kind 1.
pub fn run_record(budget: u32) -> Vec<u8> {
    [vec![1], number(budget)].concat()
}
