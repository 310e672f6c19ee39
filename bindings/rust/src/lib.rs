//! The engine of the CRMS APL processor: six operations on a lent data segment and both procedure segments.
//!
//! [`lay_out`] makes a fresh data segment, [`run`] does at most a given number of instructions, [`load`] puts a value into a
//! global, [`replay`] does the loads and runs of a file of imports, [`look`] hands a global's value back, and [`sheet`] tells where
//! the words of array storage went. [`run_with`] and [`replay_with`] are lent a table for code that numbers the operators
//! ([`Operator`]) in its own way. A data segment is any `&mut [u32]` of 32 to 16,384 words. A call that is refused says why
//! ([`Refusal`]) and changes nothing; a run that meets a trap says which ([`Trap`]). Nothing is kept between calls and nothing is
//! allocated.
//!
//! The library under this crate is proved: what each operation answers, and each word that it leaves, is what its definition says.
//! This crate only lends it slices and takes its numbers apart.
//!
//! ```
//! use crms::{lay_out, load, look, replay, run, sheet, Layout, ProcedureSegment, Procedures, Ran, Replayed, Sheet, Tally, Trap, Value};
//!
//! // Function 1 assigns global 8 to global 9, and then 0 to the element of global 9 at place 2.
//! let functions = [
//!     0x00, 0x00, 0x00, 0x02, // a directory of two entries: itself, and
//!     0x00, 0x02, 0x00, 0x06, // function 1, which starts at word 2 and is 6 words long
//!     0x00, 0x00, 0x00, 0x00, // its header: no arguments, no lines,
//!     0x00, 0x00, 0x00, 0x04, // no locals, 4 words of code
//!     0xD0, 0x08, 0x91, 0xD0, 0x09, // LONGGLOBAL 8; ASSIGN_NO_RESULT to global 9
//!     0x40, 0x00, 0x40, 0x02, 0x81, 0xD0, 0x09, // 0, place 2, ASSIGN_INDEXED into global 9
//!     0xA1, 0xB0, 0xB2, 0xB2, // EAT1, RETURN
//! ];
//! let procedures = Procedures::regular_only(&functions);
//! let layout = Layout { segment: ProcedureSegment::Regular, function: 1, globals: 2, array_words: 24 };
//! let mut data = [0; 64];
//!
//! lay_out(&mut data, procedures, layout)?;
//! load(&mut data, procedures, 8, &[3], &[10, 20, 30])?;
//! assert_eq!(run(&mut data, procedures, 6)?, Ran::Done { steps: 6 });
//!
//! // The copy was written, and the list is as it was.
//! assert_eq!(look(&data, procedures, 8)?, Value::Array { lengths: &[3], elements: &[10, 20, 30] });
//! assert_eq!(look(&data, procedures, 9)?, Value::Array { lengths: &[3], elements: &[10, 20, 0] });
//!
//! // Each has words of its own now.
//! assert_eq!(sheet(&data, procedures)?, Sheet { arrays: 12, slop: 0, free: 9, end: 3, total: 24 });
//!
//! // RETURN in the bottom frame is how the function ends.
//! let ended = Trap { class: 3, number: 13 };
//! assert_eq!(run(&mut data, procedures, 1)?, Ran::Trapped { steps: 0, trap: ended });
//!
//! // The same load and run, and one step too many, out of a file: the record at byte 9 halts it.
//! let file = [0, 8, 1, 3, 10, 20, 30, 1, 6, 1, 1];
//! let mut tally = Tally::default();
//! lay_out(&mut data, procedures, layout)?;
//! assert_eq!(replay(&mut data, procedures, &file, &mut tally), Replayed::Trapped { place: 9, trap: ended });
//! assert_eq!(tally, Tally { short_const: 2, mem_ref: 2, etc: 1, long_global: 1, ..Tally::default() });
//! # Ok::<(), crms::Refusal>(())
//! ```

mod faults;
mod ffi;
mod operator;
mod scalar;

pub use faults::{Refusal, Trap};
pub use operator::Operator;
pub use scalar::Scalar;

/// Both procedure segments: whole big-endian words, 4 to 32,768 bytes each.
#[derive(Clone, Copy, Debug)]
pub struct Procedures<'p> {
    /// Procedure segment 0.
    pub regular: &'p [u8],
    /// Procedure segment 1.
    pub alternate: &'p [u8],
}

impl<'p> Procedures<'p> {
    /// A procedure segment without functions: a directory whose one entry is itself.
    pub const UNUSED: &'static [u8] = &[0, 0, 0, 1];

    /// The regular segment, beside an alternate one without functions.
    pub fn regular_only(regular: &'p [u8]) -> Procedures<'p> {
        Procedures { regular, alternate: Procedures::UNUSED }
    }
}

/// One of the two procedure segments.
#[derive(Clone, Copy, Debug, PartialEq, Eq)]
pub enum ProcedureSegment {
    /// Procedure segment 0.
    Regular,
    /// Procedure segment 1.
    Alternate,
}

/// What a fresh data segment is to have.
#[derive(Clone, Copy, Debug, PartialEq, Eq)]
pub struct Layout {
    /// The procedure segment of the function that the bottom frame runs.
    pub segment: ProcedureSegment,
    /// The number of that function, from 1. It takes no arguments.
    pub function: u32,
    /// The number of globals, at most 4,088. They start at address 8.
    pub globals: u32,
    /// The words of array storage, at least 6. Three of them are the dummy block's.
    pub array_words: u32,
}

/// What a run that was not refused did.
#[derive(Clone, Copy, Debug, PartialEq, Eq)]
pub enum Ran {
    /// As many instructions as asked were done.
    Done {
        /// How many.
        steps: u32,
    },
    /// A trap, after so many finished instructions.
    Trapped {
        /// How many.
        steps: u32,
        /// The trap, which word 3 of the data segment has too.
        trap: Trap,
    },
}

/// What a replay did. A place is that of the first byte of the record that halted it, from 0: its low 32 bits, which are all of it
/// in a file of at most 2^32 bytes. What the records before it did stands.
#[derive(Clone, Copy, Debug, PartialEq, Eq)]
pub enum Replayed {
    /// Every record was done.
    Done,
    /// The run of a record met a trap.
    Trapped {
        /// Where the record begins.
        place: u32,
        /// The trap, which word 3 of the data segment has too.
        trap: Trap,
    },
    /// The load or run of a record was refused, or it is no record ([`Refusal::Malformed`]). The record changed nothing.
    Refused {
        /// Where the record begins.
        place: u32,
        /// Why.
        refusal: Refusal,
    },
}

/// Finished instructions by the family of their first byte. A count stays at [`u32::MAX`] once it is there.
#[derive(Clone, Copy, Debug, Default, PartialEq, Eq)]
#[repr(C)]
pub struct Tally {
    /// SHORTLOCAL, 00 to 3F.
    pub short_local: u32,
    /// SHORTCONST, 40 to 5F.
    pub short_const: u32,
    /// GENSCALAR, 60 to 7F.
    pub gen_scalar: u32,
    /// MEMREF, 80 to 9F.
    pub mem_ref: u32,
    /// ETC, A0 to BF.
    pub etc: u32,
    /// LONGLOCAL, C0 to CF.
    pub long_local: u32,
    /// LONGGLOBAL, D0 to DF.
    pub long_global: u32,
    /// INDEX, E0 to EF.
    pub index: u32,
}

/// Where the words of array storage went. The first four add up to the fifth.
#[derive(Clone, Copy, Debug, Default, PartialEq, Eq)]
#[repr(C)]
pub struct Sheet {
    /// SIZE of the arrays, each once, however many cells share it.
    pub arrays: u32,
    /// Words given to an array beyond its SIZE.
    pub slop: u32,
    /// SIZE of the free blocks: an array that needs more words than these finds storage full.
    pub free: u32,
    /// The three words of the dummy block.
    pub end: u32,
    /// All words of array storage.
    pub total: u32,
}

/// What a global holds. The slices are parts of the data segment; their words are scalars ([`Scalar::from_word`]).
#[derive(Clone, Copy, Debug, PartialEq, Eq)]
pub enum Value<'s> {
    /// The word of a scalar.
    Scalar(u32),
    /// An array.
    Array {
        /// Its 1 to 15 lengths: plain numbers, as the integer words of non-negative numbers are.
        lengths: &'s [u32],
        /// Its elements, the last subscript running fastest: as many as the product of the lengths.
        elements: &'s [u32],
    },
}

/// Makes a fresh data segment of `data`, whatever stood in it: all globals undefined, and one frame that is about to run the
/// layout's function.
pub fn lay_out(data: &mut [u32], procedures: Procedures<'_>, layout: Layout) -> Result<(), Refusal> {
    let Procedures { regular, alternate } = procedures;
    let segment = match layout.segment {
        ProcedureSegment::Regular => 0,
        ProcedureSegment::Alternate => 1,
    };
    // SAFETY: each pointer comes with its slice's length, and `data` is borrowed alone.
    let status = unsafe {
        ffi::crms_lay_out(
            data.as_mut_ptr(),
            data.len(),
            regular.as_ptr(),
            regular.len(),
            alternate.as_ptr(),
            alternate.len(),
            segment,
            layout.function,
            layout.globals,
            layout.array_words,
        )
    };
    done(status)
}

/// Runs at most `budget` instructions. After a trap, and after a budget that was used up, a further run goes on from there.
pub fn run(data: &mut [u32], procedures: Procedures<'_>, budget: u32) -> Result<Ran, Refusal> {
    let Procedures { regular, alternate } = procedures;
    // SAFETY: as in `lay_out`.
    let answer = unsafe {
        ffi::crms_run(data.as_mut_ptr(), data.len(), regular.as_ptr(), regular.len(), alternate.as_ptr(), alternate.len(), budget)
    };
    ran(data, answer)
}

/// [`run`] under a table for code that numbers the operators in its own way: byte i is the place in [`Operator::ALL`] of what
/// suboperation i of GENSCALAR means ([`Operator::table`] writes it). [`run`] is this under the places in order.
pub fn run_with(data: &mut [u32], procedures: Procedures<'_>, table: &[u8], budget: u32) -> Result<Ran, Refusal> {
    let Procedures { regular, alternate } = procedures;
    // SAFETY: as in `lay_out`.
    let answer = unsafe {
        ffi::crms_run_with(
            data.as_mut_ptr(),
            data.len(),
            regular.as_ptr(),
            regular.len(),
            alternate.as_ptr(),
            alternate.len(),
            table.as_ptr(),
            table.len(),
            budget,
        )
    };
    ran(data, answer)
}

/// Gives the global at address `global` the value of these lengths and element words. No lengths, and one element, are a scalar.
/// The old value's block is released last.
pub fn load(data: &mut [u32], procedures: Procedures<'_>, global: u32, lengths: &[u32], elements: &[u32]) -> Result<(), Refusal> {
    let Procedures { regular, alternate } = procedures;
    // SAFETY: as in `lay_out`.
    let status = unsafe {
        ffi::crms_load(
            data.as_mut_ptr(),
            data.len(),
            regular.as_ptr(),
            regular.len(),
            alternate.as_ptr(),
            alternate.len(),
            global,
            lengths.as_ptr(),
            lengths.len(),
            elements.as_ptr(),
            elements.len(),
        )
    };
    done(status)
}

/// Does the loads and runs of a file of imports, as if each were called by itself, up to the first trap or refusal; include/crms.h
/// says how a file is written. The tally is zeroed first, whatever the file holds.
pub fn replay(data: &mut [u32], procedures: Procedures<'_>, file: &[u8], tally: &mut Tally) -> Replayed {
    let Procedures { regular, alternate } = procedures;
    // SAFETY: as in `lay_out`, and `tally` is borrowed alone: eight counts in the order of their families.
    let answer = unsafe {
        ffi::crms_replay(
            data.as_mut_ptr(),
            data.len(),
            regular.as_ptr(),
            regular.len(),
            alternate.as_ptr(),
            alternate.len(),
            file.as_ptr(),
            file.len(),
            tally,
        )
    };
    replayed(data, answer)
}

/// [`replay`] with every run under a table, as [`run_with`] is. A table that is refused halts it at the first record that runs.
pub fn replay_with(data: &mut [u32], procedures: Procedures<'_>, table: &[u8], file: &[u8], tally: &mut Tally) -> Replayed {
    let Procedures { regular, alternate } = procedures;
    // SAFETY: as in `replay`.
    let answer = unsafe {
        ffi::crms_replay_with(
            data.as_mut_ptr(),
            data.len(),
            regular.as_ptr(),
            regular.len(),
            alternate.as_ptr(),
            alternate.len(),
            table.as_ptr(),
            table.len(),
            file.as_ptr(),
            file.len(),
            tally,
        )
    };
    replayed(data, answer)
}

/// What the global at address `global` holds.
pub fn look<'s>(data: &'s [u32], procedures: Procedures<'_>, global: u32) -> Result<Value<'s>, Refusal> {
    let Procedures { regular, alternate } = procedures;
    // SAFETY: each pointer comes with its slice's length.
    let answer = unsafe {
        ffi::crms_look(data.as_ptr(), data.len(), regular.as_ptr(), regular.len(), alternate.as_ptr(), alternate.len(), global)
    };
    done((answer >> 32) as u32)?;
    let rank = (answer >> 28 & 0xF) as usize;
    let first = (answer >> 14 & 0x3FFF) as usize;
    let count = (answer & 0x3FFF) as usize;
    if rank == 0 {
        return Ok(Value::Scalar(data[first]));
    }
    Ok(Value::Array { lengths: &data[first - rank..first], elements: &data[first..first + count] })
}

/// Where the words of array storage went.
pub fn sheet(data: &[u32], procedures: Procedures<'_>) -> Result<Sheet, Refusal> {
    let Procedures { regular, alternate } = procedures;
    let mut counts = Sheet::default();
    // SAFETY: each pointer comes with its slice's length, and `counts` is borrowed alone: five counts in their order.
    let status = unsafe {
        ffi::crms_sheet(
            data.as_ptr(),
            data.len(),
            regular.as_ptr(),
            regular.len(),
            alternate.as_ptr(),
            alternate.len(),
            &mut counts,
        )
    };
    done(status)?;
    Ok(counts)
}

/// What a run answered, with the trap out of the segment.
fn ran(data: &[u32], answer: u64) -> Result<Ran, Refusal> {
    let steps = (answer & 0xFFFF_FFFF) as u32;
    match (answer >> 32) as u32 {
        2 => Ok(Ran::Done { steps }),
        3 => Ok(Ran::Trapped { steps, trap: Trap::from_word(data[3]) }),
        number => Err(refused(number)),
    }
}

/// What a replay answered, with the trap out of the segment.
fn replayed(data: &[u32], answer: u64) -> Replayed {
    let place = (answer & 0xFFFF_FFFF) as u32;
    match (answer >> 32) as u32 {
        0 => Replayed::Done,
        3 => Replayed::Trapped { place, trap: Trap::from_word(data[3]) },
        number => Replayed::Refused { place, refusal: refused(number) },
    }
}

fn done(status: u32) -> Result<(), Refusal> {
    match status {
        0 => Ok(()),
        number => Err(refused(number)),
    }
}

/// The library answers no other numbers than those of document 01's table.
fn refused(number: u32) -> Refusal {
    Refusal::from_number(number).unwrap_or_else(|| panic!("{number} is no status of the engine"))
}
