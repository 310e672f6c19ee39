//! What refusals and traps mean, in the words of docs/FAULTS.md.
use std::error::Error;
use std::fmt::{Display, Formatter, Result as Written};

/// Why a call, or a record of a replay, was refused, by the number of the test that failed. It changed nothing. `Display` tells the
/// number and what it means; docs/FAULTS.md says what to do.
#[derive(Clone, Copy, Debug, PartialEq, Eq, Hash)]
pub enum Refusal {
    /// The length of the data segment.
    DataLength = 10,
    /// The length of a procedure segment.
    ProcedureLength = 11,
    /// A directory or a header.
    Procedure = 12,
    /// Words 0–7 of the data segment.
    State = 13,
    /// The blocks of array storage.
    Blocks = 14,
    /// The ring of free blocks, or ROVER.
    Ring = 15,
    /// The frames of the stack.
    Frames = 16,
    /// A cell's kind or target.
    Cells = 17,
    /// An array's count.
    Counts = 18,
    /// Lay out: the parts asked for.
    Parts = 19,
    /// Lay out: the bottom function.
    Function = 20,
    /// Load and look: the address of the global.
    NoGlobal = 21,
    /// Look: nothing to see.
    Undefined = 22,
    /// Load: the value.
    NoValue = 23,
    /// Load: no room in array storage.
    Full = 24,
    /// Replay: no record.
    Malformed = 25,
    /// Run and replay: the table of operators that was lent.
    Table = 26,
}

impl Refusal {
    /// All refusals, by their numbers.
    pub const ALL: [Refusal; 17] = [
        Refusal::DataLength,
        Refusal::ProcedureLength,
        Refusal::Procedure,
        Refusal::State,
        Refusal::Blocks,
        Refusal::Ring,
        Refusal::Frames,
        Refusal::Cells,
        Refusal::Counts,
        Refusal::Parts,
        Refusal::Function,
        Refusal::NoGlobal,
        Refusal::Undefined,
        Refusal::NoValue,
        Refusal::Full,
        Refusal::Malformed,
        Refusal::Table,
    ];

    /// The refusal of a number.
    pub fn from_number(number: u32) -> Option<Refusal> {
        Refusal::ALL.into_iter().find(|r| r.number() == number)
    }

    /// Its number in the table of document 01.
    pub fn number(self) -> u32 {
        self as u32
    }

    /// What it means.
    pub fn meaning(self) -> &'static str {
        match self {
            Refusal::DataLength => "The data segment is not 32 to 16,384 words long.",
            Refusal::ProcedureLength => "A procedure segment is not 4 to 32,768 bytes long, or not whole words.",
            Refusal::Procedure => {
                "A directory or a function's header is wrong: entry 0, a function outside the segment or inside the directory, \
                 an unnamed bit, NARGS above 15, RESULT without a local, more than 4,096 variables, or a length that does not \
                 fit NCODE and NLINES."
            }
            Refusal::State => {
                "Words 0–7: an unnamed bit is set, BLOCKPTR is below 8, array storage has under 3 words, or SBASE or the top of \
                 the stack lies past the end."
            }
            Refusal::Blocks => {
                "Array storage: the blocks do not fill it exactly, or a tag, size, length or element is wrong, or two free \
                 blocks are neighbours."
            }
            Refusal::Ring => "The ring of free blocks or ROVER is wrong.",
            Refusal::Frames => "A frame of the stack is wrong, or its function is not in the directory.",
            Refusal::Cells => {
                "A global or a stack cell holds a word that may not stand there, or an indirect word with a wrong target."
            }
            Refusal::Counts => "An array's count is zero or not the number of cells that point to it.",
            Refusal::Parts => {
                "More than 4,088 globals, fewer than 6 array words, or too few words lent: 8 + globals + array words + NLOCALS \
                 + 2 are needed."
            }
            Refusal::Function => {
                "The bottom function is not there (the segment is neither 0 nor 1, or the number is not in its directory), or \
                 it takes arguments."
            }
            Refusal::NoGlobal => "The address is no global: below 8, or BLOCKPTR and above.",
            Refusal::Undefined => "The global is undefined.",
            Refusal::NoValue => {
                "Rank above 15, a length above 65,535, the number of elements is not the product of the lengths, or a word is \
                 no scalar. Rank 0 is one scalar."
            }
            Refusal::Full => "No free block is 2 + rank + elements words long.",
            Refusal::Malformed => {
                "What stands at the place is no record: a bad or cut number, a kind that is neither 0 nor 1, a rank above 15, over \
                 16,384 elements, an element above 8,388,607, or the file ends inside the record."
            }
            Refusal::Table => "The table of operators is not 16 bytes long, a byte is above 15, or one is repeated.",
        }
    }
}

impl Display for Refusal {
    fn fmt(&self, f: &mut Formatter<'_>) -> Written {
        write!(f, "{}: {}", self.number(), self.meaning())
    }
}

impl Error for Refusal {}

/// A trap of a run. `Display` tells its class and number and what it means; docs/FAULTS.md says what to do.
#[derive(Clone, Copy, Debug, PartialEq, Eq, Hash)]
pub struct Trap {
    /// 1 storage, 2 debugging, 3 system errors, 4 attention, 5 rank, 6 length, 7 character, 8 values, 9 subscripts, 10 variables.
    pub class: u8,
    /// Its number within the class.
    pub number: u8,
}

impl Trap {
    /// The trap in word 3 of a data segment.
    pub fn from_word(word: u32) -> Trap {
        Trap { class: (word >> 8 & 0xFF) as u8, number: (word & 0xFF) as u8 }
    }

    /// Whether it came after an instruction, which is finished and counted. Any other trap comes instead of its instruction: only
    /// word 3 was changed, and a further run meets it again.
    pub fn comes_after(self) -> bool {
        matches!((self.class, self.number), (2, 1..=3))
    }

    /// What it means: `None` where the manual has no such trap.
    pub fn meaning(self) -> Option<&'static str> {
        let (.., meaning) = TRAPS.iter().find(|(class, number, _)| (*class, *number) == (self.class, self.number))?;
        Some(meaning)
    }
}

impl Display for Trap {
    fn fmt(&self, f: &mut Formatter<'_>) -> Written {
        let meaning = self.meaning().unwrap_or("The manual has no such trap.");
        write!(f, "({},{}): {}", self.class, self.number, meaning)
    }
}

impl Error for Trap {}

/// Class, number and meaning of every trap.
const TRAPS: [(u8, u8, &str); 31] = [
    (1, 1, "The stack is full: no word is left for a further cell, or for the locals and two words of a CALL."),
    (1, 2, "Array storage is full: no free block is long enough for the array that the instruction makes."),
    (2, 1, "An instruction finished while STEP is set."),
    (2, 2, "A CALL finished while FCNCTRC is set, and the called function has CALLTRACE. The new frame is the current one."),
    (
        2,
        3,
        "A function with RTNTRACE was left while FCNRTRC is set. The caller's frame is the current one, with the result, if \
         there is one, on top.",
    ),
    (2, 4, "BREAKPOINT."),
    (
        3,
        1,
        "A place outside the function's code, bytes 8 to 7 + 4·NCODE: running off the end, an instruction that is cut off, a \
         jump or line entry that is taken; or CALL of a function that is not in the directory.",
    ),
    (3, 2, "A local address outside the frame's arguments and locals."),
    (3, 3, "A global address below 8, or BLOCKPTR and above."),
    (3, 4, "Too few temporaries for the operands; or CALL's NARGS is not the header's."),
    (
        3,
        5,
        "An undefined or indirect word where a scalar or an array is wanted, ASSIGN's operand and ASSIGN_INDEXED's variable \
         included; or a constant in code that is no scalar.",
    ),
    (3, 6, "An indirect word leads to another one. Test 17 keeps such words out of accepted segments, so it is not expected."),
    (3, 7, "The address of a MEMREF instruction is in none of the three forms."),
    (3, 8, "Undefined MEMREF suboperation: 0, or 20 to 31."),
    (3, 9, "Undefined GENSCALAR suboperation: 16 to 31."),
    (3, 10, "Cannot occur."),
    (3, 11, "Undefined ETC suboperation, 21 to 31; or a first byte F0 to FF."),
    (3, 12, "RETURN, or a BRANCH that leaves, with temporaries still in the frame. BRANCH's operand is not counted."),
    (3, 13, "RETURN, or a BRANCH that leaves, in the bottom frame. Nothing is dropped."),
    (4, 0, "ATTENTION: the program asks for something outside the processor."),
    (
        5,
        0,
        "Rank error. GENSCALAR: ranks differ and neither operand has one element. Subscripting: a scalar is subscripted, a \
         subscript or the value assigned is an array, or INDEX has an undefined subscript. CATENATE: rank above 2, or a \
         scalar beside a matrix. BRANCH, RESHAPE's first operand: rank above 1. RESHAPE: more than 15 lengths.",
    ),
    (
        6,
        0,
        "Length error. GENSCALAR: equal ranks, unequal shapes, neither operand with one element. SETORIGIN, INDEXGEN, GO_TRUE, \
         GO_FALSE: not one element. CATENATE: unequal widths, a vector being one row beside a matrix, or over 65,535 rows \
         together; without a matrix, 65,536 elements or more. RESHAPE: nothing to fill a shape that wants elements.",
    ),
    (7, 0, "A character where a number is wanted."),
    (
        8,
        1,
        "The result of two integers is above 8,388,607 in magnitude: SUM, DIFFERENCE, PRODUCT. LESS and EQUAL never give it, \
         however far apart the numbers are.",
    ),
    (
        8,
        2,
        "A float result, not zero, is below 2^−128 in magnitude. LESS and EQUAL never give it, however near the numbers are.",
    ),
    (8, 3, "A float result is 2^128 or more in magnitude after rounding. LESS and EQUAL never give it."),
    (8, 4, "QUOTIENT with zero as its second operand."),
    (
        8,
        5,
        "Any other value that does not serve: not whole where a whole number is wanted, not 0 or 1 where a logical value is, no \
         code from 0 to 255 in CONVERT, a length below 0 or above 65,535 in INDEXGEN or RESHAPE, or RESHAPE's lengths with a \
         product above 65,535.",
    ),
    (9, 1, "The number of subscripts is not the array's rank."),
    (9, 2, "A subscript is outside its length. The first place is IORG, 0 or 1."),
    (10, 0, "An undefined variable is loaded, or a function with RESULT is left while its result is undefined."),
];
