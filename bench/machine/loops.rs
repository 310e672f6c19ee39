//! The code that is timed: endless loops, each with what its globals hold at the start.
use crate::arrays::{Array, Shape};
use crate::assemble::*;
use crate::machine::MANUAL;
use crate::random::Random;

/// The address of the first global.
pub const FIRST: u16 = 8;
pub const WORDS: usize = 16_384;

/// A table of operators other than the manual's: the last first.
pub const REVERSED: [u8; 16] = [15, 14, 13, 12, 11, 10, 9, 8, 7, 6, 5, 4, 3, 2, 1, 0];

pub struct Loop {
    pub procedures: Vec<u8>,
    /// The table of operators that is lent, where one is.
    pub table: Option<[u8; 16]>,
    /// The arrays in the first globals.
    pub loaded: Vec<Array>,
    pub globals: usize,
    pub array_words: usize,
    pub words: usize,
}

/// The loop with most words for arrays.
fn on_arrays(main: Code, loaded: Vec<Array>) -> Loop {
    on_arrays_of(WORDS, main, loaded)
}

/// The same in a segment of so many words.
fn on_arrays_of(words: usize, main: Code, loaded: Vec<Array>) -> Loop {
    let globals = loaded.len();
    Loop { procedures: segment(&[simple(0, main.jump(GO, START))]), table: None, loaded, globals, array_words: words - 8 - globals - 16, words }
}

/// The loop with most words for the stack.
fn on_scalars(functions: &[Function]) -> Loop {
    Loop { procedures: segment(functions), table: None, loaded: Vec::new(), globals: 0, array_words: 100, words: WORDS }
}

/// A local counts to 4,095 and starts again: eight instructions a turn.
pub fn counting() -> Loop {
    counting_under(None)
}

/// The same in the numbers of a table that is lent.
pub fn counting_under(table: Option<[u8; 16]>) -> Loop {
    let [sum, less] = [SUM, LESS].map(|operator| numbered(&table.unwrap_or(MANUAL), operator));
    let start = Code::default().constant(0).to_local(1);
    let turn = start.here();
    let code = start.local(1).constant(1).op(sum).to_local(1).constant(4095).local(1).op(less).jump(GO_TRUE, turn);
    Loop { table, ..on_scalars(&[simple(1, code.jump(GO, START))]) }
}

/// The same with a global.
pub fn counting_global() -> Loop {
    let start = Code::default().constant(0).to_global(FIRST);
    let turn = start.here();
    let code = start.global(FIRST).constant(1).op(SUM).to_global(FIRST).constant(4095).global(FIRST).op(LESS).jump(GO_TRUE, turn);
    Loop { globals: 1, ..on_scalars(&[simple(0, code.jump(GO, START))]) }
}

/// 1 + 2, dropped: five instructions.
pub fn constants() -> Loop {
    on_arrays(Code::default().constant(1).constant(2).op(SUM).op(EAT1), Vec::new())
}

/// A function without arguments that returns at once: three instructions.
pub fn empty_calls() -> Loop {
    let code = Code::default().call(0, 2).jump(GO, START);
    on_scalars(&[simple(0, code), simple(0, Code::default().op(RETURN))])
}

/// Ackermann's function of 3 and 4, over and over: 10,307 calls.
pub fn ackermann() -> Loop {
    let main = Code::default().constant(3).constant(4).call(2, 2).op(EAT1).jump(GO, START);
    let (m, n, result) = (3, 2, 1);
    let answer = |code: Code| code.to_local(result).op(RETURN);
    let less_one = |code: Code, v: u8| code.constant(1).local(v).op(DIFFERENCE);
    let is_zero = |code: Code, v: u8| code.constant(0).local(v).op(EQUAL);
    let m_is_zero = answer(Code::default().constant(1).local(n).op(SUM));
    let n_is_zero = answer(less_one(Code::default(), m).constant(1).call(2, 2));
    let code = is_zero(Code::default(), m).jump_over(GO_FALSE, m_is_zero);
    let code = is_zero(code, n).jump_over(GO_FALSE, n_is_zero);
    let code = answer(less_one(less_one(code, m).local(m), n).call(2, 2).call(2, 2));
    on_scalars(&[simple(0, main), Function { nargs: 2, nlocals: 1, result: true, code }])
}

/// An element of an array of ten, which no other cell holds: five instructions.
pub fn indexed() -> Loop {
    on_arrays(Code::default().constant(7).constant(4).to_element(FIRST).op(EAT1), vec![Array::vector(vec![5; 10])])
}

/// 400 times a new array of 1 to 60 elements, for one of 24 globals, in storage of 2,000 words: 1,201 instructions.
pub fn fragmenting() -> Loop {
    let mut random = Random(0x2545_F491_4F6C_DD1D);
    let mut code = Code::default();
    for _ in 0..400 {
        let length = 1 + random.below(60) as u16;
        code = code.constant(length).op(INDEXGEN).to_global(FIRST + random.below(24) as u16);
    }
    let procedures = segment(&[simple(0, code.jump(GO, START))]);
    Loop { procedures, table: None, loaded: Vec::new(), globals: 24, array_words: 2_000, words: WORDS }
}

/// An operator on two vectors, its result dropped: five instructions.
pub fn dyadic(operator: u8, vectors: [Vec<u32>; 2]) -> Loop {
    on_arrays(Code::default().global(FIRST + 1).global(FIRST).op(operator).op(EAT1), vectors.map(Array::vector).into())
}

/// One vector of n elements out of two, or out of one twice where n is even: five instructions.
pub fn catenate(n: usize, random: &mut Random) -> Loop {
    joining(n, |n| Array::vector((0..n).map(|_| random.integer()).collect()))
}

/// The same of tables, n rows of ten in all.
pub fn catenate_tables(n: usize, random: &mut Random) -> Loop {
    joining(n, |n| Array { shape: Shape::matrix(n, 10), ravel: (0..10 * n).map(|_| random.integer()).collect() })
}

/// What `half` makes of half of n, joined with itself, or of both halves where n is odd.
fn joining(n: usize, mut half: impl FnMut(usize) -> Array) -> Loop {
    let (loaded, second) = if n % 2 == 0 { (vec![half(n / 2)], FIRST) } else { (vec![half(n - n / 2), half(n / 2)], FIRST + 1) };
    on_arrays(Code::default().global(second).global(FIRST).op(CATENATE).op(EAT1), loaded)
}

/// n elements out of a hundred, or of n: five instructions.
pub fn reshape(n: usize, random: &mut Random) -> Loop {
    let from = (0..n.min(100)).map(|_| random.integer()).collect();
    on_arrays(Code::default().global(FIRST).constant_scalar(n as u32).op(RESHAPE).op(EAT1), vec![Array::vector(from)])
}

/// Vectors of ten elements that fill four fifths of so many words, to be loaded anew; nothing is run.
pub fn imported(words: usize) -> Loop {
    on_arrays_of(words, Code::default(), vec![Array::vector(vec![0; 10]); words / 16])
}
