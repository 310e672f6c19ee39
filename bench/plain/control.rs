//! Jumps, calls and returns of the plain machine.
use crate::arrays::{truth, value, Cell, Trap};
use crate::machine::Machine;

/// A function of a procedure segment.
#[derive(Clone, Copy)]
pub struct Function<'a> {
    pub code: &'a [u8],
    pub nargs: usize,
    pub nlocals: usize,
    result: bool,
    calltrace: bool,
    rtntrace: bool,
}

/// A function that runs: where it goes on, and its cells on the stack.
pub struct Frame<'a> {
    pub called: Function<'a>,
    pub at: usize,
    pub start: usize,
    pub temporaries: usize,
}

fn word(p: &[u8], k: usize) -> Option<u32> {
    Some(u32::from_be_bytes(p.get(4 * k..4 * k + 4)?.try_into().ok()?))
}

pub fn function(p: &[u8], number: usize) -> Option<Function<'_>> {
    if number == 0 || number >= word(p, 0)? as usize {
        return None;
    }
    let start = (word(p, number)? >> 16) as usize;
    let (first, second) = (word(p, start)?, word(p, start + 1)?);
    Some(Function {
        code: p.get(4 * start..4 * start + 8 + 4 * (second & 0xFFFF) as usize)?,
        nargs: (first >> 16 & 0xFF) as usize,
        nlocals: (second >> 16) as usize,
        result: first >> 29 & 1 == 1,
        calltrace: first >> 31 == 1,
        rtntrace: first >> 30 & 1 == 1,
    })
}

impl Machine<'_> {
    /// Where the function goes on after GO, GO_TRUE or GO_FALSE, by its first byte.
    #[inline]
    pub fn jump(&mut self, kind: u8, to: usize, next: usize) -> Result<usize, Trap> {
        let taken = kind == 0xAD || {
            let Some(cell) = self.operands(1)?.last() else { return Err((3, 4)) };
            truth(value(cell)?.single()?)? == (kind == 0xAE)
        };
        if taken && !(8..self.frame.called.code.len()).contains(&to) {
            return Err((3, 1));
        }
        if kind != 0xAD {
            self.stack.pop();
        }
        Ok(if taken { to } else { next })
    }

    /// CALL with NARGS in four bits, P in one, the function in eleven: the called function starts.
    pub fn call(&mut self, half: u32, next: usize) -> Result<usize, Trap> {
        let arguments = (half >> 12) as usize;
        let called = function(self.procedures[(half >> 11 & 1) as usize], (half & 0x7FF) as usize).ok_or((3, 1))?;
        let start = self.operands(arguments)?.len() - arguments;
        if arguments != called.nargs {
            return Err((3, 4));
        }
        let temporaries = self.stack.len() + called.nlocals;
        if temporaries + 2 > self.most {
            return Err((1, 1));
        }
        self.most -= 2;
        self.stack.resize(temporaries, Cell::Undefined);
        self.frame.at = next;
        let frame = Frame { called, at: 8, start, temporaries };
        self.older.push(std::mem::replace(&mut self.frame, frame));
        if self.flags & 2 != 0 && called.calltrace { Err((2, 2)) } else { Ok(8) }
    }

    /// RETURN: the calling function goes on.
    pub fn leave(&mut self) -> Result<usize, Trap> {
        if self.stack.len() > self.frame.temporaries {
            return Err((3, 12));
        }
        let Function { result, rtntrace, .. } = self.frame.called;
        if self.older.is_empty() {
            return Err((3, 13));
        }
        if result && matches!(self.stack.last(), Some(Cell::Undefined)) {
            return Err((10, 0));
        }
        let given = if result { self.stack.pop() } else { None };
        self.stack.truncate(self.frame.start);
        self.stack.extend(given);
        self.most += 2;
        if let Some(older) = self.older.pop() {
            self.frame = older;
        }
        if self.flags & 4 != 0 && rtntrace { Err((2, 3)) } else { Ok(self.frame.at) }
    }
}
