//! The machine as one writes it in Rust: cells in a vector, arrays counted by `Rc` and copied where a shared one is written,
//! the place in the code and the frames in variables. It decodes the same bytes at each step and makes every test of the
//! manual's lists. It has the instructions that the benches run; any other is (3,11).
use crate::arrays::{self, value, Array, Cell, Place, Trap, Value};
use crate::control::{function, Frame};
use crate::decode::{address, half, Address};
use crate::elements;
use std::rc::Rc;

/// Code outside its bounds.
const OUTSIDE: Trap = (3, 1);

/// The manual's own table of operators: each suboperation means the operator at its place.
pub const MANUAL: [u8; 16] = [0, 1, 2, 3, 4, 5, 6, 7, 8, 9, 10, 11, 12, 13, 14, 15];

/// Sixteen places, each of them once.
pub fn is_table(table: &[u8]) -> bool {
    let seen = table.iter().fold(0, |seen, &place| seen | 1u32.checked_shl(place as u32).unwrap_or(0));
    table.len() == 16 && seen == 0xFFFF
}

pub struct Machine<'a> {
    pub procedures: [&'a [u8]; 2],
    /// Which operator each suboperation of GENSCALAR means.
    table: [u8; 16],
    pub globals: Vec<Cell>,
    pub stack: Vec<Cell>,
    pub frame: Frame<'a>,
    pub older: Vec<Frame<'a>>,
    /// IORG, FCNCTRC, FCNRTRC, STEP in bits 0 to 3.
    pub flags: u32,
    /// How many cells the stack can hold beside the frames there are.
    pub most: usize,
}

impl<'a> Machine<'a> {
    /// The bottom frame runs function 1; the stack has so many words. Nothing where that function or a table is not there.
    pub fn new(procedures: [&'a [u8]; 2], table: &[u8], globals: Vec<Cell>, words: usize) -> Option<Self> {
        let table = table.try_into().ok().filter(|table: &[u8; 16]| is_table(table))?;
        let called = function(procedures[0], 1)?;
        let stack = vec![Cell::Undefined; called.nlocals];
        let frame = Frame { called, at: 8, start: 0, temporaries: stack.len() };
        Some(Machine { procedures, table, globals, stack, frame, older: Vec::new(), flags: 0, most: words.checked_sub(2)? })
    }

    /// At most so many instructions: how many finished, and the trap that stopped them.
    pub fn run(&mut self, budget: u32) -> (u32, Option<Trap>) {
        for steps in 0..budget {
            match self.step() {
                Err((2, trace)) if trace < 4 => return (steps + 1, Some((2, trace))),
                Err(trap) => return (steps, Some(trap)),
                Ok(()) if self.flags & 8 != 0 => return (steps + 1, Some((2, 1))),
                Ok(()) => {}
            }
        }
        (budget, None)
    }

    /// Each instruction is done as its bytes are read.
    #[inline]
    fn step(&mut self) -> Result<(), Trap> {
        let (code, at) = (self.frame.called.code, self.frame.at);
        let first = match code.get(at) {
            Some(&first) if at >= 8 => first,
            _ => return Err(OUTSIDE),
        };
        self.frame.at = match first {
            0x00..=0x3F | 0xC0..=0xDF => {
                let (a, next) = address(code, at)?;
                self.load(a)?;
                next
            }
            0x40..=0x5F => {
                let magnitude = half(code, at).ok_or(OUTSIDE)? & 0xFFF;
                let sign = (first & 16 != 0 && magnitude != 0) as u32;
                self.push(Cell::Scalar(sign << 31 | magnitude))?;
                at + 2
            }
            0x60..=0x6F => {
                match self.table[first as usize & 15] {
                    op @ (8..=11 | 14 | 15) => self.dyadic(op as u32)?,
                    _ => return Err((3, 11)),
                }
                at + 1
            }
            0x81..=0x8F | 0x91 => {
                let (a, next) = address(code, at + 1)?;
                if first == 0x91 { self.assign(a)? } else { self.assign_indexed(first as usize & 15, a)? }
                next
            }
            0xA0..=0xBF => self.etc(first, code, at)?,
            _ => return Err((3, 11)),
        };
        Ok(())
    }

    /// The place to go on at.
    #[inline]
    fn etc(&mut self, first: u8, code: &[u8], at: usize) -> Result<usize, Trap> {
        match first {
            0xA1 => drop(self.operands(1)?.pop()),
            0xA6 => self.join(arrays::reshape)?,
            0xA8 => self.join(arrays::catenate)?,
            0xA9 => self.index_generator()?,
            0xAA => {
                let w = half(code, at + 1).ok_or(OUTSIDE)? << 16 | half(code, at + 3).ok_or(OUTSIDE)?;
                self.push(if elements::is_scalar(w) { Cell::Scalar(w) } else { return Err((3, 5)) })?;
                return Ok(at + 5);
            }
            0xAD..=0xAF => return self.jump(first, half(code, at + 1).ok_or(OUTSIDE)? as usize, at + 3),
            0xB0 => return self.leave(),
            0xB1 => return self.call(half(code, at + 1).ok_or(OUTSIDE)?, at + 3),
            _ => return Err((3, 11)),
        }
        Ok(at + 1)
    }

    /// The stack, if the current function has so many operands on it.
    #[inline]
    pub fn operands(&mut self, n: usize) -> Result<&mut Vec<Cell>, Trap> {
        if self.stack.len() < self.frame.temporaries + n { Err((3, 4)) } else { Ok(&mut self.stack) }
    }

    #[inline]
    fn push(&mut self, cell: Cell) -> Result<(), Trap> {
        if self.stack.len() >= self.most {
            return Err((1, 1));
        }
        self.stack.push(cell);
        Ok(())
    }

    /// The variable that an address names, through one indirection.
    #[inline]
    fn resolve(&self, a: Address) -> Result<Place, Trap> {
        let place = match a {
            Address::Local(below) if below as usize > self.frame.temporaries - self.frame.start => return Err((3, 2)),
            Address::Local(below) => Place::Stack(self.frame.temporaries - below as usize),
            Address::Global(g) if g < 8 || g as usize - 8 >= self.globals.len() => return Err((3, 3)),
            Address::Global(g) => Place::Global(g as usize - 8),
        };
        match *self.cell(place) {
            Cell::Indirect(to) if matches!(self.cell(to), Cell::Indirect(_)) => Err((3, 6)),
            Cell::Indirect(to) => Ok(to),
            _ => Ok(place),
        }
    }

    #[inline]
    fn cell(&self, place: Place) -> &Cell {
        match place {
            Place::Stack(i) => &self.stack[i],
            Place::Global(i) => &self.globals[i],
        }
    }

    #[inline]
    fn cell_mut(&mut self, place: Place) -> &mut Cell {
        match place {
            Place::Stack(i) => &mut self.stack[i],
            Place::Global(i) => &mut self.globals[i],
        }
    }

    #[inline]
    fn load(&mut self, a: Address) -> Result<(), Trap> {
        match self.cell(self.resolve(a)?) {
            Cell::Undefined => Err((10, 0)),
            cell => self.push(cell.clone()),
        }
    }

    #[inline]
    fn assign(&mut self, a: Address) -> Result<(), Trap> {
        let place = self.resolve(a)?;
        let Some(cell) = self.operands(1)?.last() else { return Err((3, 4)) };
        value(cell)?;
        if let Some(cell) = self.stack.pop() {
            *self.cell_mut(place) = cell;
        }
        Ok(())
    }

    fn assign_indexed(&mut self, rank: usize, a: Address) -> Result<(), Trap> {
        let place = self.resolve(a)?;
        let first = self.operands(rank + 1)?.len() - rank - 1;
        value(self.cell(place))?;
        let operands = &self.stack[first..];
        operands.iter().try_for_each(|cell| value(cell).map(drop))?;
        let Some(&Cell::Scalar(w)) = operands.first() else { return Err((5, 0)) };
        if operands.iter().any(|cell| !matches!(cell, Cell::Scalar(_))) {
            return Err((5, 0));
        }
        let subscripts = operands[1..].iter().rev().map(|cell| if let Cell::Scalar(w) = cell { *w } else { 0 });
        let Cell::Array(array) = self.cell(place) else { return Err((5, 0)) };
        if array.shape.lengths().len() != rank {
            return Err((9, 1));
        }
        let at = arrays::place(self.flags & 1, subscripts, array.shape.lengths())?;
        self.stack.truncate(first);
        if let Cell::Array(array) = self.cell_mut(place) {
            Rc::make_mut(array).ravel[at] = w;
        }
        self.stack.push(self.cell(place).clone());
        Ok(())
    }

    #[inline]
    fn dyadic(&mut self, op: u32) -> Result<(), Trap> {
        let [.., second, first] = &self.operands(2)?[..] else { return Err((3, 4)) };
        let result = match (first, second) {
            (&Cell::Scalar(x), &Cell::Scalar(y)) => Cell::Scalar(elements::one(op, x, y).map_err(arrays::trap)?),
            (first, second) => Cell::Array(Rc::new(arrays::dyadic(op, value(first)?, value(second)?)?)),
        };
        self.replace_two(result);
        Ok(())
    }

    fn join(&mut self, operator: fn(Value, Value) -> Result<Array, Trap>) -> Result<(), Trap> {
        let [.., second, first] = &self.operands(2)?[..] else { return Err((3, 4)) };
        let array = operator(value(first)?, value(second)?)?;
        let result = match array.shape.lengths() {
            [] => Cell::Scalar(array.ravel[0]),
            _ => Cell::Array(Rc::new(array)),
        };
        self.replace_two(result);
        Ok(())
    }

    #[inline]
    fn replace_two(&mut self, result: Cell) {
        self.stack.pop();
        if let Some(last) = self.stack.last_mut() {
            *last = result;
        }
    }

    fn index_generator(&mut self) -> Result<(), Trap> {
        let origin = self.flags & 1;
        let Some(last) = self.operands(1)?.last_mut() else { return Err((3, 4)) };
        let n = arrays::short(value(last)?.single()?)?;
        *last = Cell::Array(Rc::new(arrays::index_generator(origin, n)));
        Ok(())
    }
}
