//! Cells and arrays as one writes them in Rust: an array is a shape and a vector of elements, counted by `Rc`; and what
//! operators make of arrays.
use crate::elements;
use std::rc::Rc;

pub type Trap = (u8, u8);

#[derive(Clone)]
pub enum Cell {
    Undefined,
    Scalar(u32),
    Array(Rc<Array>),
    /// REFERENCE makes it, which no bench runs; every load looks for it.
    #[allow(dead_code)]
    Indirect(Place),
}

#[derive(Clone, Copy)]
pub enum Place {
    Stack(usize),
    Global(usize),
}

#[derive(Clone, Copy)]
pub struct Shape {
    rank: usize,
    lengths: [u32; 15],
}

impl Shape {
    pub fn of(lengths: &[u32]) -> Result<Shape, Trap> {
        let mut shape = Shape { rank: lengths.len(), lengths: [0; 15] };
        shape.lengths.get_mut(..lengths.len()).ok_or((5, 0))?.copy_from_slice(lengths);
        Ok(shape)
    }

    pub fn lengths(&self) -> &[u32] {
        &self.lengths[..self.rank]
    }

    fn vector(length: usize) -> Shape {
        let mut lengths = [0; 15];
        lengths[0] = length as u32;
        Shape { rank: 1, lengths }
    }

    pub fn matrix(rows: usize, width: usize) -> Shape {
        let mut lengths = [0; 15];
        lengths[..2].copy_from_slice(&[rows as u32, width as u32]);
        Shape { rank: 2, lengths }
    }
}

#[derive(Clone)]
pub struct Array {
    pub shape: Shape,
    pub ravel: Vec<u32>,
}

impl Array {
    pub fn vector(ravel: Vec<u32>) -> Array {
        Array { shape: Shape::vector(ravel.len()), ravel }
    }
}

/// A scalar or an array, as an operand that is only looked at.
#[derive(Clone, Copy, PartialEq, Debug)]
pub struct Value<'a> {
    pub lengths: &'a [u32],
    pub ravel: &'a [u32],
}

/// The value of an operand.
#[inline]
pub fn value(cell: &Cell) -> Result<Value<'_>, Trap> {
    match cell {
        Cell::Scalar(w) => Ok(Value { lengths: &[], ravel: std::slice::from_ref(w) }),
        Cell::Array(array) => Ok(Value { lengths: array.shape.lengths(), ravel: &array.ravel }),
        Cell::Undefined | Cell::Indirect(_) => Err((3, 5)),
    }
}

impl Value<'_> {
    fn at_most_a_vector(&self) -> Result<(), Trap> {
        if self.lengths.len() > 1 { Err((5, 0)) } else { Ok(()) }
    }

    /// The only element.
    pub fn single(&self) -> Result<u32, Trap> {
        let [w] = self.ravel else { return Err((6, 0)) };
        Ok(*w)
    }
}

pub fn trap(number: u32) -> Trap {
    ((number >> 8) as u8, number as u8)
}

fn conform<'a>(a: &Value<'a>, b: &Value<'a>) -> Result<&'a [u32], Trap> {
    match (a.ravel.len(), b.ravel.len()) {
        (1, 1) if b.lengths.len() < a.lengths.len() => Ok(a.lengths),
        (1, _) => Ok(b.lengths),
        (_, 1) => Ok(a.lengths),
        _ if a.lengths.len() != b.lengths.len() => Err((5, 0)),
        _ if a.lengths != b.lengths => Err((6, 0)),
        _ => Ok(a.lengths),
    }
}

pub fn dyadic(op: u32, a: Value, b: Value) -> Result<Array, Trap> {
    let shape = Shape::of(conform(&a, &b)?)?;
    let n = if a.ravel.len() == 1 { b.ravel.len() } else { a.ravel.len() };
    let mut ravel = vec![0; n];
    match elements::dyadic(op, a.ravel, b.ravel, &mut ravel) {
        0 => Ok(Array { shape, ravel }),
        number => Err(trap(number)),
    }
}

pub fn catenate(a: Value, b: Value) -> Result<Array, Trap> {
    let shape = joined(&a, &b)?;
    Ok(Array { shape, ravel: [a.ravel, b.ravel].concat() })
}

/// The shape of a join: elements are counted where neither operand is above rank one, else rows of one width.
fn joined(a: &Value, b: &Value) -> Result<Shape, Trap> {
    if a.lengths.len() <= 1 && b.lengths.len() <= 1 {
        return Ok(Shape::vector(length(a.ravel.len() + b.ravel.len())?));
    }
    match rows(a.lengths).zip(rows(b.lengths)) {
        None => Err((5, 0)),
        Some(((_, width), (_, other))) if width != other => Err((6, 0)),
        Some(((m, width), (n, _))) => Ok(Shape::matrix(length(m + n)?, width)),
    }
}

/// The rows and the width of a matrix, or of a vector, which counts as one row.
fn rows(lengths: &[u32]) -> Option<(usize, usize)> {
    match *lengths {
        [width] => Some((1, width as usize)),
        [rows, width] => Some((rows as usize, width as usize)),
        _ => None,
    }
}

/// The first length of a join.
fn length(n: usize) -> Result<usize, Trap> {
    if n < 1 << 16 { Ok(n) } else { Err((6, 0)) }
}

pub fn index_generator(origin: u32, n: u32) -> Array {
    Array::vector((origin..origin + n).collect())
}

pub fn reshape(a: Value, b: Value) -> Result<Array, Trap> {
    a.at_most_a_vector()?;
    let mut shape = Shape::of(a.ravel)?;
    if a.ravel.iter().any(|&w| elements::is_character(w)) {
        return Err((7, 0));
    }
    for (length, &w) in shape.lengths.iter_mut().zip(a.ravel) {
        *length = short(w)?;
    }
    let count = shape.lengths().iter().fold(1u64, |n, &l| (n * l as u64).min(1 << 16)) as usize;
    match (count, b.ravel.len()) {
        (0x1_0000.., _) => Err((8, 5)),
        (1.., 0) => Err((6, 0)),
        _ => {
            let mut ravel = vec![0; count];
            elements::cycle(b.ravel, &mut ravel);
            Ok(Array { shape, ravel })
        }
    }
}

/// A scalar read as a whole number.
fn whole(w: u32) -> Result<i64, Trap> {
    if elements::is_character(w) {
        return Err((7, 0));
    }
    let v = elements::value(w);
    if v.fract() == 0.0 { Ok(v as i64) } else { Err((8, 5)) }
}

/// A scalar read as a length.
pub fn short(w: u32) -> Result<u32, Trap> {
    whole(w)?.try_into().ok().filter(|&n: &u32| n < 1 << 16).ok_or((8, 5))
}

/// The place in the ravel: characters are judged first, then fractions, then ranges.
pub fn place(origin: u32, subscripts: impl Iterator<Item = u32> + Clone, lengths: &[u32]) -> Result<usize, Trap> {
    if subscripts.clone().any(elements::is_character) {
        return Err((7, 0));
    }
    let mut at = Ok(0);
    for (w, &length) in subscripts.zip(lengths) {
        let k = whole(w)? - origin as i64;
        at = if (0..length as i64).contains(&k) { at.map(|n| n * length as usize + k as usize) } else { Err((9, 2)) };
    }
    at
}

pub fn truth(w: u32) -> Result<bool, Trap> {
    match w {
        0 => Ok(false),
        1 | 0x6000_0000 => Ok(true),
        _ if elements::is_character(w) => Err((7, 0)),
        _ => Err((8, 5)),
    }
}
