//! Operators over elements as one writes them in Rust for speed: integers by a loop without branches, of which the compiler
//! makes vector code, and all else in doubles, element by element, up to the first trap. A bench need not use all of them.
#![allow(dead_code)]

pub const SUM: u32 = 8;
pub const DIFFERENCE: u32 = 9;
pub const PRODUCT: u32 = 10;
pub const QUOTIENT: u32 = 11;
pub const LESS: u32 = 14;
pub const EQUAL: u32 = 15;

/// A word, or a trap's class times 256 and its number.
type Answer = Result<u32, u32>;

/// Bits 30 to 23, which no integer has.
const NO_INTEGER: u32 = 0x7f80_0000;

/// The value of an integer's word, and the word of a value; one out of range gets a bit that no integer has.
fn signed(w: u32) -> i32 {
    let sign = w as i32 >> 31;
    ((w & 0x7f_ffff) as i32 ^ sign) - sign
}

fn word(v: i32) -> u32 {
    v as u32 & 0x8000_0000 | v.unsigned_abs()
}

fn integer(w: u32) -> Option<i64> {
    (w & NO_INTEGER == 0).then(|| signed(w) as i64)
}

fn integer_word(v: i64) -> Answer {
    match v.unsigned_abs() {
        m if m < 1 << 23 => Ok(word(v as i32)),
        _ => Err(0x801),
    }
}

pub fn is_character(w: u32) -> bool {
    w >> 24 & 0x7f == 1
}

pub fn is_scalar(w: u32) -> bool {
    w >> 30 & 1 == 1 || w & NO_INTEGER == 0 && w != 0x8000_0000 || w >> 8 == 0x1_0000
}

/// The value of a number. A double has more than twice a float's digits, so that what is computed with it and then
/// rounded to a float is rounded once.
pub fn value(w: u32) -> f64 {
    if w & 0x4000_0000 == 0 {
        return signed(w) as f64;
    }
    let exponent = (w >> 22 & 0xff) as u64 + 1023 - 128;
    f64::from_bits((w as u64 >> 31) << 63 | exponent << 52 | ((w & 0x3f_ffff) as u64) << 30)
}

fn float_word(v: f64) -> Answer {
    if v == 0.0 {
        return Ok(0);
    }
    let bits = v.to_bits();
    let exponent = (bits >> 52 & 0x7ff) as i64 - 1023 + 128;
    if exponent < 0 {
        return Err(0x802);
    }
    let digits = (exponent as u64) << 52 | bits & 0xf_ffff_ffff_ffff;
    let rounded = digits + 0x1fff_ffff + (digits >> 30 & 1) >> 30;
    if rounded >> 30 != 0 {
        return Err(0x803);
    }
    Ok((bits >> 63) as u32 * 0x8000_0000 + 0x4000_0000 + rounded as u32)
}

fn arithmetic(a: u32, b: u32, whole: impl Fn(i64, i64) -> i64, real: impl Fn(f64, f64) -> f64) -> Answer {
    if let (Some(x), Some(y)) = (integer(a), integer(b)) {
        return integer_word(whole(x, y));
    }
    if is_character(a) || is_character(b) {
        return Err(0x700);
    }
    float_word(real(value(a), value(b)))
}

fn sum(a: u32, b: u32) -> Answer {
    arithmetic(a, b, |x, y| x + y, |x, y| x + y)
}

fn difference(a: u32, b: u32) -> Answer {
    arithmetic(a, b, |x, y| x - y, |x, y| x - y)
}

fn quotient(a: u32, b: u32) -> Answer {
    if is_character(a) || is_character(b) {
        return Err(0x700);
    }
    if value(b) == 0.0 {
        return Err(0x804);
    }
    float_word(value(a) / value(b))
}

/// A double holds every number, so that a comparison of doubles is exact.
fn less(a: u32, b: u32) -> Answer {
    if let (Some(x), Some(y)) = (integer(a), integer(b)) {
        return Ok((x < y) as u32);
    }
    if is_character(a) || is_character(b) {
        return Err(0x700);
    }
    Ok((value(a) < value(b)) as u32)
}

fn equal(a: u32, b: u32) -> Answer {
    match (is_character(a), is_character(b)) {
        (true, same) => Ok((same && a & 0xff == b & 0xff) as u32),
        (false, true) => Ok(0),
        (false, false) => Ok((value(a) == value(b)) as u32),
    }
}

/// The answer for one pair.
#[inline]
pub fn one(op: u32, a: u32, b: u32) -> Answer {
    match op {
        SUM => sum(a, b),
        DIFFERENCE => difference(a, b),
        PRODUCT => arithmetic(a, b, |x, y| x * y, |x, y| x * y),
        QUOTIENT => quotient(a, b),
        LESS => less(a, b),
        _ => equal(a, b),
    }
}

/// Every pair, a single element being repeated.
fn pairs(a: &[u32], b: &[u32], out: &mut [u32], mut put: impl FnMut(u32, u32, &mut u32)) {
    match (a, b) {
        ([x], b) => b.iter().zip(out).for_each(|(&y, to)| put(*x, y, to)),
        (a, [y]) => a.iter().zip(out).for_each(|(&x, to)| put(x, *y, to)),
        (a, b) => a.iter().zip(b).zip(out).for_each(|((&x, &y), to)| put(x, y, to)),
    }
}

/// All pairs, if all are integers and so are the results.
fn integers(a: &[u32], b: &[u32], out: &mut [u32], result: impl Fn(i32, i32) -> u32) -> bool {
    let mut seen = a.first().unwrap_or(&0) | b.first().unwrap_or(&0);
    if seen & NO_INTEGER != 0 {
        return false;
    }
    pairs(a, b, out, |x, y, to| {
        let w = result(signed(x), signed(y));
        seen |= x | y | w;
        *to = w;
    });
    seen & NO_INTEGER == 0
}

/// LESS of floats by their words, as the engine does it, if all are floats: for those who would rather compare with that.
#[inline(never)]
pub fn less_by_words(a: &[u32], b: &[u32], out: &mut [u32]) -> bool {
    let place = |w: u32| {
        let sign = w as i32 >> 31;
        ((w & 0x7fff_ffff) as i32 ^ sign) - sign
    };
    let mut every = !0;
    pairs(a, b, out, |x, y, to| {
        every &= x & y;
        *to = (place(x) < place(y)) as u32;
    });
    every & 0x4000_0000 != 0
}

fn each(a: &[u32], b: &[u32], out: &mut [u32], f: impl Fn(u32, u32) -> Answer) -> u32 {
    let put = |x: u32, y: u32, to: &mut u32| f(x, y).map(|w| *to = w);
    let done = match (a, b) {
        ([x], b) => b.iter().zip(out).try_for_each(|(&y, to)| put(*x, y, to)),
        (a, [y]) => a.iter().zip(out).try_for_each(|(&x, to)| put(x, *y, to)),
        (a, b) => a.iter().zip(b).zip(out).try_for_each(|((&x, &y), to)| put(x, y, to)),
    };
    done.err().unwrap_or(0)
}

/// The first trap, or 0.
#[inline(never)]
pub fn dyadic(op: u32, a: &[u32], b: &[u32], out: &mut [u32]) -> u32 {
    let served = match op {
        SUM => integers(a, b, out, |x, y| word(x + y)),
        DIFFERENCE => integers(a, b, out, |x, y| word(x - y)),
        LESS => integers(a, b, out, |x, y| (x < y) as u32),
        EQUAL => integers(a, b, out, |x, y| (x == y) as u32),
        _ => false,
    };
    if served {
        return 0;
    }
    match op {
        SUM => each(a, b, out, |x, y| one(SUM, x, y)),
        DIFFERENCE => each(a, b, out, |x, y| one(DIFFERENCE, x, y)),
        PRODUCT => each(a, b, out, |x, y| one(PRODUCT, x, y)),
        QUOTIENT => each(a, b, out, |x, y| one(QUOTIENT, x, y)),
        LESS => each(a, b, out, |x, y| one(LESS, x, y)),
        _ => each(a, b, out, |x, y| one(EQUAL, x, y)),
    }
}

#[inline(never)]
pub fn copy(from: &[u32], to: &mut [u32]) {
    to.copy_from_slice(from);
}

#[inline(never)]
pub fn cycle(from: &[u32], to: &mut [u32]) {
    if let [w] = from {
        return to.fill(*w);
    }
    for round in to.chunks_mut(from.len().max(1)) {
        round.copy_from_slice(&from[..round.len()]);
    }
}
