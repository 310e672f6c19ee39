//! Times the proved scalar operators beside plain Rust with the same checks, in loops over 4,096 words.
use std::time::Instant;

extern "C" {
    fn scalar_dyadic(suboperation: u32, a: *const u32, n: usize, b: *const u32, m: usize, out: *mut u32, k: usize) -> usize;
}

const SUM: u32 = 8;
const PRODUCT: u32 = 10;
const QUOTIENT: u32 = 11;
const LESS: u32 = 14;

fn proved(suboperation: u32, a: &[u32], b: &[u32], out: &mut [u32]) -> usize {
    unsafe { scalar_dyadic(suboperation, a.as_ptr(), a.len(), b.as_ptr(), b.len(), out.as_mut_ptr(), out.len()) }
}

mod plain {
    pub type Answer = Result<u32, (u8, u8)>;

    const LIMIT: u32 = 0x7F_FFFF;

    fn small(a: u32, b: u32) -> bool {
        (a | b) & 0x7F80_0000 == 0
    }

    fn character(w: u32) -> bool {
        w & 0x7F00_0000 == 0x0100_0000
    }

    fn signed(w: u32) -> i64 {
        let size = (w & LIMIT) as i64;
        if w >> 31 == 1 { -size } else { size }
    }

    fn integer(v: i64) -> Answer {
        let size = v.unsigned_abs();
        if size > LIMIT as u64 {
            return Err((8, 1));
        }
        Ok((v >> 63) as u32 & 0x8000_0000 | size as u32)
    }

    /// A magnitude of sig * 2^exp units of 2^-150.
    fn unpack(w: u32) -> (u64, i32) {
        if w & 0x4000_0000 != 0 {
            return ((0x40_0000 | w & 0x3F_FFFF) as u64, (w >> 22 & 0xFF) as i32);
        }
        let size = w & LIMIT;
        if size == 0 {
            return (0, 0);
        }
        let shift = size.leading_zeros() as i32 - 9;
        ((size as u64) << shift, 150 - shift)
    }

    /// The float nearest to v * 2^e units.
    fn round(sign: u32, v: u64, e: i32) -> Answer {
        if v == 0 {
            return Ok(0);
        }
        let zeros = v.leading_zeros() as i32;
        let e = e + 41 - zeros;
        if e < 0 {
            return Err((8, 2));
        }
        let v = v << zeros;
        let digits = v >> 41;
        let digits = digits + (((v & ((1 << 41) - 1)) + ((1 << 40) - 1) + (digits & 1)) >> 41);
        let bits = ((e as u64) << 22) + digits - 0x40_0000;
        if bits >= 1 << 30 {
            return Err((8, 3));
        }
        Ok(sign << 31 | 0x4000_0000 | bits as u32)
    }

    #[inline]
    fn difference(a: u32, b: u32, flip: u32) -> Answer {
        let (mut g, mut e) = unpack(a);
        let (mut h, mut f) = unpack(b);
        let (mut s, mut t) = (a >> 31, (b >> 31) ^ flip);
        if g == 0 {
            return round(t, h, f);
        }
        if h == 0 {
            return round(s, g, e);
        }
        if e < f {
            std::mem::swap(&mut g, &mut h);
            std::mem::swap(&mut e, &mut f);
            std::mem::swap(&mut s, &mut t);
        }
        let d = (e - f) as u32;
        let (x, y) = if d <= 38 {
            ((g << d) as i64, h as i64)
        } else {
            f = e - 3;
            ((g << 3) as i64, 1)
        };
        let v = (if s == 1 { -x } else { x }) + (if t == 1 { -y } else { y });
        round((v < 0) as u32, v.unsigned_abs(), f)
    }

    #[inline]
    pub fn sum(a: u32, b: u32) -> Answer {
        if small(a, b) {
            return integer(signed(a) + signed(b));
        }
        if character(a) || character(b) {
            return Err((7, 0));
        }
        difference(a, b, 0)
    }

    #[inline]
    pub fn less(a: u32, b: u32) -> Answer {
        if small(a, b) {
            return Ok((signed(a) < signed(b)) as u32);
        }
        if character(a) || character(b) {
            return Err((7, 0));
        }
        Ok((place(a) < place(b)) as u32)
    }

    /// Where a number stands among all: by its digits, their exponent before them.
    #[inline]
    fn place(w: u32) -> i64 {
        let (g, e) = unpack(w);
        let place = ((e as i64) << 22) + g as i64;
        if w >> 31 == 1 { -place } else { place }
    }

    #[inline]
    pub fn product(a: u32, b: u32) -> Answer {
        if small(a, b) {
            return integer(signed(a) * signed(b));
        }
        if character(a) || character(b) {
            return Err((7, 0));
        }
        let (g, e) = unpack(a);
        let (h, f) = unpack(b);
        round((a ^ b) >> 31, g * h, e + f - 150)
    }

    #[inline]
    pub fn quotient(a: u32, b: u32) -> Answer {
        if character(a) || character(b) {
            return Err((7, 0));
        }
        let (g, e) = unpack(a);
        let (h, f) = unpack(b);
        if h == 0 {
            return Err((8, 4));
        }
        let n = g << 40;
        round((a ^ b) >> 31, (n / h) << 1 | (n % h != 0) as u64, e - f + 109)
    }
}

fn each(operator: impl Fn(u32, u32) -> plain::Answer, a: &[u32], b: &[u32], out: &mut [u32]) -> usize {
    let mut traps = 0;
    for ((a, b), out) in a.iter().zip(b).zip(out) {
        match operator(*a, *b) {
            Ok(w) => *out = w,
            Err(_) => traps += 1,
        }
    }
    traps
}

#[inline(never)]
fn plainly(suboperation: u32, a: &[u32], b: &[u32], out: &mut [u32]) -> usize {
    match suboperation {
        SUM => each(plain::sum, a, b, out),
        PRODUCT => each(plain::product, a, b, out),
        QUOTIENT => each(plain::quotient, a, b, out),
        _ => each(plain::less, a, b, out),
    }
}

/// The least time of an element, in nanoseconds, over many short runs of each, one after the other.
fn race(suboperation: u32, a: &[u32], b: &[u32]) -> (f64, f64) {
    let mut out = [vec![0; a.len()], vec![0; a.len()]];
    let mut best = [f64::MAX; 2];
    let mut traps = [0; 2];
    for _ in 0..400 {
        for (k, run) in [proved, plainly].into_iter().enumerate() {
            let start = Instant::now();
            traps[k] = run(suboperation, a, b, &mut out[k]);
            best[k] = best[k].min(start.elapsed().as_nanos() as f64 / a.len() as f64);
        }
    }
    assert!(traps[0] == traps[1] && out[0] == out[1], "the two differ");
    (best[0], best[1])
}

fn main() {
    let mut state = 0x1973_0112_u64;
    let mut random = move || {
        state ^= state << 13;
        state ^= state >> 7;
        state ^= state << 17;
        (state >> 16) as u32
    };
    let mut words = |make: fn(u32, u32) -> u32| -> Vec<u32> { (0..4096).map(|_| make(random(), random())).collect() };
    let integer = |r: u32, s: u32| if r % 4_000_000 == 0 { 0 } else { r % 4_000_000 | s & 0x8000_0000 };
    let factor = |r: u32, s: u32| if r % 2048 == 0 { 0 } else { r % 2048 | s & 0x8000_0000 };
    let float = |r: u32, s: u32| 0x4000_0000 | r & 0x803F_FFFF | (118 + s % 20) << 22;
    let mixed = |r: u32, s: u32| if s & 4 == 0 { r % 4_000_000 } else { 0x4000_0000 | r & 0x803F_FFFF | (140 + s / 8 % 8) << 22 };
    let rows: [(&str, u32, Vec<u32>, Vec<u32>, &str); 10] = [
        ("SUM of integers", SUM, words(integer), words(integer), "1.5"),
        ("PRODUCT of integers", PRODUCT, words(factor), words(factor), ""),
        ("LESS of integers", LESS, words(integer), words(integer), ""),
        ("SUM of floats", SUM, words(float), words(float), "2.0"),
        ("PRODUCT of floats", PRODUCT, words(float), words(float), "2.0"),
        ("QUOTIENT of floats", QUOTIENT, words(float), words(float), "2.0"),
        ("QUOTIENT of integers", QUOTIENT, words(integer), words(integer), ""),
        ("LESS of floats", LESS, words(float), words(float), ""),
        ("SUM of mixed numbers", SUM, words(mixed), words(mixed), ""),
        ("LESS of mixed numbers", LESS, words(mixed), words(mixed), ""),
    ];
    println!("{:24} {:>10} {:>10} {:>8} {:>8}", "ns an element", "proved", "plain", "ratio", "target");
    for (name, suboperation, a, b, target) in rows {
        let (x, y) = race(suboperation, &a, &b);
        println!("{name:24} {x:10.2} {y:10.2} {:8.2} {target:>8}", x / y);
    }
}
