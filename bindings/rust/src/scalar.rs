//! Scalars and their words, as document 01 defines descriptors.

/// A scalar: what a word of a value means.
///
/// ```
/// use crms::Scalar;
///
/// assert_eq!(Scalar::Integer(-5).to_word(), Some(0x8000_0005));
/// assert_eq!(Scalar::Character(b'A').to_word(), Some(0x0100_0041));
/// assert_eq!(Scalar::Float(0.5).to_word(), Some(0x5FC0_0000));
/// assert_eq!(Scalar::from_word(0x6000_0000), Some(Scalar::Float(1.0)));
/// assert_eq!(Scalar::from_word(0x0400_0000), None); // undefined
/// ```
#[derive(Clone, Copy, Debug, PartialEq)]
pub enum Scalar {
    /// A whole number of at most [`Scalar::INTEGER_LIMIT`] in magnitude.
    Integer(i32),
    /// A code from 0 to 255.
    Character(u8),
    /// A number from 2^−128 to (2 − 2^−22)·2^127 in magnitude, with 22 bits of fraction. Zero is always an integer.
    Float(f64),
}

impl Scalar {
    /// The greatest magnitude of an integer.
    pub const INTEGER_LIMIT: i32 = 8_388_607;

    /// What a word means: `None` if it is no scalar. Exact.
    pub fn from_word(word: u32) -> Option<Scalar> {
        if word & 0x4000_0000 != 0 {
            return Some(Scalar::Float(float_of(word)));
        }
        if word & 0xFFFF_FF00 == 0x0100_0000 {
            return Some(Scalar::Character((word & 0xFF) as u8));
        }
        if word & 0x7F80_0000 != 0 || word == 0x8000_0000 {
            return None;
        }
        let magnitude = (word & 0x7F_FFFF) as i32;
        Some(Scalar::Integer(if word >> 31 == 1 { -magnitude } else { magnitude }))
    }

    /// The word of a scalar: `None` if the machine has none.
    ///
    /// A float is rounded to the nearest, ties to even, and one that is zero becomes integer 0. Infinities, NaN, magnitudes
    /// below 2^−128 and those that round to 2^128 or more have no word, nor have integers beyond the limit.
    pub fn to_word(self) -> Option<u32> {
        match self {
            Scalar::Integer(value) => integer_word(value),
            Scalar::Character(code) => Some(0x0100_0000 | u32::from(code)),
            Scalar::Float(value) => float_word(value),
        }
    }
}

fn integer_word(value: i32) -> Option<u32> {
    let magnitude = value.unsigned_abs();
    if magnitude > Scalar::INTEGER_LIMIT as u32 {
        return None;
    }
    Some(if value < 0 { 0x8000_0000 | magnitude } else { magnitude })
}

/// Both formats have an implied leading one: the exponent moves from an excess of 128 to one of 1,023, the fraction from 22 bits
/// to 52.
fn float_of(word: u32) -> f64 {
    let sign = u64::from(word >> 31);
    let exponent = u64::from(word >> 22 & 0xFF) + 1023 - 128;
    let fraction = u64::from(word & 0x3F_FFFF);
    f64::from_bits(sign << 63 | exponent << 52 | fraction << 30)
}

fn float_word(value: f64) -> Option<u32> {
    if value == 0.0 {
        return Some(0);
    }
    let bits = value.to_bits();
    // Below 895, 1,023 − 128, lie the magnitudes under 2^−128, subnormal numbers among them.
    let exponent = (bits >> 52 & 0x7FF).checked_sub(1023 - 128)?;
    let fraction = bits & 0xF_FFFF_FFFF_FFFF;
    // The exponent stands above the fraction, so that a fraction that is rounded up to 1 raises it.
    let kept = exponent << 22 | fraction >> 30;
    let rest = fraction & 0x3FFF_FFFF;
    let up = rest > 0x2000_0000 || (rest == 0x2000_0000 && kept & 1 == 1);
    let rounded = kept + u64::from(up);
    // Infinities and NaN have the exponent 2,047 and are beyond it as well.
    if rounded >> 22 > 0xFF {
        return None;
    }
    let sign = (bits >> 63) as u32;
    Some(sign << 31 | 0x4000_0000 | rounded as u32)
}
