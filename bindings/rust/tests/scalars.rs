//! Scalars and their words beside the engine: what it takes for a scalar, and how it rounds.
mod common;
use common::*;
use crms::{Refusal, Scalar, Value};

#[test]
fn words_of_document_01() {
    for (scalar, word) in [
        (Scalar::Integer(0), 0),
        (Scalar::Integer(8_388_607), 0x007F_FFFF),
        (Scalar::Integer(-8_388_607), 0x807F_FFFF),
        (Scalar::Character(255), 0x0100_00FF),
        (Scalar::Float(1.0), 0x6000_0000),
        (Scalar::Float(0.5), 0x5FC0_0000),
        (Scalar::Float(-1.5), 0xE020_0000),
        (Scalar::Float(2f64.powi(-128)), 0x4000_0000),
        (Scalar::Float((2.0 - 2f64.powi(-22)) * 2f64.powi(127)), 0x7FFF_FFFF),
    ] {
        assert_eq!(scalar.to_word(), Some(word));
        assert_eq!(Scalar::from_word(word), Some(scalar));
    }
}

#[test]
fn values_without_a_word() {
    let under = 2f64.powi(-128) * (1.0 - f64::EPSILON / 2.0);
    let over = (2.0 - 2f64.powi(-23)) * 2f64.powi(127);
    for value in [under, -under, over, -over, f64::MIN_POSITIVE / 2.0, f64::INFINITY, f64::NAN] {
        assert_eq!(Scalar::Float(value).to_word(), None);
    }
    for value in [8_388_608, -8_388_608, i32::MIN, i32::MAX] {
        assert_eq!(Scalar::Integer(value).to_word(), None);
    }
}

#[test]
fn floats_are_rounded_to_the_nearest_even() {
    let step = 2f64.powi(-22);
    assert_eq!(Scalar::Float(1.0 + step / 2.0).to_word(), Some(0x6000_0000));
    assert_eq!(Scalar::Float(1.0 + step * 0.51).to_word(), Some(0x6000_0001));
    assert_eq!(Scalar::Float(1.0 + step * 1.5).to_word(), Some(0x6000_0002));
    assert_eq!(Scalar::Float(2.0 - step / 2.0).to_word(), Some(0x6040_0000));
    assert_eq!(Scalar::Float(0.0).to_word(), Some(0));
    assert_eq!(Scalar::Float(-0.0).to_word(), Some(0));
}

/// Words of all kinds: a walk by a prime, and every kind's neighbours by single bits.
fn words() -> impl Iterator<Item = u32> {
    let kinds = [0, 1, 0x7F_FFFF, 0x0100_0000, 0x0200_0019, 0x0300_0000, 0x0301_0008, 0x0400_0000, 0x4000_0000, 0x8000_0000];
    let near = kinds.into_iter().flat_map(|w| (0..32).map(move |bit| w ^ 1 << bit));
    (0..=u32::MAX).step_by(65_521).chain(kinds).chain(near)
}

#[test]
fn the_engine_takes_the_same_words_for_scalars() {
    let mut m = Fixture::of(32, 1, 6, &[NO_OPERATION]);
    for word in words() {
        let Some(scalar) = Scalar::from_word(word) else {
            assert_eq!(m.load(8, &[], &[word]), Err(Refusal::NoValue), "{word:#010X}");
            continue;
        };
        assert_eq!(scalar.to_word(), Some(word));
        assert_eq!(m.load(8, &[], &[word]), Ok(()), "{word:#010X}");
        assert_eq!(m.look(8), Ok(Value::Scalar(word)));
    }
}

#[test]
fn the_engine_rounds_quotients_alike() {
    let code = [GLOBAL, 9, GLOBAL, 8, QUOTIENT, ASSIGN_NO_RESULT, GLOBAL, 10, GO, 0, 8];
    let mut m = Fixture::new(&code);
    let mut state: i64 = 1;
    let mut next = || {
        state = state * 48_271 % 0x7FFF_FFFF;
        (state % 16_777_215 - 8_388_607) as i32
    };
    for _ in 0..20_000 {
        let (a, b) = (next(), next().max(1));
        m.load(8, &[], &[Scalar::Integer(a).to_word().unwrap()]).unwrap();
        m.load(9, &[], &[Scalar::Integer(b).to_word().unwrap()]).unwrap();
        assert_eq!(m.run(5), done(5));
        let quotient = Scalar::Float(f64::from(a) / f64::from(b)).to_word().unwrap();
        assert_eq!(m.look(10), Ok(Value::Scalar(quotient)), "{a} / {b}");
    }
}
