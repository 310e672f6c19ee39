//! What looks hand back.
mod common;
use common::*;
use crms::{Scalar, Value};

#[test]
fn scalars() {
    let mut m = Fixture::new(&[NO_OPERATION]);
    for scalar in [Scalar::Integer(-7), Scalar::Character(b'x'), Scalar::Float(-2.5), Scalar::Integer(0)] {
        let word = scalar.to_word().unwrap();
        m.load(11, &[], &[word]).unwrap();
        assert_eq!(m.look(11), Ok(Value::Scalar(word)));
        assert_eq!(Scalar::from_word(word), Some(scalar));
    }
}

#[test]
fn arrays() {
    let mut m = Fixture::of(128, 4, 90, &[NO_OPERATION]);
    m.load(8, &[2, 3], &[1, 2, 3, 4, 5, 6]).unwrap();
    m.load(9, &[1], &[0x0100_0041]).unwrap();
    m.load(10, &[1; 15], &[9]).unwrap();
    assert_eq!(m.look(8), array(&[2, 3], &[1, 2, 3, 4, 5, 6]));
    assert_eq!(m.look(9), array(&[1], &[0x0100_0041]));
    assert_eq!(m.look(10), array(&[1; 15], &[9]));
}

#[test]
fn empty_arrays() {
    let mut m = Fixture::new(&[NO_OPERATION]);
    m.load(8, &[0], &[]).unwrap();
    m.load(9, &[0, 65_535], &[]).unwrap();
    assert_eq!(m.look(8), array(&[0], &[]));
    assert_eq!(m.look(9), array(&[0, 65_535], &[]));
}

#[test]
fn slices_are_parts_of_the_segment() {
    let mut m = Fixture::new(&[NO_OPERATION]);
    m.load(8, &[3], &[10, 20, 30]).unwrap();
    let Ok(Value::Array { lengths, elements }) = m.look(8) else { panic!("an array") };
    let block = (m.data[8] & 0xFFFF) as usize;
    assert!(std::ptr::eq(lengths, &m.data[block + 2..block + 3]));
    assert!(std::ptr::eq(elements, &m.data[block + 3..block + 6]));
}

#[test]
fn the_longest_segment() {
    // One array that takes all of storage: 8 state words, a global, the dummy's 3 and the frame's 2 words are left.
    let mut m = Fixture::of(16_384, 1, 16_373, &[NO_OPERATION]);
    let list: Vec<u32> = (0..16_367).collect();
    m.load(8, &[16_367], &list).unwrap();
    assert_eq!(m.look(8), array(&[16_367], &list));

    // An empty array at the high end: its elements would start at the dummy.
    let mut m = Fixture::of(16_384, 1, 16_373, &[NO_OPERATION]);
    m.load(8, &[0], &[]).unwrap();
    assert_eq!(m.data[8], 0x0200_0000 + 16_376);
    assert_eq!(m.look(8), array(&[0], &[]));
}
