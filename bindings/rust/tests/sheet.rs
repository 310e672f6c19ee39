//! Sheets: where the words of array storage went.
mod common;
use common::*;
use crms::{Refusal, Sheet};

/// Global 8 into global 9, and then 0 into its first place.
const COPY: [u8; 13] = [GLOBAL, 8, ASSIGN_NO_RESULT, GLOBAL, 9, CONST, 0, CONST, 0, ASSIGN_INDEXED_1, GLOBAL, 9, EAT1];

fn of(arrays: u32, slop: u32, free: u32) -> Result<Sheet, Refusal> {
    Ok(Sheet { arrays, slop, free, end: 3, total: 24 })
}

#[test]
fn a_shared_block_is_counted_once() {
    let mut m = Fixture::new(&COPY);
    assert_eq!(m.sheet(), of(0, 0, 21));
    m.load(8, &[4], &[1, 2, 3, 4]).unwrap();
    assert_eq!(m.sheet(), of(7, 0, 14));
    assert_eq!(m.run(2), done(2));
    assert_eq!(m.sheet(), of(7, 0, 14));
    assert_eq!(m.run(4), done(4));
    assert_eq!(m.sheet(), of(14, 0, 7));
}

#[test]
fn what_is_too_little_for_a_free_block_is_slop() {
    let mut m = Fixture::new(&COPY);
    m.load(8, &[16], &[0; 16]).unwrap();
    assert_eq!(m.sheet(), of(19, 2, 0));
    assert_eq!(m.load(9, &[0], &[]), Err(Refusal::Full));
    m.load(8, &[], &[0]).unwrap();
    assert_eq!(m.sheet(), of(0, 0, 21));
}

#[test]
fn more_than_the_free_words_is_full() {
    let mut m = Fixture::new(&COPY);
    m.load(8, &[4], &[1, 2, 3, 4]).unwrap();
    let free = m.sheet().unwrap().free;
    assert_eq!(m.load(9, &[free - 2], &vec![0; free as usize - 2]), Err(Refusal::Full));
    m.load(9, &[free - 3], &vec![0; free as usize - 3]).unwrap();
}

#[test]
fn a_refused_segment_has_no_sheet() {
    let mut m = Fixture::new(&COPY);
    m.data[12] += 1; // SIZE of the free block
    assert_eq!(m.sheet(), Err(Refusal::Blocks));
    m.data.truncate(31);
    assert_eq!(m.sheet(), Err(Refusal::DataLength));
    m.regular.truncate(3);
    assert_eq!(m.sheet(), Err(Refusal::DataLength));
    m.data.resize(32, 0);
    assert_eq!(m.sheet(), Err(Refusal::ProcedureLength));
}
