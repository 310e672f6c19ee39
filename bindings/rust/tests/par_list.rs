//! The auditor's story: a par list is copied, the copy is written, and the list is as it was.
mod common;
use common::*;

/// Global 8 to global 9; then 0 to the element of global 9 at place 2; then the end.
const COPY_AND_WRITE: [u8; 14] =
    [GLOBAL, 8, ASSIGN_NO_RESULT, GLOBAL, 9, CONST, 0, CONST, 2, ASSIGN_INDEXED_1, GLOBAL, 9, EAT1, RETURN];

#[test]
fn a_written_copy_leaves_the_list() {
    let mut m = Fixture::new(&COPY_AND_WRITE);
    m.load(8, &[3], &[10, 20, 30]).unwrap();
    assert_eq!(m.run(2), done(2));
    assert_eq!(m.look(8), array(&[3], &[10, 20, 30]));
    assert_eq!(m.look(9), array(&[3], &[10, 20, 30]));
    assert_eq!(m.data[8], m.data[9], "list and copy share a block");

    assert_eq!(m.run(4), done(4));
    assert_eq!(m.look(8), array(&[3], &[10, 20, 30]));
    assert_eq!(m.look(9), array(&[3], &[10, 20, 0]));
    assert_ne!(m.data[8], m.data[9], "the written copy has a block of its own");
    assert_eq!(m.run(100), trapped(0, 3, 13));
}

#[test]
fn a_loaded_list_leaves_its_copy() {
    let mut m = Fixture::new(&COPY_AND_WRITE);
    m.load(8, &[3], &[10, 20, 30]).unwrap();
    assert_eq!(m.run(2), done(2));
    m.load(8, &[2], &[1, 2]).unwrap();
    assert_eq!(m.look(8), array(&[2], &[1, 2]));
    assert_eq!(m.look(9), array(&[3], &[10, 20, 30]));
}

#[test]
fn a_run_in_parts_is_a_run() {
    let mut whole = Fixture::new(&COPY_AND_WRITE);
    whole.load(8, &[3], &[10, 20, 30]).unwrap();
    let mut parts = whole.clone();
    assert_eq!(whole.run(6), done(6));
    for _ in 0..6 {
        assert_eq!(parts.run(1), done(1));
    }
    assert_eq!(whole.data, parts.data);
}
