//! Traps: which one, after how many instructions, and what was left as it was.
mod common;
use common::*;
use crms::Trap;

#[test]
fn a_trap_comes_instead_of_its_instruction() {
    // 8,388,607 + 1
    let mut m = Fixture::new(&[CONSTANT_SCALAR, 0x00, 0x7F, 0xFF, 0xFF, CONST, 1, SUM]);
    assert_eq!(m.run(2), done(2));
    let mut before = m.data.clone();
    before[3] = 0x0801;
    assert_eq!(m.run(10), trapped(0, 8, 1));
    assert_eq!(m.data, before);
    assert_eq!(m.run(10), trapped(0, 8, 1), "a further run meets it again");
}

#[test]
fn a_step_trap_comes_after_its_instruction() {
    let mut m = Fixture::new(&[CONST, 5, EAT1, RETURN]);
    m.data[2] |= 0x8; // STEP
    assert_eq!(m.run(10), trapped(1, 2, 1));
    assert_eq!(m.run(1), trapped(1, 2, 1), "it goes before the budget");
    assert_eq!(m.run(10), trapped(0, 3, 13));
    assert!(Trap { class: 2, number: 1 }.comes_after());
    assert!(!Trap { class: 2, number: 4 }.comes_after());
    assert!(!Trap { class: 3, number: 1 }.comes_after());
}

#[test]
fn storage_full_changes_nothing() {
    // INDEXGEN of 19 asks for 22 words of 21.
    let mut m = Fixture::new(&[CONST, 19, INDEXGEN]);
    assert_eq!(m.run(1), done(1));
    let mut before = m.data.clone();
    before[3] = 0x0102;
    assert_eq!(m.run(1), trapped(0, 1, 2));
    assert_eq!(m.data, before);
}

#[test]
fn no_budget_sets_word_3_to_zero() {
    let mut m = Fixture::new(&[RETURN]);
    assert_eq!(m.run(1), trapped(0, 3, 13));
    assert_eq!(m.data[3], 0x030D);
    assert_eq!(m.run(0), done(0));
    assert_eq!(m.data[3], 0);
}

#[test]
fn a_long_run_counts() {
    let mut m = Fixture::new(&[NO_OPERATION, GO, 0, 8]);
    assert_eq!(m.run(1_000_001), done(1_000_001));
}
