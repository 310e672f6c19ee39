//! How much stack a call takes: see bindings/README.md.
mod common;
use common::*;
use crms::Replayed;
use std::thread::Builder;

/// Sums of long arrays, laid out, loaded, run, replayed and looked at, and their sheet.
fn long_sums() {
    let mut m = Fixture::of(16_384, 2, 16_000, &[GLOBAL, 8, GLOBAL, 8, SUM, ASSIGN_NO_RESULT, GLOBAL, 9, GO, 0, 8]);
    m.load(8, &[5_000], &[21; 5_000]).unwrap();
    assert_eq!(m.run(50), done(50));
    assert_eq!(m.look(9), array(&[5_000], &[42; 5_000]));
    let file = [load_record(8, &[5_000], &[20; 5_000]), run_record(5)].concat();
    assert_eq!(m.replay(&file).0, Replayed::Done);
    assert_eq!(m.look(9), array(&[5_000], &[40; 5_000]));
    assert_eq!(m.sheet().unwrap().arrays, 2 * 5_003);
}

#[test]
fn a_thread_of_256_kib_is_enough() {
    Builder::new().stack_size(256 * 1024).spawn(long_sums).unwrap().join().unwrap();
}
