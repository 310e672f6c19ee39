//! Every refusal, each by an easy way to it; a refused call changes nothing.
mod common;
use common::*;
use crms::{lay_out, look, run, Layout, ProcedureSegment, Procedures, Refusal};

/// A fixture with a list in global 8.
fn listed() -> Fixture {
    let mut m = Fixture::new(&[NO_OPERATION]);
    m.load(8, &[3], &[10, 20, 30]).unwrap();
    m
}

/// What run, load and look answer after a word of the segment was changed.
fn changed(at: usize, word: u32) -> Refusal {
    let mut m = listed();
    m.data[at] = word;
    let before = m.data.clone();
    let refusal = m.run(1).unwrap_err();
    assert_eq!(m.load(9, &[], &[0]), Err(refusal));
    assert_eq!(m.look(8), Err(refusal));
    assert_eq!(m.data, before);
    refusal
}

fn lay_out_refused(words: usize, regular: &[u8], layout: Layout) -> Refusal {
    let mut data = vec![0x1234_5678; words];
    let refusal = lay_out(&mut data, Procedures::regular_only(regular), layout).unwrap_err();
    assert!(data.iter().all(|w| *w == 0x1234_5678));
    refusal
}

#[test]
fn data_length_is_10() {
    let regular = segment(&[(0, 0, 0, &[NO_OPERATION])]);
    for words in [0, 31, 16_385] {
        assert_eq!(lay_out_refused(words, &regular, layout(4, 8)), Refusal::DataLength);
        let mut data = vec![0; words];
        assert_eq!(run(&mut data, Procedures::regular_only(&regular), 0), Err(Refusal::DataLength));
        assert_eq!(look(&data, Procedures::regular_only(&regular), 8), Err(Refusal::DataLength));
    }
}

#[test]
fn procedure_length_is_11() {
    for bytes in [0, 3, 6, 32_772] {
        assert_eq!(lay_out_refused(64, &vec![0; bytes], layout(4, 24)), Refusal::ProcedureLength);
        let unused = Procedures { regular: Procedures::UNUSED, alternate: &vec![0; bytes] };
        assert_eq!(run(&mut [0; 64], unused, 0), Err(Refusal::ProcedureLength));
    }
}

#[test]
fn directory_and_header_are_12() {
    assert_eq!(lay_out_refused(64, &[0, 0, 0, 0], layout(4, 24)), Refusal::Procedure);
    // RESULT without a local
    assert_eq!(lay_out_refused(64, &segment(&[(0x20, 0, 0, &[])]), layout(4, 24)), Refusal::Procedure);
}

#[test]
fn state_words_are_13() {
    assert_eq!(changed(4, 7), Refusal::State);
    assert_eq!(changed(2, 0x10), Refusal::State);
    assert_eq!(changed(5, 1), Refusal::State);
}

#[test]
fn blocks_are_14() {
    assert_eq!(changed(12, 0x8000_0014), Refusal::Blocks);
}

#[test]
fn ring_and_rover_are_15() {
    let word1 = listed().data[1];
    assert_eq!(changed(1, word1 - 1), Refusal::Ring);
    assert_eq!(changed(13, 0x0021_0022), Refusal::Ring);
}

#[test]
fn frames_are_16() {
    let mut m = listed();
    let before = m.data.clone();
    let others = Procedures::regular_only(Procedures::UNUSED);
    assert_eq!(run(&mut m.data, others, 1), Err(Refusal::Frames));
    assert_eq!(look(&m.data, others, 8), Err(Refusal::Frames));
    assert_eq!(m.data, before);
}

#[test]
fn cells_are_17() {
    assert_eq!(changed(9, 0x0500_0000), Refusal::Cells);
    assert_eq!(changed(9, 0x8000_0000), Refusal::Cells);
    assert_eq!(changed(9, 0x0200_000C), Refusal::Cells);
}

#[test]
fn counts_are_18() {
    let shared = listed().data[8];
    assert_eq!(changed(9, shared), Refusal::Counts);
    assert_eq!(changed(8, 0), Refusal::Counts);
}

#[test]
fn parts_are_19() {
    let regular = segment(&[(0, 0, 0, &[NO_OPERATION])]);
    assert_eq!(lay_out_refused(64, &regular, layout(4, 5)), Refusal::Parts);
    assert_eq!(lay_out_refused(16_384, &regular, layout(4_089, 24)), Refusal::Parts);
    assert_eq!(lay_out_refused(64, &regular, layout(4, 51)), Refusal::Parts);
    assert_eq!(lay_out_refused(64, &regular, layout(u32::MAX, u32::MAX)), Refusal::Parts);
    assert_eq!(lay_out(&mut [0; 64], Procedures::regular_only(&regular), layout(4, 50)), Ok(()));
}

#[test]
fn function_is_20() {
    let regular = segment(&[(0, 1, 0, &[NO_OPERATION])]);
    let absent = Layout { function: 2, ..layout(4, 5) };
    let alternate = Layout { segment: ProcedureSegment::Alternate, ..layout(4, 24) };
    assert_eq!(lay_out_refused(64, &regular, layout(4, 24)), Refusal::Function);
    assert_eq!(lay_out_refused(64, &regular, absent), Refusal::Function);
    assert_eq!(lay_out_refused(64, &regular, alternate), Refusal::Function);
}

#[test]
fn no_global_is_21() {
    let mut m = listed();
    let before = m.data.clone();
    for address in [0, 7, 12, 63, 64, u32::MAX] {
        assert_eq!(m.look(address), Err(Refusal::NoGlobal));
        assert_eq!(m.load(address, &[], &[0]), Err(Refusal::NoGlobal));
    }
    assert_eq!(m.data, before);
}

#[test]
fn undefined_is_22() {
    let m = listed();
    for address in [9, 10, 11] {
        assert_eq!(m.look(address), Err(Refusal::Undefined));
    }
}

#[test]
fn no_value_is_23() {
    let mut m = listed();
    let before = m.data.clone();
    let ones = [1; 16];
    let values: [(&[u32], &[u32]); 9] = [
        (&ones, &[0]),
        (&[65_536, 0], &[]),
        (&[3], &[1, 2]),
        (&[2, 2], &[1, 2, 3, 4, 5]),
        (&[65_535, 65_535], &[1]),
        (&[], &[]),
        (&[], &[1, 2]),
        (&[1], &[0x0400_0000]),
        (&[], &[0x0200_0019]),
    ];
    for (lengths, elements) in values {
        assert_eq!(m.load(9, lengths, elements), Err(Refusal::NoValue));
    }
    assert_eq!(m.data, before);
    assert_eq!(m.load(9, &ones[1..], &[0]), Err(Refusal::Full));
    assert_eq!(m.load(9, &ones[6..], &[0]), Ok(()));
}

#[test]
fn full_is_24() {
    let mut m = listed();
    let before = m.data.clone();
    // 21 words less the list's 6
    assert_eq!(m.load(9, &[13], &[7; 13]), Err(Refusal::Full));
    assert_eq!(m.load(8, &[13], &[7; 13]), Err(Refusal::Full));
    assert_eq!(m.data, before);
    assert_eq!(m.load(9, &[12], &[7; 12]), Ok(()));
    // The old value keeps its block until the new one is placed; a scalar lets go of it.
    assert_eq!(m.load(9, &[12], &[8; 12]), Err(Refusal::Full));
    assert_eq!(m.load(9, &[], &[0]), Ok(()));
    assert_eq!(m.load(9, &[12], &[8; 12]), Ok(()));
}
