//! Files of imports: what a replay does, where it halts, and what it counts.
mod common;
use common::*;
use crms::{Refusal, Replayed, Tally, Trap, Value};

/// Global 8 and the sum of itself and 1 into global 9, for ever.
const RAISE: [u8; 11] = [GLOBAL, 8, CONST, 1, SUM, ASSIGN_NO_RESULT, GLOBAL, 9, GO, 0, 8];

/// What five instructions of it count.
const ROUND: Tally =
    Tally { short_local: 0, short_const: 1, gen_scalar: 1, mem_ref: 1, etc: 1, long_local: 0, long_global: 1, index: 0 };

fn refused(place: u32, refusal: Refusal) -> Replayed {
    Replayed::Refused { place, refusal }
}

#[test]
fn a_replay_is_its_loads_and_runs() {
    let file = [load_record(8, &[3], &[5, 300, 8_388_606]), run_record(7), load_record(8, &[], &[9]), run_record(8)].concat();
    let mut replayed = Fixture::new(&RAISE);
    let mut called = replayed.clone();
    assert_eq!(replayed.replay(&file).0, Replayed::Done);

    called.load(8, &[3], &[5, 300, 8_388_606]).unwrap();
    assert_eq!(called.run(7), done(7));
    called.load(8, &[], &[9]).unwrap();
    assert_eq!(called.run(8), done(8));
    assert_eq!(replayed.data, called.data);
    assert_eq!(called.look(9), Ok(Value::Scalar(10)));
}

#[test]
fn a_file_of_no_bytes_makes_no_test() {
    let mut m = Fixture::new(&RAISE);
    m.data.truncate(3);
    assert_eq!(m.replay(&[]), (Replayed::Done, Tally::default()));
    assert_eq!(m.replay(&run_record(0)), (refused(0, Refusal::DataLength), Tally::default()));
}

#[test]
fn finished_instructions_are_counted_by_family() {
    let mut m = Fixture::new(&RAISE);
    let twice = [load_record(8, &[], &[5]), run_record(5), run_record(4)].concat();
    let nine = Tally { short_const: 2, gen_scalar: 2, mem_ref: 2, etc: 1, long_global: 2, ..ROUND };
    assert_eq!(m.replay(&twice), (Replayed::Done, nine));
    // The last instruction of the round, and the next round. Nothing is left of the counts before.
    assert_eq!(m.replay(&run_record(6)), (Replayed::Done, Tally { etc: 2, ..ROUND }));
}

#[test]
fn a_trap_halts_it() {
    let mut m = Fixture::new(&RAISE);
    let earlier = [load_record(8, &[], &[8_388_606]), run_record(5), load_record(8, &[], &[8_388_607])].concat();
    let place = earlier.len() as u32;
    let file = [earlier, run_record(5), run_record(1)].concat();
    let overflow = Trap { class: 8, number: 1 };
    // The trapped SUM is not counted, nor is what comes after it.
    let counted = Tally { short_const: 2, long_global: 2, ..ROUND };
    assert_eq!(m.replay(&file), (Replayed::Trapped { place, trap: overflow }, counted));
    assert_eq!(m.data[3], 0x0801);
    assert_eq!(m.look(9), Ok(Value::Scalar(8_388_607)));
    assert_eq!(m.run(1), trapped(0, 8, 1));
}

#[test]
fn an_instruction_before_a_step_trap_is_counted() {
    let mut m = Fixture::new(&RAISE);
    m.load(8, &[], &[5]).unwrap();
    m.data[2] |= 0x8; // STEP
    let step = Trap { class: 2, number: 1 };
    let one = Tally { long_global: 1, ..Tally::default() };
    assert_eq!(m.replay(&run_record(10)), (Replayed::Trapped { place: 0, trap: step }, one));
}

#[test]
fn a_refusal_halts_it() {
    let good = load_record(8, &[2], &[10, 20]);
    let place = good.len() as u32;
    for (record, refusal) in [
        (load_record(12, &[], &[0]), Refusal::NoGlobal),
        (load_record(0xFFF_FFFF, &[], &[0]), Refusal::NoGlobal),
        (load_record(9, &[65_536, 0], &[]), Refusal::NoValue),
        (load_record(9, &[14], &[7; 14]), Refusal::Full),
    ] {
        let mut m = Fixture::new(&RAISE);
        let answer = m.replay(&[&good[..], &record, &good].concat());
        assert_eq!(answer, (refused(place, refusal), Tally::default()));
        assert_eq!(m.look(8), array(&[2], &[10, 20]));
        assert_eq!(m.look(9), Err(Refusal::Undefined));
    }
}

#[test]
fn what_is_no_record_is_25() {
    let good = [load_record(8, &[], &[5]), run_record(4)].concat();
    let place = good.len() as u32;
    let elements = |n: u32| load_record(8, &[n], &vec![1; n as usize]);
    let records: [&[u8]; 13] = [
        &[2],                                             // no such kind
        &[0x80, 0],                                       // a needless group
        &[1, 0x80, 0x80, 0x80, 0x80, 1],                  // five groups
        &[1],                                             // nothing after the kind
        &[1, 0x80],                                       // a cut number
        &[0, 8],                                          // no rank
        &[0, 8, 2, 1],                                    // one length of two
        &[0, 8, 1, 3, 5, 6],                              // two elements of three
        &[0, 8, 0],                                       // a scalar without an element
        &load_record(8, &[1; 16], &[5]),                  // rank 16
        &load_record(8, &[1], &[8_388_608]),              // an element above the greatest integer
        &elements(16_385),                                // too many elements
        &load_record(8, &[0xFFF_FFFF, 0xFFF_FFFF], &[5]), // far too many
    ];
    for record in records {
        let mut m = Fixture::new(&RAISE);
        let answer = m.replay(&[&good[..], record].concat());
        let four = Tally { etc: 0, ..ROUND };
        assert_eq!(answer, (refused(place, Refusal::Malformed), four), "{record:?}");
        assert_eq!(m.look(9), Ok(Value::Scalar(6)), "the records before it stand");
    }
    // As many elements as a record may have are refused by the load itself.
    assert_eq!(Fixture::new(&RAISE).replay(&elements(16_384)).0, refused(0, Refusal::Full));
}

#[test]
fn no_record_comes_before_the_tests() {
    let mut m = Fixture::new(&RAISE);
    m.data.truncate(3);
    assert_eq!(m.replay(&[2]).0, refused(0, Refusal::Malformed));
}
