//! Tables of operators: the same answers under two numberings, and tables that are refused.
mod common;
use common::*;
use crms::Operator::{self, *};
use crms::{look, Procedures, Refusal, Replayed, Tally};

/// A compiler that numbers the operators by their names, from A to Z.
const BY_NAME: [Operator; 16] = [
    Ceiling,
    Convert,
    Difference,
    Equal,
    Floor,
    Identity,
    Less,
    LogicalProduct,
    LogicalSum,
    Magnitude,
    Negative,
    Not,
    Product,
    Quotient,
    Sum,
    TestNumber,
];

/// The first byte that a compiler with this numbering writes for an operator.
fn byte(numbering: [Operator; 16], operator: Operator) -> u8 {
    0x60 + numbering.iter().position(|o| *o == operator).unwrap() as u8
}

/// What shelves are short of: global 8 less global 9, where that is not below 0, into global 10. A list in each.
fn shortfall(numbering: [Operator; 16]) -> Fixture {
    let [difference, less, not, product] = [Difference, Less, Not, Product].map(|o| byte(numbering, o));
    let gap = [GLOBAL, 9, GLOBAL, 8, difference, ASSIGN_NO_RESULT, GLOBAL, 10];
    let short = [CONST, 0, GLOBAL, 10, less, not, GLOBAL, 10, product, ASSIGN_NO_RESULT, GLOBAL, 10, RETURN];
    let mut m = Fixture::of(96, 4, 48, &[&gap[..], &short].concat());
    m.load(8, &[4], &[12, 8, 20, 6]).unwrap();
    m.load(9, &[4], &[5, 8, 2, 9]).unwrap();
    m
}

const STEPS: u32 = 11;

#[test]
fn each_numbering_gives_the_same_words_under_its_table() {
    let mut manual = shortfall(Operator::ALL);
    let mut chain = shortfall(BY_NAME);
    assert_ne!(manual.regular, chain.regular);
    assert_eq!(manual.run(STEPS), done(STEPS));
    assert_eq!(manual.look(10), array(&[4], &[7, 0, 18, 0]));
    assert_eq!(chain.run_with(&Operator::table(BY_NAME), STEPS), done(STEPS));
    assert_eq!(chain.data, manual.data);
}

#[test]
fn no_table_is_the_manuals() {
    let mut lent = shortfall(Operator::ALL);
    let mut none = lent.clone();
    assert_eq!(lent.run_with(&Operator::table(Operator::ALL), 100), none.run(100));
    assert_eq!(lent.data, none.data);
}

#[test]
fn under_another_table_the_code_means_something_else() {
    // FLOOR, TEST_NUMBER, and then QUOTIENT by 0.
    let mut chain = shortfall(BY_NAME);
    assert_eq!(chain.run(STEPS), trapped(7, 8, 4));
    assert_eq!(chain.look(10), array(&[4], &[12, 8, 20, 6]));
}

/// Each suboperation on two numbers, the second below the first, under the tables that turn the manual's by so many places.
#[test]
fn a_suboperation_is_the_operator_that_is_named() {
    let one = |code: u8, table: &[u8]| {
        let mut m = Fixture::new(&[CONST, 1, CONST, 0, code, RETURN]);
        (m.run_with(table, 3), m.data)
    };
    let manual = Operator::table(Operator::ALL);
    for turn in 0..16 {
        let mut operators = Operator::ALL;
        operators.rotate_left(turn);
        let table = Operator::table(operators);
        for operator in Operator::ALL {
            let here = one(byte(operators, operator), &table);
            assert_eq!(here, one(byte(Operator::ALL, operator), &manual), "{operator:?} by {turn}");
        }
        assert_eq!(one(0x70, &table).0, trapped(2, 3, 9));
        assert_eq!(one(0x7F, &table).0, trapped(2, 3, 9));
    }
}

#[test]
fn every_run_of_a_replay_is_under_the_table() {
    let list = |global, elements: &[u32]| load_record(global, &[4], elements);
    let file = [list(8, &[12, 8, 20, 6]), list(9, &[5, 8, 2, 9]), run_record(6), run_record(STEPS - 6)].concat();
    let counted = Tally { short_const: 1, gen_scalar: 4, mem_ref: 2, long_global: 4, ..Tally::default() };
    let mut manual = shortfall(Operator::ALL);
    let mut chain = shortfall(BY_NAME);
    assert_eq!(manual.replay(&file), (Replayed::Done, counted));
    assert_eq!(chain.replay_with(&Operator::table(BY_NAME), &file), (Replayed::Done, counted));
    assert_eq!(chain.data, manual.data);
    assert_eq!(chain.look(10), array(&[4], &[7, 0, 18, 0]));
}

/// No bytes, too few, too many; a byte above 15; a byte that is repeated.
fn wrong_tables() -> Vec<Vec<u8>> {
    let table = Operator::table(BY_NAME);
    let last = |byte: u8| [&table[..15], &[byte]].concat();
    vec![vec![], table[..15].to_vec(), [&table[..], &[6]].concat(), last(16), last(255), last(table[0]), vec![0; 16]]
}

#[test]
fn table_is_26() {
    for table in wrong_tables() {
        let mut m = shortfall(BY_NAME);
        let before = m.data.clone();
        assert_eq!(m.run_with(&table, STEPS), Err(Refusal::Table), "{table:?}");
        assert_eq!(m.run_with(&table, 0), Err(Refusal::Table), "{table:?}");
        assert_eq!(m.data, before);
        // The loads before the first run are done.
        let file = [load_record(11, &[], &[5]), run_record(STEPS)].concat();
        let refused = Replayed::Refused { place: 4, refusal: Refusal::Table };
        assert_eq!(m.replay_with(&table, &file), (refused, Tally::default()), "{table:?}");
        assert_eq!(m.look(11), Ok(crms::Value::Scalar(5)));
        assert_eq!(m.replay_with(&table, &[]).0, Replayed::Done);
    }
}

#[test]
fn test_26_stands_between_12_and_13() {
    let mut m = shortfall(BY_NAME);
    m.data[5] = 1;
    let wrong = Procedures { regular: &m.regular, alternate: &[0, 0, 0, 0] };
    assert_eq!(crms::run_with(&mut m.data, wrong, &[], 1), Err(Refusal::Procedure));
    assert_eq!(look(&m.data, Procedures::regular_only(&m.regular), 8), Err(Refusal::State));
    assert_eq!(m.run_with(&[], 1), Err(Refusal::Table));
    assert_eq!(m.run_with(&Operator::table(BY_NAME), 1), Err(Refusal::State));
}
