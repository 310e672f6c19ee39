//! Refusals and traps in words: those of docs/FAULTS.md, and the numbers of include/crms.h.
use crms::{Operator, Refusal, Trap};
use std::fs::read_to_string;
use std::path::Path;

fn of_repository(file: &str) -> String {
    let path = Path::new(env!("CARGO_MANIFEST_DIR")).join("../..").join(file);
    read_to_string(&path).unwrap_or_else(|e| panic!("{}: {e}", path.display()))
}

/// The rows of the tables of docs/FAULTS.md: the number, and what it means.
fn rows() -> Vec<(String, String)> {
    let page = of_repository("docs/FAULTS.md");
    let cells = page.lines().filter(|l| l.starts_with('|')).map(|l| l.split('|').map(str::trim).collect::<Vec<_>>());
    cells.map(|c| (c[1].to_string(), c[3].to_string())).collect()
}

/// "(8,1)" as a trap.
fn trap_in(cell: &str) -> Option<Trap> {
    let (class, number) = cell.strip_prefix('(')?.strip_suffix(')')?.split_once(',')?;
    Some(Trap { class: class.parse().ok()?, number: number.parse().ok()? })
}

#[test]
fn refusals_are_told_in_the_words_of_the_page() {
    let rows: Vec<_> = rows().into_iter().filter_map(|(n, means)| Some((Refusal::from_number(n.parse().ok()?)?, means))).collect();
    assert_eq!(rows.len(), Refusal::ALL.len());
    for (refusal, means) in rows {
        assert_eq!(refusal.to_string(), format!("{}: {means}", refusal.number()));
    }
}

#[test]
fn traps_are_told_in_the_words_of_the_page() {
    let rows: Vec<_> = rows().into_iter().filter_map(|(n, means)| Some((trap_in(&n)?, means))).collect();
    let known = (0..=u16::MAX).filter(|w| Trap::from_word(u32::from(*w)).meaning().is_some()).count();
    assert_eq!(rows.len(), known);
    for (trap, means) in rows {
        assert_eq!(trap.to_string(), format!("({},{}): {means}", trap.class, trap.number));
    }
}

#[test]
fn examples_of_texts() {
    assert_eq!(Refusal::Undefined.to_string(), "22: The global is undefined.");
    assert_eq!(Trap { class: 8, number: 4 }.to_string(), "(8,4): QUOTIENT with zero as its second operand.");
    assert_eq!(Trap { class: 0, number: 0 }.to_string(), "(0,0): The manual has no such trap.");
}

/// The numbers of an enum of include/crms.h.
fn enumerators(name: &str) -> Vec<u32> {
    let header = of_repository("include/crms.h");
    let (_, rest) = header.split_once(&format!("enum {name} {{")).expect("the enum is declared");
    let (body, _) = rest.split_once('}').expect("the enum ends");
    let values = body.lines().filter_map(|l| l.split_once(" = ")).map(|(_, r)| r.split([',', ' ']).next().unwrap());
    values.map(|v| v.strip_prefix("0x").map_or_else(|| v.parse(), |h| u32::from_str_radix(h, 16)).unwrap()).collect()
}

#[test]
fn the_header_has_the_same_numbers() {
    let refusals: Vec<u32> = Refusal::ALL.into_iter().map(Refusal::number).collect();
    assert_eq!(enumerators("crms_status"), [&[0, 2, 3], &refusals[..]].concat());
    let traps: Vec<u32> = (0..=0xFFFF).filter(|w| Trap::from_word(*w).meaning().is_some()).collect();
    assert_eq!(enumerators("crms_trap"), traps);
    let operators = Operator::table(Operator::ALL).map(u32::from);
    assert_eq!(enumerators("crms_operator"), [&operators[..], &[16]].concat());
}

#[test]
fn both_are_errors() {
    let errors: [Box<dyn std::error::Error>; 2] = [Box::new(Refusal::Full), Box::new(Trap::from_word(0x0102))];
    assert!(errors[0].to_string().starts_with("24: "));
    assert!(errors[1].to_string().starts_with("(1,2): "));
}
