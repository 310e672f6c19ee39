//! The whole engine beside a plain Rust machine on the same bytes with the same tests, and beside A+ where bench/run has its
//! times: nanoseconds for an instruction, for an element, for a word of acceptance, for a sheet, for a load out of a file
//! of imports.
#[path = "../plain/acceptance.rs"]
mod acceptance;
#[path = "../plain/arrays.rs"]
mod arrays;
mod assemble;
#[path = "../plain/control.rs"]
mod control;
#[path = "../plain/decode.rs"]
mod decode;
#[path = "../plain/elements.rs"]
mod elements;
mod engine;
mod files;
#[path = "../plain/imports.rs"]
mod imports;
#[path = "../acceptance/judges.rs"]
mod judges;
mod loops;
#[path = "../plain/machine.rs"]
mod machine;
#[path = "../common/random.rs"]
mod random;
mod rows;
#[path = "../acceptance/segments.rs"]
mod segments;
#[path = "../plain/sheet.rs"]
mod sheet;
#[path = "../plain/storage.rs"]
mod storage;
mod table;
#[path = "../common/windows.rs"]
mod windows;

use random::Random;
use table::Table;

/// The whole table is gone through so often, with so many windows of each row, so that a busy time spoils no row.
const ROUNDS: usize = 16;
const TURNS: usize = 25;

fn main() {
    let aplus = std::env::args().nth(1).and_then(|path| std::fs::read_to_string(path).ok()).unwrap_or_default();
    let random = &mut Random(0x9E37_79B9_7F4A_7C15);
    let plain = ["proved", "plain Rust"];
    let mut sections = [
        ("ns for an instruction", plain, rows::instructions()),
        ("ns for an element", plain, rows::elements(random)),
        ("ns for a word of acceptance", plain, rows::words(random)),
        ("ns for a call", plain, rows::calls(random)),
        ("ns for a sheet", plain, rows::sheets(random)),
        ("ns for a replayed load", plain, rows::loads(random)),
        ("ns for a replayed instruction", ["replay", "run"], rows::replays()),
        ("ns for an instruction under a lent table", ["lent", "manual"], rows::lent()),
    ];
    for _ in 0..ROUNDS {
        sections.iter_mut().flat_map(|(_, _, rows)| rows).for_each(|row| row.take(TURNS));
    }
    let table = Table::new(&aplus);
    for (title, columns, rows) in sections {
        table.section(title, columns);
        rows.into_iter().for_each(|row| table.row(row));
    }
}
