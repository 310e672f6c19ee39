//! What is timed: a row has a window of the proved code and one of what it is held against, taken by turns.
use crate::assemble::{EQUAL, LESS, PRODUCT, QUOTIENT, SUM};
use crate::engine::{plain, Engine};
use crate::loops::{self, Loop, REVERSED};
use crate::machine::{is_table, MANUAL};
use crate::random::Random;
use crate::windows::{nanoseconds, Times, Windows};
use crate::{acceptance, files, imports, judges, segments, sheet};
use std::hint::black_box;

/// About so many nanoseconds in a window.
const WINDOW: f64 = 0.5e6;

pub struct Row {
    pub name: String,
    pub n: Option<usize>,
    pub target: Option<f64>,
    /// The proved code, what it is held against, and what is to be taken off from each.
    turn: Box<dyn FnMut() -> [f64; 4]>,
    windows: Windows<4>,
}

impl Row {
    fn new(name: &str, n: Option<usize>, target: Option<f64>, turn: impl FnMut() -> [f64; 4] + 'static) -> Self {
        Row { name: name.to_string(), n, target, turn: Box::new(turn), windows: Windows::new() }
    }

    /// So many windows of each.
    pub fn take(&mut self, turns: usize) {
        (0..turns).for_each(|_| self.windows.take((self.turn)()));
    }

    pub fn times(self) -> [Times; 2] {
        let [proved, other, off, off_other] = self.windows.times();
        [(proved, off), (other, off_other)].map(|(all, off)| Times { best: all.best - off.best, middle: all.middle - off.best })
    }
}

/// How many instructions take about a window.
fn budget(mut run: impl FnMut(u32)) -> u32 {
    run(2_000);
    (WINDOW / nanoseconds(|| run(2_000)) * 2_000.0).clamp(100.0, 4e9) as u32
}

/// Windows of an endless loop whose instructions count as so many units each. A run tests its segments first: what a run of
/// no instructions takes is taken off.
fn turns(l: Loop, units: f64) -> impl FnMut() -> [f64; 4] {
    let l: &'static Loop = Box::leak(Box::new(l));
    let (mut ours, mut theirs) = (Engine::new(l), plain(l));
    for steps in [3, 5_000, 1, 1, 1] {
        ours.run(steps);
        assert_eq!(theirs.run(steps), (steps, None));
        ours.must_agree(&theirs);
    }
    let budgets = [budget(|n| ours.run(n)), budget(|n| assert_eq!(theirs.run(n).1, None))];
    let shares = budgets.map(|n| n as f64 * units);
    move || {
        [
            nanoseconds(|| ours.run(budgets[0])) / shares[0],
            nanoseconds(|| assert_eq!(theirs.run(budgets[1]).1, None)) / shares[1],
            nanoseconds(|| ours.run(0)) / shares[0],
            0.0,
        ]
    }
}

pub fn instructions() -> Vec<Row> {
    let fragmenting = format!("a fragmenting loop, {} free blocks", free_blocks(&loops::fragmenting()));
    let rows: [(&str, Loop, Option<f64>); 8] = [
        ("a scalar loop: a local counts", loops::counting(), Some(8.0)),
        ("the same under a lent table of operators", loops::counting_under(Some(REVERSED)), Some(8.0)),
        ("a scalar loop: a global counts", loops::counting_global(), Some(8.0)),
        ("a scalar loop: constants added and dropped", loops::constants(), Some(8.0)),
        ("Ackermann, with its calls and returns", loops::ackermann(), Some(12.0)),
        ("an empty function called and left", loops::empty_calls(), None),
        ("indexed assignment", loops::indexed(), None),
        (&fragmenting, loops::fragmenting(), None),
    ];
    rows.map(|(name, l, target)| Row::new(name, None, target, turns(l, 1.0))).into()
}

/// After a million instructions.
fn free_blocks(l: &Loop) -> usize {
    let mut ours = Engine::new(l);
    ours.run(1_000_000);
    ours.free_blocks()
}

/// Five instructions make a turn: two loads, the operator, a drop and a jump. They are shared out over the result's elements,
/// and a target is for many of these.
fn element(name: &str, n: usize, target: Option<f64>, l: Loop) -> Row {
    Row::new(name, Some(n), target.filter(|_| n >= 1_000), turns(l, n as f64 / 5.0))
}

pub fn elements(random: &mut Random) -> Vec<Row> {
    let operators: [(&str, u8, fn(&mut Random) -> u32, Option<f64>); 7] = [
        ("integer SUM", SUM, Random::integer, Some(1.0)),
        ("integer LESS", LESS, Random::integer, Some(1.0)),
        ("integer EQUAL", EQUAL, Random::integer, Some(1.0)),
        ("float SUM", SUM, Random::float, Some(12.0)),
        ("float PRODUCT", PRODUCT, Random::float, Some(6.0)),
        ("float QUOTIENT", QUOTIENT, Random::float, Some(6.0)),
        ("float LESS", LESS, Random::float, Some(1.0)),
    ];
    let mut rows = Vec::new();
    for (name, operator, word, target) in operators {
        // two operands and a result of 10,000 elements exceed a segment
        for n in [1, 10, 100, 1_000, 5_400] {
            let vectors = [0, 1].map(|_| (0..n).map(|_| word(random)).collect());
            rows.push(element(name, n, target, loops::dyadic(operator, vectors)));
        }
    }
    let sizes = [1, 10, 100, 1_000, 10_000];
    rows.extend(sizes.map(|n| element("CATENATE", n, None, loops::catenate(n, random))));
    rows.extend([10, 100, 1_000, 10_000].map(|n| element("CATENATE of tables", n, None, loops::catenate_tables(n / 10, random))));
    rows.extend(sizes.map(|n| element("RESHAPE", n, None, loops::reshape(n, random))));
    rows
}

pub fn words(random: &mut Random) -> Vec<Row> {
    let sizes = [(1_024, 120, 6), (2_048, 240, 10), (4_096, 480, 20), (8_192, 1_000, 40), (16_384, 2_000, 60)];
    let row = |(words, arrays, frames)| {
        let (s, p) = (segments::segment(words, arrays, frames, random), segments::procedures());
        Row::new(&format!("{arrays} arrays, {frames} frames"), Some(words), Some(4.0), move || {
            let [proved, plain] = judges::turn(&s, &p);
            [proved, plain, 0.0, 0.0]
        })
    };
    sizes.map(row).into()
}

/// What every run begins with: the tests, of the table of operators too, and a scratch that is cleared. Plain Rust has the tests
/// alone.
pub fn calls(random: &mut Random) -> Vec<Row> {
    let row = |(words, arrays, frames)| {
        let p: &'static [u8] = segments::procedures().leak();
        let s = segments::segment(words, arrays, frames, random);
        let (mut ours, calls) = (Engine { data: s.clone(), procedures: [p, p], table: None }, 65_536 / words);
        Row::new("a run of no instructions", Some(words), None, move || {
            let proved = nanoseconds(|| (0..calls).for_each(|_| ours.run(0)));
            let plain = nanoseconds(|| (0..calls).for_each(|_| assert!(acceptance::judge(&s, p, p) == 0 && is_table(&black_box(MANUAL)))));
            [proved / calls as f64, plain / calls as f64, 0.0, 0.0]
        })
    };
    [(1_024, 120, 6), (16_384, 2_000, 60)].map(row).into()
}

/// The tests, and a walk over the blocks that adds them up.
pub fn sheets(random: &mut Random) -> Vec<Row> {
    let row = |(words, arrays, frames)| {
        let p: &'static [u8] = segments::procedures().leak();
        let s = segments::segment(words, arrays, frames, random);
        let (ours, calls) = (Engine { data: s.clone(), procedures: [p, p], table: None }, 65_536 / words);
        let counts = ours.sheet();
        assert_eq!(sheet::sheet(&s, p, p), Ok(counts));
        Row::new("a sheet", Some(words), None, move || {
            let proved = nanoseconds(|| (0..calls).for_each(|_| assert_eq!(ours.sheet(), counts)));
            let plain = nanoseconds(|| (0..calls).for_each(|_| assert_eq!(sheet::sheet(&s, p, p), Ok(counts))));
            [proved / calls as f64, plain / calls as f64, 0.0, 0.0]
        })
    };
    [(1_024, 120, 6), (16_384, 2_000, 60)].map(row).into()
}

/// A file of loads of ten elements each, replayed on two segments that start alike and must stay so.
pub fn loads(random: &mut Random) -> Vec<Row> {
    let row = |(name, words, count)| {
        let l: &'static Loop = Box::leak(Box::new(loops::imported(words)));
        let file = files::loads(count, l.globals, random);
        let mut ours = Engine::new(l);
        let (mut theirs, procedures) = (ours.data.clone(), ours.procedures);
        Row::new(name, Some(words), None, move || {
            let proved = nanoseconds(|| assert_eq!(ours.replay(&file), (0, [0; 8])));
            let plain = nanoseconds(|| assert_eq!(imports::replay(&mut theirs, procedures, &file, imports::no_run), (0, [0; 8])));
            assert!(ours.data == theirs, "the words differ");
            [proved / count as f64, plain / count as f64, 0.0, 0.0]
        })
    };
    [("1,000 loads of 10 elements", 1_024, 1_000), ("60 loads of 10 elements", 16_384, 60)].map(row).into()
}

/// Two ways of the proved engine to run an endless loop so many steps. What a run of no instructions takes is taken off from both.
fn beside(mut ours: impl FnMut(u32) + 'static, mut theirs: impl FnMut(u32) + 'static) -> impl FnMut() -> [f64; 4] {
    let n = budget(&mut theirs);
    move || {
        [nanoseconds(|| ours(n)), nanoseconds(|| theirs(n)), nanoseconds(|| ours(0)), nanoseconds(|| theirs(0))].map(|time| time / n as f64)
    }
}

/// A loop in the numbers of a lent table, beside the same loop in the manual's.
pub fn lent() -> Vec<Row> {
    let [l, manual]: [&'static Loop; 2] = [Some(REVERSED), None].map(|table| &*Box::leak(Box::new(loops::counting_under(table))));
    let (mut ours, mut theirs) = (Engine::new(l), Engine::new(manual));
    for steps in [0, 3, 5_000, 1] {
        ours.run(steps);
        theirs.run(steps);
        assert!(ours.data == theirs.data, "the words differ");
    }
    vec![Row::new("a scalar loop: a local counts", None, None, beside(move |n| ours.run(n), move |n| theirs.run(n)))]
}

/// Endless loops by a file of one run, beside the same run; the target is for the ratio.
pub fn replays() -> Vec<Row> {
    let row = |(name, l)| {
        let l: &'static Loop = Box::leak(Box::new(l));
        let (mut ours, mut theirs) = (Engine::new(l), Engine::new(l));
        for steps in [0, 3, 5_000, 1] {
            replay_run(&mut ours, steps);
            theirs.run(steps);
            assert!(ours.data == theirs.data, "the words differ");
        }
        Row::new(name, None, Some(1.15), beside(move |n| replay_run(&mut ours, n), move |n| theirs.run(n)))
    };
    let rows = [("a scalar loop: a local counts", loops::counting()), ("Ackermann, with its calls and returns", loops::ackermann())];
    rows.map(row).into()
}

/// A file of one run, each of whose instructions is counted.
fn replay_run(engine: &mut Engine, steps: u32) {
    let (answer, tally) = engine.replay(&files::run(steps));
    assert_eq!((answer, tally.iter().sum()), (0, steps));
}
