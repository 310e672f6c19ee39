//! Nanoseconds for an element of the loops of the crate `elements`, beside plain Rust that makes the same checks and must
//! give the same words.
#[path = "../plain/elements.rs"]
mod plain;
#[path = "../common/random.rs"]
mod random;
#[path = "../common/windows.rs"]
mod windows;

use plain::{DIFFERENCE, EQUAL, LESS, PRODUCT, QUOTIENT, SUM};
use random::Random;
use std::hint::black_box;
use windows::{nanoseconds, Windows};

extern "C" {
    fn elements_dyadic(op: u32, a: *const u32, m: usize, b: *const u32, n: usize, out: *mut u32, room: usize) -> u32;
    fn elements_copy(from: *const u32, n: usize, to: *mut u32, room: usize);
    fn elements_cycle(from: *const u32, n: usize, to: *mut u32, room: usize);
}

fn proved_dyadic(op: u32, a: &[u32], b: &[u32], out: &mut [u32]) -> u32 {
    unsafe { elements_dyadic(op, a.as_ptr(), a.len(), b.as_ptr(), b.len(), out.as_mut_ptr(), out.len()) }
}

fn proved_copy(from: &[u32], to: &mut [u32]) {
    unsafe { elements_copy(from.as_ptr(), from.len(), to.as_mut_ptr(), to.len()) }
}

fn proved_cycle(from: &[u32], to: &mut [u32]) {
    unsafe { elements_cycle(from.as_ptr(), from.len(), to.as_mut_ptr(), to.len()) }
}

/// The best of many short windows of each, by turns, in nanoseconds for an element.
fn row(name: &str, n: usize, mut proved: impl FnMut(), mut plain: impl FnMut()) {
    let turns = (20_000 / n).max(2);
    let share = (turns * n) as f64;
    let mut windows = Windows::new();
    for _ in 0..200 {
        windows.take([nanoseconds(|| (0..turns).for_each(|_| proved())) / share, nanoseconds(|| (0..turns).for_each(|_| plain())) / share]);
    }
    let [proved, plain] = windows.times();
    println!("{name:<22} {n:>6} {:>9.3} {:>9.3} {:>6.2}", proved.best, plain.best, proved.best / plain.best);
}

fn main() {
    let mut random = Random(1);
    println!("{:<22} {:>6} {:>9} {:>9} {:>6}", "ns an element", "n", "proved", "plain", "ratio");
    for n in [1, 10, 100, 1_000, 10_000] {
        let integers: [Vec<u32>; 2] = [0, 1].map(|_| (0..n).map(|_| random.integer()).collect());
        let floats: [Vec<u32>; 2] = [0, 1].map(|_| (0..n).map(|_| random.float()).collect());
        let mixed = [0, 1].map(|k| (0..n).map(|i| if (i + k) % 3 == 0 { integers[k][i] } else { floats[k][i] }).collect::<Vec<u32>>());
        let mut out = vec![0; n];
        let mut other = vec![0; n];
        let cases = [
            ("integer SUM", SUM, &integers, n),
            ("integer SUM, scalar", SUM, &integers, 1),
            ("integer DIFFERENCE", DIFFERENCE, &integers, n),
            ("integer LESS", LESS, &integers, n),
            ("integer EQUAL", EQUAL, &integers, n),
            ("integer PRODUCT", PRODUCT, &integers, n),
            ("float SUM", SUM, &floats, n),
            ("float PRODUCT", PRODUCT, &floats, n),
            ("float QUOTIENT", QUOTIENT, &floats, n),
            ("float LESS", LESS, &floats, n),
            ("float EQUAL", EQUAL, &floats, n),
            ("mixed LESS", LESS, &mixed, n),
        ];
        for (name, op, [a, b], m) in cases {
            let b = &b[..m];
            let said = proved_dyadic(op, a, b, &mut out);
            assert_eq!(said, plain::dyadic(op, a, b, &mut other), "{name}");
            assert!(said != 0 || out == other, "{name}: the words differ");
            row(
                name,
                n,
                || _ = black_box(proved_dyadic(op, black_box(a), black_box(b), black_box(&mut out))),
                || _ = black_box(plain::dyadic(op, black_box(a), black_box(b), black_box(&mut other))),
            );
        }
        let [a, b] = &floats;
        proved_dyadic(LESS, a, b, &mut out);
        assert!(plain::less_by_words(a, b, &mut other) && out == other);
        row(
            "float LESS, by words",
            n,
            || _ = black_box(proved_dyadic(LESS, black_box(a), black_box(b), black_box(&mut out))),
            || _ = black_box(plain::less_by_words(black_box(a), black_box(b), black_box(&mut other))),
        );
        let from = &integers[0];
        row(
            "copy",
            n,
            || proved_copy(black_box(from), black_box(&mut out)),
            || plain::copy(black_box(from), black_box(&mut other)),
        );
        for k in [1, 3, 100] {
            let from = &from[..k.min(n)];
            proved_cycle(from, &mut out);
            plain::cycle(from, &mut other);
            assert_eq!(out, other);
            row(
                &format!("cycle of {k}"),
                n,
                || proved_cycle(black_box(from), black_box(&mut out)),
                || plain::cycle(black_box(from), black_box(&mut other)),
            );
        }
    }
}
