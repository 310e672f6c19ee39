//! The acceptance of a data segment beside a plain Rust version of the same tests: time for a word on whole segments, and
//! the same answer on segments damaged in one or two words.
#[path = "../plain/acceptance.rs"]
mod acceptance;
mod judges;
#[path = "../common/paint.rs"]
mod paint;
#[path = "../common/random.rs"]
mod random;
mod segments;
#[path = "../common/windows.rs"]
mod windows;

use judges::{proved, turn};
use random::Random;
use segments::{procedures, segment};
use std::hint::black_box;
use windows::Windows;

fn main() {
    let p = procedures();
    let mut random = Random(0x9E37_79B9_7F4A_7C15);
    println!(" words  arrays  frames   proved: best, middle   plain Rust   stack");
    for (words, count, frames) in [(1_024, 120, 6), (4_096, 480, 20), (16_384, 2_000, 60), (16_384, 100, 60), (16_384, 1_000, 600)] {
        let s = segment(words, count, frames, &mut random);
        let mut windows = Windows::new();
        (0..600).for_each(|_| windows.take(turn(&s, &p)));
        let [ours, plain] = windows.times();
        let stack = paint::stack_use(|| assert_eq!(proved(black_box(&s), black_box(&p), black_box(&p)), 0));
        println!("{words:6}  {count:6}  {frames:6}   {:11.2}    {:5.2}   {:5.2} {:5.2}   {stack}", ours.best, ours.middle, plain.best, plain.middle);
    }
    let good = segment(1_024, 100, 12, &mut random);
    let mut seen = [0usize; 19];
    for _ in 0..400_000 {
        let mut s = good.clone();
        for _ in 0..1 + random.below(2) {
            let i = random.below(s.len());
            s[i] = match random.below(4) {
                0 => s[random.below(s.len())],
                1 => s[i] ^ 1 << random.below(32),
                2 => s[i].wrapping_add(1),
                _ => (random.below(1 << 16) << 16 | random.below(1 << 16)) as u32,
            };
        }
        let (ours, plain) = (proved(&s, &p, &p), acceptance::judge(&s, &p, &p));
        assert_eq!(ours, plain);
        seen[ours as usize] += 1;
    }
    println!("400,000 damaged segments judged alike: {} accepted still, by test 13 to 18: {:?}", seen[0], &seen[13..]);
}
