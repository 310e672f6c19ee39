//! The judge of a data segment, and a window of it beside its plain version.
use crate::acceptance;
use crate::windows::nanoseconds;
use std::hint::black_box;

extern "C" {
    fn acceptance_judge(seg: *const u32, len: usize, regular: *const u8, regular_len: usize, alternate: *const u8, alternate_len: usize) -> u8;
}

pub fn proved(seg: &[u32], regular: &[u8], alternate: &[u8]) -> u8 {
    unsafe { acceptance_judge(seg.as_ptr(), seg.len(), regular.as_ptr(), regular.len(), alternate.as_ptr(), alternate.len()) }
}

/// Nanoseconds for a word of an accepted segment, in windows of about a tenth of a millisecond.
pub fn turn(s: &[u32], p: &[u8]) -> [f64; 2] {
    let calls = 65_536 / s.len();
    [proved, acceptance::judge].map(|judge| {
        let all = || (0..calls).for_each(|_| assert_eq!(judge(black_box(s), black_box(p), black_box(p)), 0));
        nanoseconds(all) / (calls * s.len()) as f64
    })
}
