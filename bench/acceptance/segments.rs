//! Whole data segments to be judged.
use crate::random::Random;

/// Function 1: no arguments, 4 locals; function 2: 2 arguments, 3 locals, a result.
pub fn procedures() -> Vec<u8> {
    let words: [u32; 9] = [0x0000_0003, 0x0003_0003, 0x0006_0003, 0, 0x0004_0001, 0, 0x2002_0000, 0x0003_0001, 0];
    words.iter().flat_map(|w| w.to_be_bytes()).collect()
}

/// A whole segment with so many arrays of a few elements of one kind, a free block after each eighth, every array pointed to by a global
/// and some by stack cells too, and a chain of frames.
pub fn segment(words: usize, count: usize, frames: usize, random: &mut Random) -> Vec<u32> {
    let mut s = vec![0u32; words];
    let blockptr = 8 + count;
    let mut a = blockptr;
    let (mut frees, mut starts, mut before) = (Vec::new(), Vec::new(), false);
    for i in 0..count {
        if i % 8 == 7 {
            (s[a], s[a + 2]) = (0x8000_0003, 3);
            frees.push(a);
            a += 3;
            before = true;
        }
        let elements = 1 + i % 5;
        let slop = i % 3 % 2;
        s[a] = (before as u32) << 30 | (slop as u32) << 16 | (3 + elements) as u32;
        s[a + 1] = 1 << 16 | 1;
        s[a + 2] = elements as u32;
        let element = [7, 0x6000_0000, 0x0100_0041, 0x8000_0009][random.below(4)];
        s[a + 3..a + 3 + elements].fill(element);
        s[8 + i] = 0x0200_0000 | a as u32;
        starts.push(a);
        a += 3 + elements + slop;
        before = false;
    }
    let dummy = a;
    let sbase = dummy + 3;
    let mut at = dummy;
    for &f in frees.iter().chain([&dummy]) {
        s[at + 1] |= (f as u32) << 16;
        s[f + 1] |= at as u32;
        at = f;
    }
    let mut top = 4;
    let (mut base, mut last) = (4, 4);
    for i in 0..4 {
        s[sbase + i] = 0x0400_0000;
    }
    for k in 0..frames {
        if k > 0 {
            s[sbase + top] = 0x0300_0000 | (last as u32 - 1);
            s[sbase + top + 1] = 0x0301_0000 | (8 + k as u32 % count as u32);
            for i in 2..5 {
                let target = starts[random.below(count)];
                s[sbase + top + i] = 0x0200_0000 | target as u32;
                s[target + 1] += 1 << 16;
            }
            base = top + 5;
        }
        s[sbase + base] = last as u32;
        s[sbase + base + 1] = if k > 0 { 0x0802_0008 } else { 0x0001_0008 };
        last = base;
        top = base + 2;
    }
    while sbase + top < words {
        s[sbase + top] = 5;
        top += 1;
    }
    s[0] = (sbase as u32) << 16 | (top as u32 - 1);
    s[1] = (base as u32) << 16 | frees.last().copied().unwrap_or(dummy) as u32;
    s[4] = blockptr as u32;
    s
}
