//! Array storage beside a plain Rust version of the same allocator, on workloads that fragment it. Both run the same list
//! of places and drops on segments of 16,384 words, and must leave the same words.
#[path = "../plain/storage.rs"]
mod plain;

use std::hint::black_box;
use std::time::Instant;

extern "C" {
    fn storage_request(seg: *mut u32, len: usize, size: usize) -> u32;
    fn storage_place(seg: *mut u32, len: usize, shape: *const u32, rank: usize, elements: *const u32, count: usize) -> u32;
    fn storage_drop(seg: *mut u32, len: usize, word: u32);
}

const WORDS: usize = 16_384;
const ARRAY: u32 = 0x0200_0000;

/// BLOCKPTR 8 and SBASE at the end: one free block and the dummy.
fn fresh() -> Vec<u32> {
    let mut seg = vec![0; WORDS];
    let (first, dummy) = (8u32, WORDS as u32 - 3);
    seg[0] = (WORDS as u32) << 16;
    seg[1] = first;
    seg[4] = first;
    seg[8] = 0x8000_0000 | (dummy - first);
    seg[9] = dummy << 16 | dummy;
    seg[WORDS - 4] = dummy - first;
    seg[WORDS - 3] = 0x4000_0000;
    seg[WORDS - 2] = first << 16 | first;
    seg
}

/// The same list of steps for both: a handle, and the elements of the array that it is to hold; a handle in use is dropped.
struct Steps(u64);

impl Steps {
    fn below(&mut self, n: u64) -> usize {
        self.0 ^= self.0 << 13;
        self.0 ^= self.0 >> 7;
        self.0 ^= self.0 << 17;
        (self.0 >> 11) as usize % n as usize
    }
}

/// Places and drops at random handles; the answer sums the addresses.
fn churn(
    seg: &mut [u32],
    steps: usize,
    handles: usize,
    most: u64,
    mut place: impl FnMut(&mut [u32], &[u32], &[u32]) -> u32,
    mut drop: impl FnMut(&mut [u32], u32),
) -> u64 {
    let elements: Vec<u32> = (0..most as u32).collect();
    let mut held = vec![0u32; handles];
    let (mut rng, mut sum) = (Steps(88_172_645_463_325_252), 0);
    for _ in 0..steps {
        let h = rng.below(handles as u64);
        if held[h] != 0 {
            drop(seg, held[h]);
            held[h] = 0;
        } else {
            let n = rng.below(most);
            let at = place(seg, &[n as u32], &elements[..n]);
            held[h] = if at == 0 { 0 } else { ARRAY | at };
            sum += at as u64;
        }
    }
    sum
}

/// A request that finds no block: one pass of a ring of every second block.
fn search(seg: &mut [u32], rounds: usize, mut request: impl FnMut(&mut [u32], usize) -> u32) -> u64 {
    (0..rounds).map(|_| request(seg, black_box(5000)) as u64).sum()
}

fn proved_place(seg: &mut [u32], shape: &[u32], elements: &[u32]) -> u32 {
    unsafe { storage_place(seg.as_mut_ptr(), seg.len(), shape.as_ptr(), shape.len(), elements.as_ptr(), elements.len()) }
}

fn proved_drop(seg: &mut [u32], word: u32) {
    unsafe { storage_drop(seg.as_mut_ptr(), seg.len(), word) }
}

fn proved_request(seg: &mut [u32], size: usize) -> u32 {
    unsafe { storage_request(seg.as_mut_ptr(), seg.len(), size) }
}

fn plain_place(seg: &mut [u32], shape: &[u32], elements: &[u32]) -> u32 {
    plain::place(seg, shape, elements).unwrap_or(0) as u32
}

fn plain_request(seg: &mut [u32], size: usize) -> u32 {
    plain::request(seg, size).unwrap_or(0) as u32
}

/// One run on a fresh copy: its time, and the words left.
fn once(start: &[u32], work: &mut impl FnMut(&mut [u32]) -> u64) -> (f64, Vec<u32>) {
    let mut seg = start.to_vec();
    let began = Instant::now();
    black_box(work(&mut seg));
    (began.elapsed().as_nanos() as f64, seg)
}

/// The least time of a step for each of the two, by turns, so that both meet the same machine.
fn compare(
    name: &str,
    steps: usize,
    start: &[u32],
    mut proved: impl FnMut(&mut [u32]) -> u64,
    mut plain: impl FnMut(&mut [u32]) -> u64,
) {
    let mut best = [f64::MAX; 2];
    for _ in 0..200 {
        let (a, b) = (once(start, &mut proved), once(start, &mut plain));
        assert!(a.1 == b.1, "{name}: the words differ");
        best = [best[0].min(a.0), best[1].min(b.0)];
    }
    let [proved, plain] = best.map(|t| t / steps as f64);
    println!("{name:44} {proved:8.2} ns  plain {plain:8.2} ns  ratio {:.2}", proved / plain);
}

fn main() {
    const STEPS: usize = 20_000;
    for (name, handles, most) in [
        ("place and drop, 400 arrays of 0 to 59", 400, 60),
        ("place and drop, 2,000 arrays of 0 to 7", 2_000, 8),
        ("place and drop, 40 arrays of 0 to 699", 40, 700),
    ] {
        compare(
            name,
            STEPS,
            &fresh(),
            |s| churn(s, STEPS, handles, most, proved_place, proved_drop),
            |s| churn(s, STEPS, handles, most, plain_place, plain::drop_word),
        );
    }
    let mut holes = fresh();
    let words: Vec<u32> = (0..2_000).map(|_| ARRAY | plain_place(&mut holes, &[4], &[0; 4])).collect();
    words.iter().step_by(2).for_each(|&w| plain::drop_word(&mut holes, w));
    plain::request(&mut holes, 2_000);
    compare(
        "request that finds none, for each block",
        100 * 1_001,
        &holes,
        |s| search(s, 100, proved_request),
        |s| search(s, 100, plain_request),
    );
}
