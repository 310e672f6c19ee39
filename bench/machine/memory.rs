//! The memory of a run and of a replay: the stack that it writes and the heap that it asks for. Apart from the times, for a counting
//! allocator takes time itself. Of the modules that it shares with the times it needs a few functions.
#![allow(dead_code)]

#[path = "../plain/acceptance.rs"]
mod acceptance;
#[path = "../plain/arrays.rs"]
mod arrays;
mod assemble;
#[path = "../plain/control.rs"]
mod control;
#[path = "../plain/decode.rs"]
mod decode;
#[path = "../plain/elements.rs"]
mod elements;
mod engine;
mod files;
#[path = "../plain/imports.rs"]
mod imports;
mod loops;
#[path = "../plain/machine.rs"]
mod machine;
#[path = "../common/paint.rs"]
mod paint;
#[path = "../common/random.rs"]
mod random;
#[path = "../plain/storage.rs"]
mod storage;

use engine::Engine;
use loops::Loop;
use random::Random;
use std::alloc::{GlobalAlloc, Layout, System};
use std::cell::Cell;
use std::sync::Mutex;

thread_local! {
    /// How often this thread has asked for memory, how much it holds, and how much it held at most.
    static HEAP: Cell<(u64, isize, isize)> = const { Cell::new((0, 0, 0)) };
}

struct Counting;

fn count(asked: u64, bytes: isize) {
    let (calls, held, most) = HEAP.get();
    HEAP.set((calls + asked, held + bytes, most.max(held + bytes)));
}

unsafe impl GlobalAlloc for Counting {
    unsafe fn alloc(&self, layout: Layout) -> *mut u8 {
        count(1, layout.size() as isize);
        unsafe { System.alloc(layout) }
    }

    unsafe fn dealloc(&self, at: *mut u8, layout: Layout) {
        count(0, -(layout.size() as isize));
        unsafe { System.dealloc(at, layout) }
    }
}

#[global_allocator]
static ALLOCATOR: Counting = Counting;

/// What a call takes: bytes of the stack, calls of the allocator, bytes of the heap at most.
type Used = (usize, u64, isize);

fn used(run: impl FnMut() + Send) -> Used {
    let (run, heap) = (Mutex::new(run), Mutex::new((0, 0)));
    let stack = paint::stack_use(|| {
        HEAP.set((0, 0, 0));
        run.lock().unwrap()();
        let (calls, _, most) = HEAP.get();
        *heap.lock().unwrap() = (calls, most);
    });
    let (calls, most) = heap.into_inner().unwrap();
    (stack, calls, most)
}

fn line(name: &str, proved: Used, plain: Option<Used>) {
    let columns = |(stack, asked, heap): Used| format!("{stack:>8} {asked:>8} {heap:>8}");
    println!("{name:<50} {}  {}", columns(proved), plain.map_or(String::new(), columns));
}

fn row(name: &str, l: &Loop) {
    let mut ours = Engine::new(l);
    let proved = used(move || ours.run(10_000));
    let plain = used(|| assert_eq!(engine::plain(l).run(10_000).1, None));
    line(name, proved, Some(plain));
}

fn replayed_run(name: &str, l: &Loop) {
    let (mut ours, file) = (Engine::new(l), files::run(10_000));
    line(name, used(move || assert_eq!(ours.replay(&file).0, 0)), None);
}

fn replayed_loads(name: &str, l: &Loop, file: &[u8]) {
    let mut ours = Engine::new(l);
    let (mut theirs, procedures) = (ours.data.clone(), ours.procedures);
    let proved = used(move || assert_eq!(ours.replay(file).0, 0));
    let plain = used(move || assert_eq!(imports::replay(&mut theirs, procedures, file, imports::no_run).0, 0));
    line(name, proved, Some(plain));
}

fn main() {
    println!("\n{:<50} {:>26}  {:>26}", "memory of 10,000 instructions, of 1,000 loads", "proved", "plain Rust");
    println!("{:<50} {:>8} {:>8} {:>8}  {:>8} {:>8} {:>8}", "", "stack", "asked", "heap", "stack", "asked", "heap");
    let random = &mut Random(1);
    row("Ackermann", &loops::ackermann());
    row("a fragmenting loop", &loops::fragmenting());
    let vectors = [0, 1].map(|_| (0..5_400).map(|_| random.integer()).collect());
    row("integer SUM of 5,400 elements", &loops::dyadic(assemble::SUM, vectors));
    row("CATENATE to 10,000 elements", &loops::catenate(10_000, random));
    replayed_run("Ackermann, replayed", &loops::ackermann());
    let l = loops::imported(1_024);
    replayed_loads("1,000 loads of 10 elements, replayed", &l, &files::loads(1_000, l.globals, random));
}
