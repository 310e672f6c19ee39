//! How much of a thread's stack a call writes.
const PAINT: u64 = 0xA5A5_5A5A_C3C3_3C3C;
const DEPTH: usize = 1 << 20;

/// The bytes from the caller's frame down to the lowest word written: the stack below is painted, and looked at after a call.
pub fn stack_use(call: impl Fn() + Sync) -> usize {
    let run = || {
        let here = PAINT;
        let top = &here as *const u64 as usize;
        let low = top - DEPTH;
        for a in (low..top - 1024).step_by(8) {
            unsafe { (a as *mut u64).write_volatile(PAINT) };
        }
        call();
        let touched = (low..top).step_by(8).find(|&a| unsafe { (a as *const u64).read_volatile() } != PAINT);
        top - touched.unwrap_or(top)
    };
    std::thread::scope(|scope| std::thread::Builder::new().stack_size(4 * DEPTH).spawn_scoped(scope, run).unwrap().join().unwrap())
}
