//! Where the words of array storage went.
use crate::acceptance::judge;

/// The tests, and then where the words of array storage went: arrays, slop, free, the dummy, all.
pub fn sheet(seg: &[u32], regular: &[u8], alternate: &[u8]) -> Result<[u32; 5], u8> {
    let refused = judge(seg, regular, alternate);
    if refused != 0 {
        return Err(refused);
    }
    let (start, end) = (seg[4] as usize, (seg[0] >> 16) as usize);
    let [mut arrays, mut slop, mut free] = [0; 3];
    let mut a = start;
    while a < end - 3 {
        let (first, size) = (seg[a], seg[a] & 0xFFFF);
        if first >> 31 == 1 {
            free += size;
            a += size as usize;
        } else {
            arrays += size;
            slop += first >> 16 & 3;
            a += (size + (first >> 16 & 3)) as usize;
        }
    }
    Ok([arrays, slop, free, 3, (end - start) as u32])
}
