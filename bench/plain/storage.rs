//! Array storage as one writes it in Rust, with indices that are tested by the language: next fit on a ring of free blocks, and
//! neighbours joined at a release.
const FREE: u32 = 0x8000_0000;
const PREV_FREE: u32 = 0x4000_0000;

fn size(seg: &[u32], a: usize) -> usize {
    (seg[a] & 0xFFFF) as usize
}

fn next(seg: &[u32], a: usize) -> usize {
    (seg[a + 1] >> 16) as usize
}

fn last(seg: &[u32], a: usize) -> usize {
    (seg[a + 1] & 0xFFFF) as usize
}

fn set_next(seg: &mut [u32], a: usize, to: usize) {
    seg[a + 1] = (to as u32) << 16 | seg[a + 1] & 0xFFFF;
}

fn set_last(seg: &mut [u32], a: usize, to: usize) {
    seg[a + 1] = seg[a + 1] & 0xFFFF_0000 | to as u32;
}

fn rover(seg: &[u32]) -> usize {
    (seg[1] & 0xFFFF) as usize
}

fn set_rover(seg: &mut [u32], to: usize) {
    seg[1] = seg[1] & 0xFFFF_0000 | to as u32;
}

fn unlink(seg: &mut [u32], a: usize) {
    let (next, last) = (next(seg, a), last(seg, a));
    set_next(seg, last, next);
    set_last(seg, next, last);
}

#[inline(never)]
pub fn request(seg: &mut [u32], need: usize) -> Option<usize> {
    let stop = rover(seg);
    let mut f = stop;
    while size(seg, f) < need {
        f = next(seg, f);
        if f == stop {
            return None;
        }
    }
    let (old, next) = (size(seg, f), next(seg, f));
    let over = old - need;
    let at = if over >= 3 {
        let at = f + over;
        seg[f] = FREE | over as u32;
        seg[at - 1] = over as u32;
        seg[at] = PREV_FREE | need as u32;
        at
    } else {
        unlink(seg, f);
        seg[f] = (over as u32) << 16 | need as u32;
        f
    };
    seg[f + old] &= !(PREV_FREE | FREE);
    set_rover(seg, next);
    Some(at)
}

pub fn release(seg: &mut [u32], a: usize) {
    let mut n = size(seg, a) + (seg[a] >> 16 & 3) as usize;
    let after = a + n;
    let before = seg[a] & PREV_FREE != 0;
    let joins = seg[after] & FREE != 0;
    let p = if before { a - size(seg, a - 1) } else { a };
    n += a - p;
    if joins {
        n += size(seg, after);
        if before {
            unlink(seg, after);
        } else {
            let (next, last) = (next(seg, after), last(seg, after));
            seg[p + 1] = seg[after + 1];
            set_next(seg, last, p);
            set_last(seg, next, p);
        }
        if rover(seg) == after {
            set_rover(seg, p);
        }
    } else {
        if !before {
            let dummy = (seg[0] >> 16) as usize - 3;
            let next = next(seg, dummy);
            seg[p + 1] = (next as u32) << 16 | dummy as u32;
            set_next(seg, dummy, p);
            set_last(seg, next, p);
        }
        seg[after] |= PREV_FREE;
    }
    seg[p] = FREE | n as u32;
    seg[p + n - 1] = n as u32;
}

#[inline(never)]
pub fn place(seg: &mut [u32], shape: &[u32], elements: &[u32]) -> Option<usize> {
    let at = request(seg, 2 + shape.len() + elements.len())?;
    seg[at + 1] = 1 << 16 | shape.len() as u32;
    let (start, end) = (at + 2 + shape.len(), at + 2 + shape.len() + elements.len());
    seg[at + 2..start].copy_from_slice(shape);
    seg[start..end].copy_from_slice(elements);
    Some(at)
}

#[inline(never)]
pub fn drop_word(seg: &mut [u32], word: u32) {
    if word >> 16 != 0x200 {
        return;
    }
    let a = (word & 0xFFFF) as usize;
    if seg[a + 1] >> 16 == 1 {
        release(seg, a);
    } else {
        seg[a + 1] -= 1 << 16;
    }
}
