//! The tests 10 to 18 as one writes them in Rust, with vectors for the tables and indices that are tested by the language.
fn word(p: &[u8], k: usize) -> Option<u32> {
    Some(u32::from_be_bytes(p.get(4 * k..4 * k + 4)?.try_into().ok()?))
}

/// NARGS and NARGS + NLOCALS of each function, or the number of the test that fails.
fn functions(p: &[u8]) -> Option<Vec<(usize, usize)>> {
    let first = word(p, 0)?;
    let (zero, n) = (first >> 16, (first & 0xFFFF) as usize);
    if zero != 0 || n < 1 || n > 2048 || 4 * n > p.len() {
        return None;
    }
    let mut found = vec![(0, 0)];
    for k in 1..n {
        let entry = word(p, k)?;
        let (start, length) = ((entry >> 16) as usize, (entry & 0xFFFF) as usize);
        if start < n || 4 * (start + length) > p.len() || length < 2 {
            return None;
        }
        let (a, b) = (word(p, start)?, word(p, start + 1)?);
        let (nargs, nlines) = ((a >> 16 & 0xFF) as usize, (a & 0xFFFF) as usize);
        let (nlocals, ncode) = ((b >> 16) as usize, (b & 0xFFFF) as usize);
        let result = a >> 29 & 1 == 1;
        if a >> 24 & 0x1F != 0 || nargs > 15 || result && nlocals < 1 || nargs + nlocals > 4096 || length != 2 + ncode + (nlines + 1) / 2 {
            return None;
        }
        found.push((nargs, nargs + nlocals));
    }
    Some(found)
}

fn scalar(w: u32) -> bool {
    w >> 30 & 1 == 1 || w & 0x7F80_0000 == 0 && w != 0x8000_0000 || w >> 8 == 0x1_0000
}

fn array_inside(block: &[u32], size: usize) -> bool {
    let rank = (block[1] & 0xFFFF) as usize;
    if rank < 1 || rank > 15 || size < 2 + rank {
        return false;
    }
    let mut count: u64 = 1;
    for &length in &block[2..2 + rank] {
        if length > 8_388_607 {
            return false;
        }
        count = (count * length as u64).min(1 << 16);
    }
    count as usize == size - 2 - rank && block[2 + rank..size].iter().all(|&w| scalar(w))
}

pub fn judge(seg: &[u32], regular: &[u8], alternate: &[u8]) -> u8 {
    if seg.len() < 32 || seg.len() > 16384 {
        return 10;
    }
    for p in [regular, alternate] {
        if p.len() < 4 || p.len() > 32768 || p.len() % 4 != 0 {
            return 11;
        }
    }
    let (Some(f0), Some(f1)) = (functions(regular), functions(alternate)) else {
        return 12;
    };
    let (sbase, ltop) = ((seg[0] >> 16) as usize, (seg[0] & 0xFFFF) as usize);
    let (lbase, rover) = ((seg[1] >> 16) as usize, (seg[1] & 0xFFFF) as usize);
    let blockptr = seg[4] as usize;
    if seg[2] > 15 || seg[3] > 0xFFFF || blockptr < 8 || seg[5..8] != [0, 0, 0] || sbase < blockptr + 3 || sbase + ltop >= seg.len() {
        return 13;
    }
    // 14
    let dummy = sbase - 3;
    let mut arrays = vec![0u16; seg.len()];
    let mut frees = vec![false; seg.len()];
    let (mut a, mut before, mut count) = (blockptr, false, 0);
    if seg[dummy + 2] != 0 {
        return 14;
    }
    while a < dummy {
        let w = seg[a];
        let span = if w >> 31 == 1 {
            let size = (w & 0x7FFF_FFFF) as usize;
            if before || size < 3 || a + size > dummy || seg[a + size - 1] as usize != size {
                return 14;
            }
            frees[a] = true;
            count += 1;
            size
        } else {
            let (size, slop) = ((w & 0xFFFF) as usize, (w >> 16 & 3) as usize);
            if size < 3 || slop > 2 || w >> 18 != (before as u32) << 12 || a + size + slop > dummy || !array_inside(&seg[a..], size) {
                return 14;
            }
            arrays[a] = 1;
            size + slop
        };
        before = w >> 31 == 1;
        a += span;
    }
    if seg[dummy] != (before as u32) << 30 {
        return 14;
    }
    // 15
    if rover != dummy && !frees.get(rover).copied().unwrap_or(false) {
        return 15;
    }
    let (mut at, mut left) = (dummy, count);
    loop {
        let next = (seg[at + 1] >> 16) as usize;
        if next + 1 >= seg.len() || (seg[next + 1] & 0xFFFF) as usize != at {
            return 15;
        }
        if left == 0 {
            if next != dummy {
                return 15;
            }
            break;
        }
        if !frees[next] {
            return 15;
        }
        frees[next] = false;
        left -= 1;
        at = next;
    }
    // 16
    if ltop < lbase + 1 {
        return 16;
    }
    let stack = &seg[sbase..];
    let mut chain = Vec::new();
    let mut base = lbase;
    loop {
        let code = stack[base + 1];
        if code >> 28 != 0 {
            return 16;
        }
        let table = if code >> 27 & 1 == 1 { &f1 } else { &f0 };
        let number = (code >> 16 & 0x7FF) as usize;
        if number == 0 || number >= table.len() {
            return 16;
        }
        let (nargs, size) = table[number];
        let last = stack[base] as usize;
        if last == base {
            if size != base {
                return 16;
            }
            chain.push((base, 0, nargs));
            break;
        }
        if last + 2 + size > base {
            return 16;
        }
        chain.push((base, base - size, nargs));
        base = last;
    }
    // 17, and the tally of 18: each cell that points to an array is one mark more at its start
    if !plain_cells(&seg[8..blockptr], &mut arrays) {
        return 17;
    }
    let mut variable = vec![false; stack.len()];
    for &(base, start, _) in &chain {
        variable[start..base].fill(true);
    }
    let mut top = ltop + 1;
    for &(base, start, nargs) in &chain {
        if !free_cells(seg, stack, &stack[base + 2..top], &variable, &mut arrays) {
            return 17;
        }
        variable[start..base].fill(false);
        if !free_cells(seg, stack, &stack[start..start + nargs], &variable, &mut arrays) || !plain_cells(&stack[start + nargs..base], &mut arrays) {
            return 17;
        }
        top = start;
    }
    // 18
    let mut a = blockptr;
    while a < dummy {
        let w = seg[a];
        if w >> 31 == 0 {
            let counted = seg[a + 1] >> 16;
            if counted == 0 || counted + 1 != arrays[a] as u32 {
                return 18;
            }
        }
        a += (w & 0xFFFF) as usize + (w >> 16 & 3) as usize;
    }
    0
}

fn plain_cells(cells: &[u32], arrays: &mut [u16]) -> bool {
    for &w in cells {
        if !direct(w, arrays) {
            return false;
        }
    }
    true
}

fn free_cells(seg: &[u32], stack: &[u32], cells: &[u32], variable: &[bool], arrays: &mut [u16]) -> bool {
    for &w in cells {
        if !direct(w, arrays) && !pointing(seg, stack, variable, w) {
            return false;
        }
    }
    true
}

fn direct(w: u32, arrays: &mut [u16]) -> bool {
    if w <= 8_388_607 {
        return true;
    }
    if w >> 16 == 0x200 {
        return match arrays.get_mut((w & 0xFFFF) as usize) {
            Some(mark) if *mark > 0 => {
                *mark += 1;
                true
            }
            _ => false,
        };
    }
    w == 0x0400_0000 || scalar(w)
}

fn indirect(w: u32) -> bool {
    w >> 17 == 0x180
}

fn pointing(seg: &[u32], stack: &[u32], variable: &[bool], w: u32) -> bool {
    if !indirect(w) {
        return false;
    }
    let t = (w & 0xFFFF) as usize;
    if w >> 16 & 1 == 1 {
        return t >= 8 && t < seg[4] as usize && !indirect(seg[t]);
    }
    variable.get(t).copied().unwrap_or(false) && !indirect(stack[t])
}
