//! The exported functions, as include/crms.h declares them. Nothing checks these lines against the library: keep them alike.

use crate::{Sheet, Tally};

extern "C" {
    pub fn crms_lay_out(
        data: *mut u32,
        n: usize,
        regular: *const u8,
        nr: usize,
        alternate: *const u8,
        na: usize,
        segment: u32,
        function: u32,
        globals: u32,
        array_words: u32,
    ) -> u32;

    pub fn crms_run(data: *mut u32, n: usize, regular: *const u8, nr: usize, alternate: *const u8, na: usize, budget: u32) -> u64;

    pub fn crms_run_with(
        data: *mut u32,
        n: usize,
        regular: *const u8,
        nr: usize,
        alternate: *const u8,
        na: usize,
        table: *const u8,
        nt: usize,
        budget: u32,
    ) -> u64;

    pub fn crms_load(
        data: *mut u32,
        n: usize,
        regular: *const u8,
        nr: usize,
        alternate: *const u8,
        na: usize,
        global: u32,
        lengths: *const u32,
        rank: usize,
        elements: *const u32,
        count: usize,
    ) -> u32;

    pub fn crms_replay(
        data: *mut u32,
        n: usize,
        regular: *const u8,
        nr: usize,
        alternate: *const u8,
        na: usize,
        file: *const u8,
        nf: usize,
        tally: *mut Tally,
    ) -> u64;

    pub fn crms_replay_with(
        data: *mut u32,
        n: usize,
        regular: *const u8,
        nr: usize,
        alternate: *const u8,
        na: usize,
        table: *const u8,
        nt: usize,
        file: *const u8,
        nf: usize,
        tally: *mut Tally,
    ) -> u64;

    pub fn crms_look(
        data: *const u32,
        n: usize,
        regular: *const u8,
        nr: usize,
        alternate: *const u8,
        na: usize,
        global: u32,
    ) -> u64;

    pub fn crms_sheet(
        data: *const u32,
        n: usize,
        regular: *const u8,
        nr: usize,
        alternate: *const u8,
        na: usize,
        counts: *mut Sheet,
    ) -> u32;
}
