//! The interval calls: preparation of a text, and the count of a piece of it.
use crate::{unpacked, Answer, Tables};

mod ffi {
    declare! {
        bpe_interval_prepare(
            text: *const u8,
            text_len: usize,
            last_codes: *mut u32,
            last_codes_len: usize,
            numbers: *mut u32,
            numbers_len: usize,
            ends: *mut u32,
            ends_len: usize,
            depths: *mut u32,
            depths_len: usize,
            work: *mut u32,
            work_len: usize
        );
        bpe_interval_count(
            text: *const u8,
            text_len: usize,
            last_codes: *const u32,
            last_codes_len: usize,
            numbers: *const u32,
            numbers_len: usize,
            ends: *const u32,
            ends_len: usize,
            depths: *const u32,
            depths_len: usize,
            start: usize,
            end: usize,
            work: *mut u32,
            work_len: usize
        );
    }
}

/// The tables that preparation fills: last codes, tree numbers, tree ends and depths.
pub struct IntervalBuffers<'a> {
    pub last_codes: &'a mut [u32],
    pub numbers: &'a mut [u32],
    pub ends: &'a mut [u32],
    pub depths: &'a mut [u32],
}

/// The same, prepared.
#[derive(Clone, Copy)]
pub struct Intervals<'a> {
    pub last_codes: &'a [u32],
    pub numbers: &'a [u32],
    pub ends: &'a [u32],
    pub depths: &'a [u32],
}

impl Tables<'_> {
    /// Prepares a text; its length.
    pub fn interval_prepare(&self, text: &[u8], b: IntervalBuffers, work: &mut [u32]) -> Answer<u32> {
        over!(
            self,
            bpe_interval_prepare,
            text.as_ptr(),
            text.len(),
            b.last_codes.as_mut_ptr(),
            b.last_codes.len(),
            b.numbers.as_mut_ptr(),
            b.numbers.len(),
            b.ends.as_mut_ptr(),
            b.ends.len(),
            b.depths.as_mut_ptr(),
            b.depths.len(),
            work.as_mut_ptr(),
            work.len()
        )
    }

    /// The number of codes of a piece of a prepared text, the byte at the end not included.
    pub fn interval_count(&self, text: &[u8], i: Intervals, start: usize, end: usize, work: &mut [u32]) -> Answer<u32> {
        over!(
            self,
            bpe_interval_count,
            text.as_ptr(),
            text.len(),
            i.last_codes.as_ptr(),
            i.last_codes.len(),
            i.numbers.as_ptr(),
            i.numbers.len(),
            i.ends.as_ptr(),
            i.ends.len(),
            i.depths.as_ptr(),
            i.depths.len(),
            start,
            end,
            work.as_mut_ptr(),
            work.len()
        )
    }
}
