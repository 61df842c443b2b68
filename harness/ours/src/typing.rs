//! The typing calls. A list starts with a head of length 0 over records of any content.
use crate::{unpacked, Answer, Tables};

/// The number of bytes typed.
#[repr(C)]
#[derive(Clone, Copy, PartialEq, Eq, Debug)]
pub struct Head {
    pub len: usize,
}

/// A byte typed, the last code of the bytes typed up to it (in prepending the first code), and the number of their codes.
#[repr(C)]
#[derive(Clone, Copy, PartialEq, Eq, Debug)]
pub struct State {
    pub byte: u8,
    pub code: u32,
    pub count: u32,
}

/// Where a byte is put: at the end or at the front.
#[derive(Clone, Copy, PartialEq, Eq, Debug)]
pub enum Side {
    Append,
    Prepend,
}

impl Side {
    /// The side's number in the C interface.
    pub(crate) fn number(self) -> u32 {
        match self {
            Side::Append => 0,
            Side::Prepend => 1,
        }
    }
}

mod ffi {
    use super::{Head, State};

    declare! {
        bpe_push(side: u32, byte: u8, head: *mut Head, states: *mut State, states_len: usize);
        bpe_extend(
            side: u32, bytes: *const u8, bytes_len: usize, head: *mut Head, states: *mut State, states_len: usize
        );
        bpe_token_count(side: u32, head: *const Head, states: *const State, states_len: usize);
    }

    extern "C" {
        pub fn bpe_truncate(keep: usize, head: *mut Head, states: *const State, states_len: usize) -> u64;
    }
}

impl Tables<'_> {
    /// Types one byte; the new length.
    pub fn push(&self, side: Side, byte: u8, head: &mut Head, states: &mut [State]) -> Answer<u32> {
        over!(self, bpe_push, side.number(), byte, head, states.as_mut_ptr(), states.len())
    }

    /// Types bytes, the first one first, all or none; the new length.
    pub fn extend(&self, side: Side, bytes: &[u8], head: &mut Head, states: &mut [State]) -> Answer<u32> {
        over!(
            self,
            bpe_extend,
            side.number(),
            bytes.as_ptr(),
            bytes.len(),
            head,
            states.as_mut_ptr(),
            states.len()
        )
    }

    /// The number of codes of the bytes typed.
    pub fn token_count(&self, side: Side, head: &Head, states: &[State]) -> Answer<u32> {
        over!(self, bpe_token_count, side.number(), head, states.as_ptr(), states.len())
    }
}

/// Keeps the first so many bytes typed, on either side; the new length.
pub fn truncate(keep: usize, head: &mut Head, states: &[State]) -> Answer<u32> {
    unpacked(unsafe { ffi::bpe_truncate(keep, head, states.as_ptr(), states.len()) })
}
