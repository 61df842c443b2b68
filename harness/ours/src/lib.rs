//! The proved library behind safe functions. Nothing checks these declarations against its source: they follow
//! crates/nahypora/src and crates/bench_exports/src, where a slice is a pointer and a length in elements.

/// Declares exported functions with the file, the tables and the area in front of their own arguments.
macro_rules! declare {
    ($($name:ident($($argument:ident: $kind:ty),*);)*) => {
        extern "C" {
            $(pub fn $name(
                file: *const u8,
                file_len: usize,
                places: *const u32,
                places_len: usize,
                lefts: *const u32,
                lefts_len: usize,
                rights: *const u32,
                rights_len: usize,
                prefixes: *const u32,
                prefixes_len: usize,
                area: *const u32,
                area_len: usize
                $(, $argument: $kind)*
            ) -> u64;)*
        }
    };
}

mod ffi {
    extern "C" {
        pub fn bpe_from_dictionary(
            file: *const u8,
            file_len: usize,
            factor: u64,
            places: *mut u32,
            places_len: usize,
            lefts: *mut u32,
            lefts_len: usize,
            rights: *mut u32,
            rights_len: usize,
            prefixes: *mut u32,
            prefixes_len: usize,
            area: *mut u32,
            area_len: usize,
        ) -> u64;
    }

    /// Declares encoders: text, output, work buffer.
    macro_rules! declare_encoders {
        ($($name:ident)*) => {
            declare! {
                $($name(
                    text: *const u8,
                    text_len: usize,
                    out: *mut u32,
                    out_len: usize,
                    work: *mut u32,
                    work_len: usize
                );)*
            }
        };
    }

    declare! {
        bpe_is_valid_token_pair(token1: u32, token2: u32);
        bpe_num_tokens();
        bpe_token_len(token: u32);
        bpe_token_bytes(token: u32, out: *mut u8, out_len: usize);
        bpe_decode_tokens(tokens: *const u32, tokens_len: usize, out: *mut u8, out_len: usize);
        bpe_count(text: *const u8, text_len: usize, work: *mut u32, work_len: usize);
        bpe_count_till_limit(text: *const u8, text_len: usize, limit: u64, work: *mut u32, work_len: usize);
    }
    declare_encoders! {
        bpe_encode_via_bitfield
        bpe_encode_via_backtracking
        bpe_encode_via_table
        bpe_encode_minimal
        bpe_encode_greedy
    }
}

/// "None" and "over".
pub const NONE: u32 = u32::MAX;

/// The size of the search area.
pub const AREA: usize = 16384;

/// Why a call was refused: document 01's number of the cause, and the returned place.
#[derive(Clone, Copy, PartialEq, Eq, Debug)]
pub struct Refusal {
    pub cause: u32,
    pub place: u32,
}

pub type Answer<T> = Result<T, Refusal>;

/// An exported call's number as an answer: the upper half is the cause, 0 if there is none.
fn unpacked(packed: u64) -> Answer<u32> {
    let (cause, place) = ((packed >> 32) as u32, packed as u32);
    match cause {
        0 => Ok(place),
        _ => Err(Refusal { cause, place }),
    }
}

/// The lent buffers of build.
pub struct Buffers<'a> {
    pub places: &'a mut [u32],
    pub lefts: &'a mut [u32],
    pub rights: &'a mut [u32],
    pub prefixes: &'a mut [u32],
    pub area: &'a mut [u32],
}

/// Fills the tables and the search area from a phrase file; the count of rows.
pub fn from_dictionary(file: &[u8], factor: u64, b: Buffers) -> Answer<u32> {
    unpacked(unsafe {
        ffi::bpe_from_dictionary(
            file.as_ptr(),
            file.len(),
            factor,
            b.places.as_mut_ptr(),
            b.places.len(),
            b.lefts.as_mut_ptr(),
            b.lefts.len(),
            b.rights.as_mut_ptr(),
            b.rights.len(),
            b.prefixes.as_mut_ptr(),
            b.prefixes.len(),
            b.area.as_mut_ptr(),
            b.area.len(),
        )
    })
}

/// A file with its tables and search area, in form or not.
#[derive(Clone, Copy)]
pub struct Tables<'a> {
    pub file: &'a [u8],
    pub places: &'a [u32],
    pub lefts: &'a [u32],
    pub rights: &'a [u32],
    pub prefixes: &'a [u32],
    pub area: &'a [u32],
}

/// Calls an exported function with the file, the tables and the area in front of its own arguments.
macro_rules! over {
    ($tables:expr, $name:ident $(, $argument:expr)*) => {{
        let t = $tables;
        unpacked(unsafe {
            ffi::$name(
                t.file.as_ptr(),
                t.file.len(),
                t.places.as_ptr(),
                t.places.len(),
                t.lefts.as_ptr(),
                t.lefts.len(),
                t.rights.as_ptr(),
                t.rights.len(),
                t.prefixes.as_ptr(),
                t.prefixes.len(),
                t.area.as_ptr(),
                t.area.len()
                $(, $argument)*
            )
        })
    }};
}

pub mod intervals;
pub mod measured;
pub mod typing;

/// Encoders: the codes to the front of `out`, and how many.
macro_rules! encoders {
    ($($(#[$text:meta])* $name:ident, $exported:ident;)*) => {
        $($(#[$text])*
        pub fn $name(&self, text: &[u8], out: &mut [u32], work: &mut [u32]) -> Answer<u32> {
            over!(
                self,
                $exported,
                text.as_ptr(),
                text.len(),
                out.as_mut_ptr(),
                out.len(),
                work.as_mut_ptr(),
                work.len()
            )
        })*
    };
}

impl Tables<'_> {
    /// The count of rows, which is also the check of the tables.
    pub fn num_tokens(&self) -> Answer<u32> {
        over!(self, bpe_num_tokens)
    }

    /// The number of bytes of a row.
    pub fn token_len(&self, token: u32) -> Answer<u32> {
        over!(self, bpe_token_len, token)
    }

    /// Whether two codes may stand beside each other.
    pub fn is_valid_token_pair(&self, token1: u32, token2: u32) -> Answer<bool> {
        over!(self, bpe_is_valid_token_pair, token1, token2).map(|passes| passes == 1)
    }

    encoders! {
        /// The merge procedure's codes.
        encode_via_bitfield, bpe_encode_via_bitfield;
        /// The same by backtracking.
        encode_via_backtracking, bpe_encode_via_backtracking;
        /// The same by the last codes of the prefixes.
        encode_via_table, bpe_encode_via_table;
        /// The fewest codes.
        encode_minimal, bpe_encode_minimal;
        /// The longest row at each place.
        encode_greedy, bpe_encode_greedy;
    }

    /// The number of the merge procedure's codes.
    pub fn count(&self, text: &[u8], work: &mut [u32]) -> Answer<u32> {
        over!(self, bpe_count, text.as_ptr(), text.len(), work.as_mut_ptr(), work.len())
    }

    /// The same, or nothing for "over".
    pub fn count_till_limit(&self, text: &[u8], limit: u64, work: &mut [u32]) -> Answer<Option<u32>> {
        over!(self, bpe_count_till_limit, text.as_ptr(), text.len(), limit, work.as_mut_ptr(), work.len())
            .map(|count| (count != NONE).then_some(count))
    }

    /// The bytes that codes spell, to the front of `out`, and how many.
    pub fn decode_tokens(&self, tokens: &[u32], out: &mut [u8]) -> Answer<u32> {
        over!(self, bpe_decode_tokens, tokens.as_ptr(), tokens.len(), out.as_mut_ptr(), out.len())
    }

    /// The bytes of a row, to the front of `out`, and how many.
    pub fn token_bytes(&self, token: u32, out: &mut [u8]) -> Answer<u32> {
        over!(self, bpe_token_bytes, token, out.as_mut_ptr(), out.len())
    }
}
