//! Core calls in a loop, for the benchmark. They require tables in form, codes below n, and interval tables in form:
//! `Checked`, `Codes` and `Pieces` are the proofs of it.
use crate::intervals::Intervals;
use crate::typing::Side;
use crate::{unpacked, Answer, Tables};

mod ffi {
    extern "C" {
        pub fn measured_finds(
            file: *const u8,
            file_len: usize,
            places: *const u32,
            places_len: usize,
            area: *const u32,
            area_len: usize,
            n: usize,
            codes: *const u32,
            codes_len: usize,
            out: *mut u32,
            out_len: usize,
        );

        pub fn measured_minimal(
            file: *const u8,
            file_len: usize,
            places: *const u32,
            places_len: usize,
            area: *const u32,
            area_len: usize,
            n: usize,
            text: *const u8,
            text_len: usize,
            out: *mut u32,
            out_len: usize,
            work: *mut u32,
            work_len: usize,
        ) -> usize;

        pub fn measured_greedy(
            file: *const u8,
            file_len: usize,
            places: *const u32,
            places_len: usize,
            area: *const u32,
            area_len: usize,
            n: usize,
            text: *const u8,
            text_len: usize,
            out: *mut u32,
            out_len: usize,
        ) -> usize;

        pub fn measured_joins(
            file: *const u8,
            file_len: usize,
            places: *const u32,
            places_len: usize,
            area: *const u32,
            area_len: usize,
            n: usize,
            codes: *const u32,
            codes_len: usize,
            others: *const u32,
            others_len: usize,
            out: *mut u32,
            out_len: usize,
        );

        pub fn measured_pairs(
            file: *const u8,
            file_len: usize,
            places: *const u32,
            places_len: usize,
            lefts: *const u32,
            lefts_len: usize,
            rights: *const u32,
            rights_len: usize,
            area: *const u32,
            area_len: usize,
            n: usize,
            codes: *const u32,
            codes_len: usize,
            others: *const u32,
            others_len: usize,
            out: *mut u32,
            out_len: usize,
        );

        pub fn measured_pieces(
            file: *const u8,
            file_len: usize,
            places: *const u32,
            places_len: usize,
            lefts: *const u32,
            lefts_len: usize,
            rights: *const u32,
            rights_len: usize,
            prefixes: *const u32,
            prefixes_len: usize,
            area: *const u32,
            area_len: usize,
            n: usize,
            text: *const u8,
            text_len: usize,
            last_codes: *const u32,
            last_codes_len: usize,
            numbers: *const u32,
            numbers_len: usize,
            ends: *const u32,
            ends_len: usize,
            depths: *const u32,
            depths_len: usize,
            froms: *const u32,
            froms_len: usize,
            tos: *const u32,
            tos_len: usize,
            work: *mut u32,
            work_len: usize,
            out: *mut u32,
            out_len: usize,
        );
    }

    declare! {
        measured_extend(
            side: u32, typed: *const u8, typed_len: usize, bytes: *mut u8, codes: *mut u32, counts: *mut u32
        );
    }
}

/// Tables that `num_tokens` found in form.
pub struct Checked<'a> {
    tables: Tables<'a>,
    n: usize,
}

/// The fields of typing records, each in an array of its own.
pub struct Columns {
    pub bytes: [u8; 4096],
    pub codes: [u32; 4096],
    pub counts: [u32; 4096],
}

impl Columns {
    pub fn new() -> Self {
        Columns { bytes: [0; 4096], codes: [0; 4096], counts: [0; 4096] }
    }
}

impl Default for Columns {
    fn default() -> Self {
        Columns::new()
    }
}

/// Pieces of a text with interval tables that a count found in form.
pub struct Pieces<'a> {
    n: usize,
    text: &'a [u8],
    intervals: Intervals<'a>,
    froms: Vec<u32>,
    tos: Vec<u32>,
}

/// Codes below n.
pub struct Codes {
    n: usize,
    codes: Vec<u32>,
}

impl Codes {
    pub fn list(&self) -> &[u32] {
        &self.codes
    }
}

impl<'a> Checked<'a> {
    pub fn new(tables: Tables<'a>) -> Answer<Self> {
        let n = tables.num_tokens()? as usize;
        Ok(Checked { tables, n })
    }

    pub fn codes(&self, codes: Vec<u32>) -> Codes {
        assert!(codes.iter().all(|&c| (c as usize) < self.n), "a code not below n");
        Codes { n: self.n, codes }
    }

    /// The row with the bytes of each code.
    pub fn finds(&self, codes: &Codes, out: &mut [u32]) {
        assert!(codes.n <= self.n && codes.codes.len() <= out.len());
        let t = &self.tables;
        unsafe {
            ffi::measured_finds(
                t.file.as_ptr(),
                t.file.len(),
                t.places.as_ptr(),
                t.places.len(),
                t.area.as_ptr(),
                t.area.len(),
                self.n,
                codes.codes.as_ptr(),
                codes.codes.len(),
                out.as_mut_ptr(),
                out.len(),
            )
        }
    }

    /// The fewest codes of a text of at most 4,096 bytes; how many.
    pub fn minimal(&self, text: &[u8], out: &mut [u32], work: &mut [u32]) -> usize {
        assert!(text.len() <= 4096 && text.len() <= out.len() && text.len() <= work.len());
        let t = &self.tables;
        unsafe {
            ffi::measured_minimal(
                t.file.as_ptr(),
                t.file.len(),
                t.places.as_ptr(),
                t.places.len(),
                t.area.as_ptr(),
                t.area.len(),
                self.n,
                text.as_ptr(),
                text.len(),
                out.as_mut_ptr(),
                out.len(),
                work.as_mut_ptr(),
                work.len(),
            )
        }
    }

    /// The longest row at each place of a text of at most 4,096 bytes; how many.
    pub fn greedy(&self, text: &[u8], out: &mut [u32]) -> usize {
        assert!(text.len() <= 4096 && text.len() <= out.len());
        let t = &self.tables;
        unsafe {
            ffi::measured_greedy(
                t.file.as_ptr(),
                t.file.len(),
                t.places.as_ptr(),
                t.places.len(),
                t.area.as_ptr(),
                t.area.len(),
                self.n,
                text.as_ptr(),
                text.len(),
                out.as_mut_ptr(),
                out.len(),
            )
        }
    }

    /// The join of each code with the other at its place, or none.
    pub fn joins(&self, codes: &Codes, others: &Codes, out: &mut [u32]) {
        assert!(codes.n <= self.n && others.n <= self.n);
        assert!(codes.codes.len() == others.codes.len() && codes.codes.len() <= out.len());
        let t = &self.tables;
        unsafe {
            ffi::measured_joins(
                t.file.as_ptr(),
                t.file.len(),
                t.places.as_ptr(),
                t.places.len(),
                t.area.as_ptr(),
                t.area.len(),
                self.n,
                codes.codes.as_ptr(),
                codes.codes.len(),
                others.codes.as_ptr(),
                others.codes.len(),
                out.as_mut_ptr(),
                out.len(),
            )
        }
    }

    /// 1 where a code may stand before the other at its place, else 0.
    pub fn pairs(&self, codes: &Codes, others: &Codes, out: &mut [u32]) {
        assert!(codes.n <= self.n && others.n <= self.n);
        assert!(codes.codes.len() == others.codes.len() && codes.codes.len() <= out.len());
        let t = &self.tables;
        unsafe {
            ffi::measured_pairs(
                t.file.as_ptr(),
                t.file.len(),
                t.places.as_ptr(),
                t.places.len(),
                t.lefts.as_ptr(),
                t.lefts.len(),
                t.rights.as_ptr(),
                t.rights.len(),
                t.area.as_ptr(),
                t.area.len(),
                self.n,
                codes.codes.as_ptr(),
                codes.codes.len(),
                others.codes.as_ptr(),
                others.codes.len(),
                out.as_mut_ptr(),
                out.len(),
            )
        }
    }

    /// Types a text of at most 4,096 bytes from length 0, after one check of the tables; the number of its codes.
    pub fn typed(&self, side: Side, text: &[u8], columns: &mut Columns) -> u32 {
        assert!(!text.is_empty() && text.len() <= 4096);
        let Columns { bytes, codes, counts } = columns;
        let (bytes, codes, last) = (bytes.as_mut_ptr(), codes.as_mut_ptr(), counts.as_mut_ptr());
        let (text_at, size) = (text.as_ptr(), text.len());
        let typed = over!(self.tables, measured_extend, side.number(), text_at, size, bytes, codes, last);
        assert_eq!(typed, Ok(size as u32));
        counts[size - 1]
    }

    /// At most 4,096 pieces of a text, whose interval tables are in form.
    pub fn pieces<'b>(&self, text: &'b [u8], i: Intervals<'b>, froms: Vec<u32>, tos: Vec<u32>) -> Answer<Pieces<'b>> {
        self.tables.interval_count(text, i, 0, 0, &mut vec![0; text.len()])?;
        assert!(froms.len() == tos.len() && froms.len() <= 4096);
        assert!(froms.iter().zip(&tos).all(|(from, to)| from <= to && *to as usize <= text.len()));
        Ok(Pieces { n: self.n, text, intervals: i, froms, tos })
    }

    /// The count of each piece.
    pub fn counts(&self, pieces: &Pieces, work: &mut [u32], out: &mut [u32]) {
        let Pieces { n, text, intervals: i, froms, tos } = pieces;
        assert!(*n <= self.n && text.len() <= work.len() && froms.len() <= out.len());
        let t = &self.tables;
        unsafe {
            ffi::measured_pieces(
                t.file.as_ptr(),
                t.file.len(),
                t.places.as_ptr(),
                t.places.len(),
                t.lefts.as_ptr(),
                t.lefts.len(),
                t.rights.as_ptr(),
                t.rights.len(),
                t.prefixes.as_ptr(),
                t.prefixes.len(),
                t.area.as_ptr(),
                t.area.len(),
                self.n,
                text.as_ptr(),
                text.len(),
                i.last_codes.as_ptr(),
                i.last_codes.len(),
                i.numbers.as_ptr(),
                i.numbers.len(),
                i.ends.as_ptr(),
                i.ends.len(),
                i.depths.as_ptr(),
                i.depths.len(),
                froms.as_ptr(),
                froms.len(),
                tos.as_ptr(),
                tos.len(),
                work.as_mut_ptr(),
                work.len(),
                out.as_mut_ptr(),
                out.len(),
            )
        }
    }
}
