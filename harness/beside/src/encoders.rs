//! The five encoders, ours and the original's.
use original::byte_pair_encoding::BytePairEncoding;
use ours::{Answer, Tables};

/// Which codes an encoder sends.
#[derive(Clone, Copy)]
pub enum Sent {
    Merged,
    Shortest,
    Greedy,
}

pub struct Encoder {
    pub name: &'static str,
    pub sent: Sent,
    pub ours: fn(&Tables, &[u8], &mut [u32], &mut [u32]) -> Answer<u32>,
    pub rust: fn(&BytePairEncoding, &[u8]) -> Vec<u32>,
}

pub const ENCODERS: [Encoder; 5] = [
    Encoder {
        name: "encode_via_bitfield",
        sent: Sent::Merged,
        ours: |tables, text, out, work| tables.encode_via_bitfield(text, out, work),
        rust: BytePairEncoding::encode_via_bitfield,
    },
    Encoder {
        name: "encode_via_backtracking",
        sent: Sent::Merged,
        ours: |tables, text, out, work| tables.encode_via_backtracking(text, out, work),
        rust: BytePairEncoding::encode_via_backtracking,
    },
    Encoder {
        name: "encode_via_table",
        sent: Sent::Merged,
        ours: |tables, text, out, work| tables.encode_via_table(text, out, work),
        rust: BytePairEncoding::encode_via_table,
    },
    Encoder {
        name: "encode_minimal",
        sent: Sent::Shortest,
        ours: |tables, text, out, work| tables.encode_minimal(text, out, work),
        rust: BytePairEncoding::encode_minimal,
    },
    Encoder {
        name: "encode_greedy",
        sent: Sent::Greedy,
        ours: |tables, text, out, work| tables.encode_greedy(text, out, work),
        rust: BytePairEncoding::encode_greedy,
    },
];
