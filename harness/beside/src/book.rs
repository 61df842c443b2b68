//! Typing and intervals of document 01, plain and slow, by the merge procedure.
use crate::model::Phrases;
use ours::intervals::Intervals;
use ours::typing::{Side, State};
use ours::Refusal;

/// The text of bytes in the order of typing.
pub fn in_order(side: Side, typed: &[u8]) -> Vec<u8> {
    match side {
        Side::Append => typed.to_vec(),
        Side::Prepend => typed.iter().rev().copied().collect(),
    }
}

/// The record of the last byte typed.
pub fn record(phrases: &Phrases, side: Side, typed: &[u8]) -> State {
    let codes = phrases.encode(&in_order(side, typed));
    let code = match side {
        Side::Append => codes[codes.len() - 1],
        Side::Prepend => codes[0],
    };
    State { byte: typed[typed.len() - 1], code, count: codes.len() as u32 }
}

/// The refusal of push (one byte) and extend: 9, 8, 12.
pub fn extend_refusal(len: usize, size: usize, more: usize, form: bool) -> Option<Refusal> {
    let (cause, place) = if more > 4096 {
        (9, 0)
    } else if !form {
        (8, 0)
    } else if len + more > size.min(4096) {
        (12, len)
    } else {
        return None;
    };
    Some(Refusal { cause, place: place as u32 })
}

/// Whether a head is in form.
pub fn head_in_form(len: usize, size: usize) -> bool {
    len <= size && len <= 4096
}

/// Whether records are in form, over tables that build left.
pub fn records_in_form(phrases: &mut Phrases, side: Side, states: &[State]) -> bool {
    (0..states.len()).all(|i| {
        let State { code, count, .. } = states[i];
        let Some(row) = phrases.rows.get(code as usize) else { return false };
        let Some(start) = (i + 1).checked_sub(row.len()) else { return false };
        let bytes: Vec<u8> = states[start..=i].iter().map(|s| s.byte).collect();
        if in_order(side, &bytes) != *row {
            return false;
        }
        if start == 0 {
            return count == 1;
        }
        let before = states[start - 1];
        let passes = match side {
            Side::Append => phrases.pass(before.code, code),
            Side::Prepend => phrases.pass(code, before.code),
        };
        passes && u64::from(count) == u64::from(before.count) + 1
    })
}

/// What preparation leaves.
pub struct Prepared {
    pub last_codes: Vec<u32>,
    pub numbers: Vec<u32>,
    pub ends: Vec<u32>,
    pub depths: Vec<u32>,
}

/// The last code of each prefix of a text but the empty one.
pub fn last_codes(phrases: &Phrases, text: &[u8]) -> Vec<u32> {
    (1..=text.len()).map(|size| *phrases.encode(&text[..size]).last().unwrap()).collect()
}

/// The tree of the prefixes, from their last codes.
pub fn prepared(phrases: &Phrases, last_codes: Vec<u32>) -> Prepared {
    let m = last_codes.len();
    let parent: Vec<usize> = last_codes.iter().enumerate().map(|(i, &code)| i + 1 - phrases.size(code)).collect();
    let mut children = vec![vec![]; m + 1];
    let mut depths = vec![0; m + 1];
    for i in 1..=m {
        children[parent[i - 1]].push(i);
        depths[i] = depths[parent[i - 1]] + 1;
    }
    let (mut numbers, mut ends) = (vec![0; m + 1], vec![0; m + 1]);
    number(&children, 0, 0, &mut numbers, &mut ends);
    Prepared { last_codes, numbers, ends, depths }
}

/// Numbers a prefix and all below it from a number on; the number after them.
fn number(children: &[Vec<usize>], prefix: usize, from: u32, numbers: &mut [u32], ends: &mut [u32]) -> u32 {
    numbers[prefix] = from;
    let mut next = from + 1;
    for &child in &children[prefix] {
        next = number(children, child, next, numbers, ends);
    }
    ends[prefix] = next;
    next
}

/// The refusal of preparation: 9, 7, 8. `sizes` are those of last codes, the three tree tables and work.
pub fn prepare_refusal(text: usize, sizes: [usize; 5], form: bool) -> Option<Refusal> {
    let needed = [text, text + 1, text + 1, text + 1, text];
    let cause = if text > 4096 {
        9
    } else if sizes.iter().zip(needed).any(|(&size, needed)| size < needed) {
        7
    } else if !form {
        8
    } else {
        return None;
    };
    Some(Refusal { cause, place: 0 })
}

/// Whether interval tables are in form for a text of so many bytes.
pub fn intervals_in_form(n: usize, text: usize, i: Intervals) -> bool {
    let trees = [i.numbers, i.ends, i.depths];
    i.last_codes.len() >= text
        && i.last_codes[..text].iter().all(|&code| (code as usize) < n)
        && trees.iter().all(|tree| tree.len() > text && tree[..=text].iter().all(|&entry| entry as usize <= text + 1))
}

/// The refusal of an interval count: 9, 7, 8, 11. `form`: of the dictionary's tables and the interval tables.
pub fn count_refusal(text: usize, work: usize, form: bool, start: usize, end: usize) -> Option<Refusal> {
    let cause = if text > 4096 {
        9
    } else if work < text {
        7
    } else if !form {
        8
    } else if start > end || end > text {
        11
    } else {
        return None;
    };
    Some(Refusal { cause, place: 0 })
}

#[cfg(test)]
mod tests {
    use super::*;
    use crate::files;

    /// P4 to P7 of document 01, on the model.
    #[test]
    fn samples() {
        let mut rows = files::bytes();
        rows.extend(["bc", "ab", "cd"].map(|row| row.as_bytes().to_vec()));
        let mut e = Phrases::new(&rows);
        for (side, typed) in [(Side::Append, b"abcd"), (Side::Prepend, b"dcba")] {
            let records: Vec<State> = (1..=4).map(|size| record(&e, side, &typed[..size])).collect();
            assert_eq!(records.iter().map(|r| r.count).collect::<Vec<u32>>(), [1, 1, 2, 3]);
            assert!(records_in_form(&mut e, side, &records));
        }
        assert_eq!(e.encode(b"bcd").len(), 2);
        assert_eq!(e.encode(b""), []);
        let tables = prepared(&e, last_codes(&e, b"abcd"));
        assert_eq!(tables.last_codes, [97, 257, 256, 100]);
        assert_eq!(tables.depths, [0, 1, 1, 2, 3]);
        assert_eq!((tables.numbers, tables.ends), (vec![0, 1, 4, 2, 3], vec![5, 4, 5, 4, 4]));
    }
}
