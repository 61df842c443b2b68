//! A small trainer of byte pair encodings (Sennrich et al. 2016): the 256 bytes, then again and again the most common
//! pair of neighbours, within words.
use std::collections::{HashMap, HashSet};

/// The text's words, each with the space in front of it, and how often each occurs.
fn words(text: &[u8]) -> Vec<(Vec<u32>, i64)> {
    let mut counts: HashMap<&[u8], i64> = HashMap::new();
    let letter = |c: u8| c.is_ascii_alphabetic() || c >= 128;
    let mut at = 0;
    while at < text.len() {
        let start = at;
        at += 1;
        if text[start] == b' ' && at < text.len() {
            at += 1;
        }
        let kind = |c: u8| (letter(c), c.is_ascii_digit(), c == b' ');
        while at < text.len() && text[at] != b' ' && kind(text[at]) == kind(text[at - 1]) {
            at += 1;
        }
        *counts.entry(&text[start..at]).or_default() += 1;
    }
    let mut words: Vec<(Vec<u32>, i64)> =
        counts.into_iter().map(|(word, count)| (word.iter().map(|&c| u32::from(c)).collect(), count)).collect();
    words.sort();
    words
}

/// The rows, as many as asked for, none over `longest` bytes; fewer where the text has no more pairs.
pub fn rows(text: &[u8], size: usize, longest: usize) -> Vec<Vec<u8>> {
    let mut rows: Vec<Vec<u8>> = (0..=255).map(|c| vec![c]).collect();
    let mut known: HashSet<Vec<u8>> = rows.iter().cloned().collect();
    let mut words = words(text);
    let mut counts: HashMap<(u32, u32), i64> = HashMap::new();
    let mut holders: HashMap<(u32, u32), HashSet<usize>> = HashMap::new();
    for (i, (word, count)) in words.iter().enumerate() {
        for pair in word.windows(2) {
            *counts.entry((pair[0], pair[1])).or_default() += count;
            holders.entry((pair[0], pair[1])).or_default().insert(i);
        }
    }
    while rows.len() < size {
        let best = counts
            .iter()
            .filter(|(pair, &count)| count > 0 && rows[pair.0 as usize].len() + rows[pair.1 as usize].len() <= longest)
            .max_by_key(|(&pair, &count)| (count, std::cmp::Reverse(pair)));
        let Some((&best, _)) = best else { break };
        let joined = [&rows[best.0 as usize][..], &rows[best.1 as usize][..]].concat();
        assert!(known.insert(joined.clone()), "one row from two pairs");
        let row = rows.len() as u32;
        rows.push(joined);
        for i in holders.remove(&best).unwrap_or_default() {
            let (word, count) = &mut words[i];
            for pair in word.windows(2) {
                *counts.get_mut(&(pair[0], pair[1])).unwrap() -= *count;
            }
            let mut merged = Vec::with_capacity(word.len());
            let mut at = 0;
            while at < word.len() {
                if at + 1 < word.len() && (word[at], word[at + 1]) == best {
                    merged.push(row);
                    at += 2;
                } else {
                    merged.push(word[at]);
                    at += 1;
                }
            }
            *word = merged;
            for pair in word.windows(2) {
                *counts.entry((pair[0], pair[1])).or_default() += *count;
                holders.entry((pair[0], pair[1])).or_default().insert(i);
            }
        }
        counts.remove(&best);
    }
    rows
}
