//! Phrase files.
use crate::random::Random;
use crate::text::Language;
use crate::train;

/// The file form of document 01: per row a mark, a length byte and the bytes.
pub fn file_of(rows: &[Vec<u8>]) -> Vec<u8> {
    let mut file = vec![];
    for row in rows {
        file.extend([0xc7, 0x51, row.len() as u8]);
        file.extend(row);
    }
    file
}

/// B of document 01: the 256 bytes in order.
pub fn bytes() -> Vec<Vec<u8>> {
    (0..=255).map(|c| vec![c]).collect()
}

/// B and these rows.
pub fn with(longer: &[&str]) -> Vec<Vec<u8>> {
    let mut rows = bytes();
    rows.extend(longer.iter().map(|row| row.as_bytes().to_vec()));
    rows
}

/// G of document 01: "ab", then B, "bc", "bcd".
pub fn g() -> Vec<Vec<u8>> {
    let mut rows = with(&["bc", "bcd"]);
    rows.insert(0, b"ab".to_vec());
    rows
}

/// B and rows of which "curulo" (row 260) and "dacuba" (row 264) have one hash under factor 1, but not under 2.
pub fn clash() -> Vec<Vec<u8>> {
    with(&["cu", "ru", "lo", "curu", "curulo", "da", "ba", "dacu", "dacuba"])
}

/// The grid file: B, "00" to "99", "000" to "999".
pub fn grid() -> Vec<Vec<u8>> {
    let mut rows = bytes();
    rows.extend((0..100).map(|k| format!("{k:02}").into_bytes()));
    rows.extend((0..1000).map(|k| format!("{k:03}").into_bytes()));
    rows
}

/// The file that backtracks most: B, "bc", "bbc" and so on up to so many b, then "ab".
pub fn backtracking(most: usize) -> Vec<Vec<u8>> {
    let mut rows = bytes();
    rows.extend((1..=most).map(|k| [&vec![b'b'; k][..], b"c"].concat()));
    rows.push(b"ab".to_vec());
    rows
}

/// 2,561 bytes of 51 letters, of which no two neighbours stand beside each other a second time: the words of one and
/// of two letters in the order of a dictionary, as in a sequence of de Bruijn.
pub fn neighbours_text() -> Vec<u8> {
    let mut text = vec![];
    for first in b'A'..b'A' + 51 {
        text.push(first);
        text.extend((first + 1..b'A' + 51).flat_map(|second| [first, second]));
    }
    text.truncate(2561);
    text
}

/// B, all neighbours of that text, the last ones lowest, and those from its second byte on joined on to rows of 64
/// bytes: on the way to the text's 41 codes there are 1,280.
pub fn neighbours() -> Vec<Vec<u8>> {
    let text = neighbours_text();
    let mut rows = bytes();
    rows.extend(text.windows(2).rev().map(|pair| pair.to_vec()));
    for size in [4, 8, 16, 32, 64] {
        rows.extend(text[1..].chunks(size).map(|piece| piece.to_vec()));
    }
    rows
}

/// B, then one byte repeated 2 times, 3 times and so on.
pub fn repeated(most: usize) -> Vec<Vec<u8>> {
    let mut rows = bytes();
    rows.extend((2..=most).map(|k| vec![b'a'; k]));
    rows
}

/// A file of so many rows, trained on a text that looks like English.
pub fn trained(language: &Language, size: usize) -> Vec<Vec<u8>> {
    let rows = train::rows(&language.text(1, 600_000), size, 64);
    assert_eq!(rows.len(), size, "the training text is too short");
    rows
}

/// A factor with which no two rows have one hash.
pub fn factor_for(rows: &[Vec<u8>], seed: u64) -> u64 {
    let mut random = Random::new(seed);
    loop {
        let factor = random.word() | 1;
        let mut hashes: Vec<u32> = rows.iter().map(|row| crate::model::hash(row, factor)).collect();
        hashes.sort();
        if hashes.windows(2).all(|h| h[0] != h[1]) {
            return factor;
        }
    }
}
