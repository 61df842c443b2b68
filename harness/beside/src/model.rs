//! A model of document 01 with the requests of document 02 that have landed (1), plain and slow, that knows neither the
//! original nor our code. Parts and pairs are told by the merge procedure: the parts of a row are the two rows that
//! merging its bytes over the rows before it leaves, and two rows pass if merging their bytes leaves these two.
use ours::{Refusal, AREA, NONE};
use std::collections::{HashMap, HashSet};
use std::hash::Hash;

pub fn hash(bytes: &[u8], factor: u64) -> u32 {
    let mut hash: u64 = 0xcbf29ce484222325;
    for octet in (bytes.len() as u64).to_le_bytes().iter().chain(bytes) {
        hash = (hash ^ u64::from(*octet)).wrapping_mul(0x100000001b3);
    }
    (hash.wrapping_mul(factor) >> 32) as u32
}

fn refused<T>(cause: u32, place: usize) -> Result<T, Refusal> {
    Err(Refusal { cause, place: place as u32 })
}

/// The rows of a file, or refusal 2.
pub fn parse(file: &[u8]) -> Result<Vec<Vec<u8>>, Refusal> {
    if file.len() > 65536 {
        return refused(2, 65536);
    }
    let mut rows = vec![];
    let mut at = 0;
    while at < file.len() {
        let rest = &file[at..];
        let good = rest.len() >= 3
            && rest[..2] == [0xc7, 0x51]
            && (1..=64).contains(&rest[2])
            && rest.len() >= 3 + rest[2] as usize;
        if !good {
            return refused(2, at);
        }
        let size = rest[2] as usize;
        rows.push(rest[3..3 + size].to_vec());
        at += 3 + size;
    }
    Ok(rows)
}

/// The rows of a file that passes 2 to 4.
pub fn check(file: &[u8]) -> Result<Vec<Vec<u8>>, Refusal> {
    let rows = parse(file)?;
    if rows.len() < 256 || rows.len() > 4096 {
        return refused(3, rows.len());
    }
    let mut alone = [false; 256];
    rows.iter().filter(|row| row.len() == 1).for_each(|row| alone[row[0] as usize] = true);
    if let Some(byte) = alone.iter().position(|&row| !row) {
        return refused(4, byte);
    }
    Ok(rows)
}

/// Merging: the neighbours whose joined bytes are the lowest row below the limit, the leftmost first, until there are none.
pub fn merge(numbers: &HashMap<Vec<u8>, u32>, limit: u32, text: &[u8]) -> Vec<Vec<u8>> {
    let join = |left: &[u8], right: &[u8]| numbers.get(&[left, right].concat()).copied().filter(|&row| row < limit);
    let mut pieces: Vec<Vec<u8>> = text.iter().map(|&c| vec![c]).collect();
    let mut joins: Vec<Option<u32>> = pieces.windows(2).map(|p| join(&p[0], &p[1])).collect();
    loop {
        let best = joins.iter().enumerate().filter_map(|(i, row)| row.map(|row| (row, i))).min();
        let Some((_, i)) = best else { return pieces };
        let right = pieces.remove(i + 1);
        pieces[i].extend(right);
        joins.remove(i);
        if i > 0 {
            joins[i - 1] = join(&pieces[i - 1], &pieces[i]);
        }
        if i < joins.len() {
            joins[i] = join(&pieces[i], &pieces[i + 1]);
        }
    }
}

/// The row of each bytes; the first where there are several.
pub fn numbers(rows: &[Vec<u8>]) -> HashMap<Vec<u8>, u32> {
    let mut numbers = HashMap::new();
    for (i, row) in rows.iter().enumerate() {
        numbers.entry(row.clone()).or_insert(i as u32);
    }
    numbers
}

/// What an accepting build leaves in the tables.
#[derive(Clone, PartialEq, Eq, Debug)]
pub struct Tables {
    pub places: Vec<u32>,
    pub lefts: Vec<u32>,
    pub rights: Vec<u32>,
    pub prefixes: Vec<u32>,
}

/// The sizes of the lent buffers: the four tables, then the area.
pub type Sizes = [usize; 5];

/// The lowest number of a thing that also stands before it.
fn first_again<T: Eq + Hash>(mut things: impl Iterator<Item = T>) -> Option<usize> {
    let mut seen = HashSet::new();
    things.position(|thing| !seen.insert(thing))
}

/// Whether a refusal of build leaves none in the tables and the area.
pub fn clears(cause: u32) -> bool {
    matches!(cause, 5 | 6 | 13)
}

/// The answer of build, with the tables if it accepts.
pub fn build(file: &[u8], factor: u64, sizes: Sizes) -> Result<Tables, Refusal> {
    if factor == 0 {
        return refused(1, 0);
    }
    let rows = check(file)?;
    if sizes[..4].iter().any(|&size| size < rows.len()) || sizes[4] < AREA {
        return refused(7, 0);
    }
    if let Some(row) = first_again(rows.iter()) {
        return refused(5, row);
    }
    // No two rows are equal: rows with one hash have different bytes.
    if let Some(row) = first_again(rows.iter().map(|row| hash(row, factor))) {
        return refused(13, row);
    }
    let numbers = numbers(&rows);
    let mut tables = Tables { places: vec![], lefts: vec![], rights: vec![], prefixes: vec![] };
    let mut place = 0;
    for (i, row) in rows.iter().enumerate() {
        tables.places.push(place);
        place += 3 + row.len() as u32;
        let prefix = (1..row.len()).rev().find_map(|size| numbers.get(&row[..size]));
        tables.prefixes.push(prefix.copied().unwrap_or(NONE));
        if row.len() == 1 {
            tables.lefts.push(i as u32);
            tables.rights.push(i as u32);
            continue;
        }
        let pieces = merge(&numbers, i as u32, row);
        let below: Vec<u32> = pieces.iter().filter_map(|p| numbers.get(p).copied()).filter(|&p| p < i as u32).collect();
        if pieces.len() != 2 || below.len() != 2 {
            return refused(6, i);
        }
        tables.lefts.push(below[0]);
        tables.rights.push(below[1]);
    }
    Ok(tables)
}

/// Whether two rows pass the pair check.
pub fn passes(numbers: &HashMap<Vec<u8>, u32>, left: &[u8], right: &[u8]) -> bool {
    merge(numbers, NONE, &[left, right].concat()) == [left, right]
}

/// The refusal of an encoder or a count: 9, 7, 8.
pub fn send_refusal(text: usize, buffers: &[usize], form: bool) -> Option<Refusal> {
    let cause = if text > 4096 {
        9
    } else if buffers.iter().any(|&size| size < text) {
        7
    } else if !form {
        8
    } else {
        return None;
    };
    Some(Refusal { cause, place: 0 })
}

/// The refusal of decoding: 9, 8, 10, 7.
pub fn decode_refusal(rows: &[Vec<u8>], codes: &[u32], out: usize, form: bool) -> Option<Refusal> {
    let (cause, place) = if codes.len() > 4096 {
        (9, 0)
    } else if !form {
        (8, 0)
    } else if let Some(at) = codes.iter().position(|&c| c as usize >= rows.len()) {
        (10, at)
    } else if out < spelled(rows, codes).len() {
        (7, 0)
    } else {
        return None;
    };
    Some(Refusal { cause, place: place as u32 })
}

/// The bytes that codes spell.
pub fn spelled(rows: &[Vec<u8>], codes: &[u32]) -> Vec<u8> {
    codes.iter().flat_map(|&c| rows[c as usize].iter().copied()).collect()
}

/// The rows of an accepted file, for the calls on a text.
pub struct Phrases {
    pub rows: Vec<Vec<u8>>,
    numbers: HashMap<Vec<u8>, u32>,
    longest: usize,
    /// The pairs that were asked for.
    passed: HashMap<(u32, u32), bool>,
}

impl Phrases {
    pub fn new(rows: &[Vec<u8>]) -> Self {
        Phrases {
            rows: rows.to_vec(),
            numbers: numbers(rows),
            longest: rows.iter().map(Vec::len).max().unwrap_or(0),
            passed: HashMap::new(),
        }
    }

    /// The codes of the merge procedure.
    pub fn encode(&self, text: &[u8]) -> Vec<u32> {
        merge(&self.numbers, NONE, text).iter().map(|piece| self.numbers[piece]).collect()
    }

    /// The rows that begin a text, longest first.
    fn beginning<'a>(&'a self, text: &'a [u8]) -> impl Iterator<Item = u32> + 'a {
        (1..=self.longest.min(text.len())).rev().filter_map(|size| self.numbers.get(&text[..size]).copied())
    }

    pub fn size(&self, code: u32) -> usize {
        self.rows[code as usize].len()
    }

    /// The longest row at each place.
    pub fn greedy(&self, text: &[u8]) -> Vec<u32> {
        let mut codes = vec![];
        let mut at = 0;
        while at < text.len() {
            let code = self.beginning(&text[at..]).next().unwrap();
            codes.push(code);
            at += self.size(code);
        }
        codes
    }

    /// The fewest codes; among those the longest first row, then the longest second, and so on.
    pub fn shortest(&self, text: &[u8]) -> Vec<u32> {
        let mut fewest = vec![0; text.len() + 1];
        for at in (0..text.len()).rev() {
            fewest[at] = self.beginning(&text[at..]).map(|c| 1 + fewest[at + self.size(c)]).min().unwrap();
        }
        let mut codes = vec![];
        let mut at = 0;
        while at < text.len() {
            let good = |&c: &u32| fewest[at] == 1 + fewest[at + self.size(c)];
            let code = self.beginning(&text[at..]).find(good).unwrap();
            codes.push(code);
            at += self.size(code);
        }
        codes
    }

    /// Whether two rows pass, asked once.
    pub fn pass(&mut self, left: u32, right: u32) -> bool {
        let (rows, numbers) = (&self.rows, &self.numbers);
        *self
            .passed
            .entry((left, right))
            .or_insert_with(|| passes(numbers, &rows[left as usize], &rows[right as usize]))
    }

    /// Backtracking: the number of codes after each step.
    pub fn running(&mut self, text: &[u8]) -> Vec<usize> {
        let mut dead = vec![false; text.len() + 1];
        let mut codes: Vec<u32> = vec![];
        let mut counts = vec![];
        let mut at = 0;
        while at < text.len() {
            let rows: Vec<u32> = self.beginning(&text[at..]).collect();
            let last = codes.last().copied();
            let good = |&c: &u32| !dead[at + self.size(c)] && last.map_or(true, |last| self.pass(last, c));
            match rows.into_iter().find(good) {
                Some(code) => {
                    codes.push(code);
                    at += self.size(code);
                }
                None => {
                    dead[at] = true;
                    at -= self.size(codes.pop().unwrap());
                }
            }
            counts.push(codes.len());
        }
        counts
    }
}

/// The count of codes, or nothing for "over".
pub fn limited(count: usize, limit: u64) -> Option<u32> {
    (count as u64 <= limit).then_some(count as u32)
}

/// Whether tables are in form.
pub fn in_form(t: &ours::Tables) -> bool {
    let Ok(rows) = check(t.file) else { return false };
    let n = rows.len();
    let large = [t.places, t.lefts, t.rights, t.prefixes].iter().all(|table| table.len() >= n);
    if !large || t.area.len() < AREA {
        return false;
    }
    let mut place = 0;
    for (i, row) in rows.iter().enumerate() {
        let (left, right, prefix) = (t.lefts[i] as usize, t.rights[i] as usize, t.prefixes[i]);
        let shorter = prefix == NONE || ((prefix as usize) < n && rows[prefix as usize].len() < row.len());
        let alone = left == i && right == i && row.len() == 1;
        let lower = left < i && right < i && rows[left].len() + rows[right].len() == row.len();
        if t.places[i] != place || !shorter || !(alone || lower) {
            return false;
        }
        place += 3 + row.len() as u32;
    }
    true
}

#[cfg(test)]
mod tests {
    use super::*;
    use crate::files;

    fn built(rows: &[Vec<u8>]) -> Result<Tables, Refusal> {
        build(&files::file_of(rows), 1, [4096, 4096, 4096, 4096, AREA])
    }

    /// The samples of document 01, on the model.
    #[test]
    fn samples() {
        let e = files::with(&["bc", "ab", "cd"]);
        assert!(built(&e).is_ok());
        assert_eq!(merge(&numbers(&e), NONE, b"abcd"), [&b"a"[..], b"bc", b"d"]);
        let f = files::with(&["aa"]);
        assert!(built(&f).is_ok());
        assert_eq!(merge(&numbers(&f), NONE, b"aaa"), [&b"aa"[..], b"a"]);
        assert!(!passes(&numbers(&f), b"a", b"aa"));
        assert!(passes(&numbers(&f), b"aa", b"a"));
        assert_eq!(built(&files::g()), refused(6, 0));
    }

    /// Document 02, ticket 1: 5 is told of equal rows under any factor, 13 of a clash where no two rows are equal.
    #[test]
    fn equal_rows_and_clashes() {
        let cause = |rows: &[Vec<u8>], factor| {
            build(&files::file_of(rows), factor, [4096, 4096, 4096, 4096, AREA]).err().map(|r| (r.cause, r.place))
        };
        let twice = files::with(&["ab", "ab"]);
        assert_eq!([cause(&twice, 1), cause(&twice, 2)], [Some((5, 257)); 2]);
        assert_eq!([cause(&files::clash(), 1), cause(&files::clash(), 2)], [Some((13, 264)), None]);
        let both = [files::clash(), vec![b"cu".to_vec()]].concat();
        assert_eq!(cause(&both, 1), Some((5, 265)));
        // The original fails one assertion for both.
        assert!(original::build(twice, 1).is_err() && original::build(files::clash(), 1).is_err());
        assert!(original::build(files::clash(), 2).is_ok());
    }

    /// The samples on texts, and one at which the original's guess is wrong.
    #[test]
    fn samples_on_texts() {
        let mut e = Phrases::new(&files::with(&["bc", "ab", "cd"]));
        assert_eq!(e.encode(b"abcd"), [97, 256, 100]);
        assert_eq!(e.shortest(b"abcd"), [257, 258]);
        assert_eq!(e.greedy(b"abcd"), [257, 258]);
        assert_eq!(e.running(b"abcd").last(), Some(&3));
        assert_eq!(Phrases::new(&files::with(&["aa"])).encode(b"aaa"), [256, 97]);
        let text = [b"a", &[b'b'; 13][..], b"c"].concat();
        let rows = files::backtracking(13);
        let running = Phrases::new(&rows).running(&text);
        assert_eq!((running.iter().max(), running.last()), (Some(&13), Some(&2)));
        assert_eq!([1, 2, 3].map(|limit| limited(2, limit)), [None, Some(2), Some(2)]);
        let rust = original::build(rows, 1).unwrap();
        assert_eq!([1, 2, 3].map(|limit| rust.count_till_limit(&text, limit)), [None, None, Some(2)]);
        // No constant would do: the text of neighbours that differ.
        let (rows, text) = (files::neighbours(), files::neighbours_text());
        assert_eq!((rows.len(), files::file_of(&rows).len()), (4056, 30344));
        assert!(built(&rows).is_ok());
        let running = Phrases::new(&rows).running(&text);
        assert_eq!((running.iter().max(), running.last()), (Some(&1280), Some(&41)));
    }

    /// What document 01 says of the original on G.
    #[test]
    fn original_on_g() {
        let rust = original::build(files::g(), 1).unwrap();
        assert_eq!(rust.encode_via_table(b"abcd"), [98, 258]);
        assert_eq!(rust.encode_via_backtracking(b"abcd"), [0, 100, 101]);
    }

    /// Published vectors of FNV-1a with 64 bits: of nothing, "a" and "foobar". The row's hash puts the length in front.
    #[test]
    fn row_hash() {
        use std::hash::Hasher;
        let fnv = |bytes: &[u8]| {
            let mut hasher = fnv::FnvHasher::default();
            hasher.write(bytes);
            hasher.finish()
        };
        assert_eq!(fnv(b""), 0xcbf29ce484222325);
        assert_eq!(fnv(b"a"), 0xaf63dc4c8601ec8c);
        assert_eq!(fnv(b"foobar"), 0x85944171f73967e8);
        let row = b"\x06\0\0\0\0\0\0\0foobar";
        assert_eq!(hash(b"foobar", 1), (fnv(row) >> 32) as u32);
        assert_eq!(hash(b"foobar", 1), original::byte_pair_encoding::probe_hash(b"foobar", 1));
    }

    /// What the original multiplies by the factor, in halves: with 1 the upper one is left, with 2^32 the lower one. Of
    /// the rows that `edges` cuts.
    #[test]
    fn row_value() {
        let half = |row: &[u8], factor| u64::from(original::byte_pair_encoding::probe_hash(row, factor));
        let value = |row: &[u8]| half(row, 1) << 32 | half(row, 1 << 32);
        assert_eq!(value(b"ab"), 0x9c6001d328a94690);
        assert_eq!(value(&b"0123456789abcdef".repeat(4)), 0x41883489e5e66325);
    }
}
