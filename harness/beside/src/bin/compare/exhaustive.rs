//! All small files: every list of a few longer rows over two or three letters in every order, with the letters in front or anywhere
//! among them, each with all short texts. From small to large, so that the first difference is the smallest.
use crate::texts::Sides;
use crate::{compare_build, worth, Built, Job, Seen};
use beside::cases::Case;
use beside::encoders::{Encoder, Sent, ENCODERS};
use beside::files;
use beside::lent::Lent;
use beside::model;
use beside::random::Random;
use beside::text;
use std::rc::Rc;

/// Where the bytes stand: all in front of the longer rows, all in one piece anywhere among them, or the letters singly anywhere among them and
/// the other bytes in front.
#[derive(Clone, Copy)]
enum Bytes {
    Front,
    Piece,
    Letters,
}

/// A kind of files: over so many letters, the longest row, the most longer rows, where the bytes stand, and the longest text.
struct Kind {
    letters: usize,
    longest: usize,
    most: usize,
    bytes: Bytes,
    text: usize,
}

const KINDS: [Kind; 6] = [
    Kind { letters: 2, longest: 3, most: 3, bytes: Bytes::Piece, text: 7 },
    Kind { letters: 2, longest: 3, most: 4, bytes: Bytes::Front, text: 8 },
    Kind { letters: 2, longest: 4, most: 3, bytes: Bytes::Front, text: 8 },
    Kind { letters: 2, longest: 3, most: 3, bytes: Bytes::Letters, text: 7 },
    Kind { letters: 3, longest: 3, most: 3, bytes: Bytes::Front, text: 5 },
    Kind { letters: 3, longest: 3, most: 2, bytes: Bytes::Letters, text: 5 },
];

/// All orders of the first `late` items and `count` of the others.
fn orders(late: usize, items: usize, count: usize, front: &mut Vec<u8>, all: &mut Vec<Vec<u8>>) {
    if front.len() == late + count {
        all.push(front.clone());
        return;
    }
    let others = front.iter().filter(|&&i| i as usize >= late).count();
    for item in 0..items as u8 {
        if !front.contains(&item) && ((item as usize) < late || others < count) {
            front.push(item);
            orders(late, items, count, front, all);
            front.pop();
        }
    }
}

/// The files of a kind: the rows in front, then items in each of the orders. An item is one row, or all bytes.
struct Cases {
    front: Vec<Vec<u8>>,
    items: Vec<Vec<Vec<u8>>>,
    orders: Vec<Vec<u8>>,
    texts: Vec<Vec<u8>>,
}

impl Cases {
    fn new(kind: &Kind) -> Self {
        let alphabet = &b"abc"[..kind.letters];
        let (letters, others): (Vec<_>, Vec<_>) =
            files::bytes().into_iter().partition(|row| alphabet.contains(&row[0]));
        let (front, late) = match kind.bytes {
            Bytes::Front => (files::bytes(), vec![]),
            Bytes::Piece => (vec![], vec![files::bytes()]),
            Bytes::Letters => (others, letters.into_iter().map(|row| vec![row]).collect()),
        };
        let longer = text::all(alphabet, kind.longest).into_iter().filter(|row| row.len() > 1);
        let items: Vec<_> = late.iter().cloned().chain(longer.map(|row| vec![row])).collect();
        let mut all = vec![];
        for count in 0..=kind.most {
            orders(late.len(), items.len(), count, &mut vec![], &mut all);
        }
        Cases { front, items, orders: all, texts: text::all(alphabet, kind.text) }
    }

    fn case(&self, at: usize) -> Case {
        let mut rows = self.front.clone();
        rows.extend(self.orders[at].iter().flat_map(|&i| self.items[i as usize].clone()));
        Case { seed: 0, rows, damage: None, factor: 1, spare: [0; 5] }
    }
}

/// Buffers to lend for texts of each length: exactly as large as needed.
struct Room(Vec<[Lent; 2]>, Vec<Lent<u8>>);

impl Room {
    fn new(longest: usize) -> Self {
        let mut random = Random::new(1);
        Room(
            (0..=longest).map(|size| [Lent::new(&mut random, size), Lent::new(&mut random, size)]).collect(),
            (0..=longest).map(|size| Lent::new(&mut random, size)).collect(),
        )
    }
}

/// Calls are counted once for a file.
#[derive(Default)]
struct Calls {
    encoders: u64,
    counts: u64,
    limits: u64,
    decodings: u64,
}

fn compare_text(sides: &mut Sides, text: &[u8], room: &mut Room, calls: &mut Calls) -> Result<(), String> {
    let wanted = sides.wanted(text);
    let [out, work] = &mut room.0[text.len()];
    for Encoder { name, sent, ours, rust } in &ENCODERS {
        let answer = ours(&sides.tables, text, out.part(), work.part());
        let codes = wanted.codes(*sent);
        same!(rust(sides.rust, text)[..], codes[..], "the original's {name}");
        same!(answer, Ok(codes.len() as u32), "{name}");
        same!(out.get()[..codes.len()], codes[..], "{name}, the codes");
        same!(out.kept_from(codes.len()) && work.kept_from(text.len()), true, "{name}: the buffers beyond");
        out.restore();
        work.restore();
    }
    calls.encoders += ENCODERS.len() as u64;
    let codes = wanted.codes(Sent::Merged);
    same!(sides.tables.count(text, work.part()), Ok(codes.len() as u32), "count");
    same!(sides.rust.count(text), codes.len(), "the original's count");
    same!(work.kept_from(text.len()), true, "count: the buffer beyond");
    calls.counts += 1;
    for limit in codes.len().saturating_sub(1) as u64..=codes.len() as u64 {
        work.restore();
        let told = model::limited(codes.len(), limit);
        same!(sides.tables.count_till_limit(text, limit, work.part()), Ok(told), "count_till_limit {limit}");
        same!(work.kept_from(text.len()), true, "count_till_limit: the buffer beyond");
        calls.limits += 1;
    }
    work.restore();
    let bytes = &mut room.1[text.len()];
    same!(sides.tables.decode_tokens(codes, bytes.part()), Ok(text.len() as u32), "decode_tokens");
    same!(bytes.get(), text, "decode_tokens, the bytes");
    same!(bytes.edges_kept(), true, "decode_tokens: beyond the buffer");
    bytes.restore();
    calls.decodings += 1;
    Ok(())
}

/// All pairs of the rows that matter.
fn compare_pairs(rows: &[Vec<u8>], sides: &mut Sides, seen: &mut Seen) -> Result<(), String> {
    let worth = worth(rows);
    for &x in &worth {
        for &y in &worth {
            let passes = sides.tables.is_valid_token_pair(x, y);
            same!(passes, Ok(sides.passes(x, y)), "pair {x} {y}, the model");
            same!(passes, Ok(sides.rust.probe_pair(x, y)), "pair {x} {y}, the original");
        }
    }
    seen.add("pair checks", (worth.len() * worth.len()) as u64);
    Ok(())
}

fn compare(case: &Case, texts: &[Vec<u8>], seen: &mut Seen) -> Result<(), String> {
    let Some(Built { file, buffer, rows, rust }) = compare_build(case, &mut Random::new(1), seen)? else {
        return Ok(());
    };
    let before = buffer.clone();
    let mut sides = Sides::new(&rows, buffer.tables(&file), &rust);
    compare_pairs(&rows, &mut sides, seen)?;
    let mut calls = Calls::default();
    let mut room = Room::new(texts.iter().map(Vec::len).max().unwrap_or(0));
    for text in texts {
        let failed = |failure| format!("text \"{}\": {failure}", text.escape_ascii());
        compare_text(&mut sides, text, &mut room, &mut calls).map_err(failed)?;
    }
    seen.encodings += calls.encoders;
    seen.add("encoders", calls.encoders);
    seen.add("counts", calls.counts);
    seen.add("limits", calls.limits);
    seen.add("decodings", calls.decodings);
    seen.add("texts", texts.len() as u64);
    same!(buffer == before, true, "the tables after the calls are those before");
    Ok(())
}

/// The comparisons, one for each file, and how many.
pub fn all() -> (usize, impl Iterator<Item = Job>) {
    let kinds: Vec<Rc<Cases>> = KINDS.iter().map(|kind| Rc::new(Cases::new(kind))).collect();
    let size = kinds.iter().map(|cases| cases.orders.len()).sum();
    let each = kinds.into_iter().flat_map(|cases| {
        (0..cases.orders.len()).map(move |at| {
            let cases = cases.clone();
            let job: Job = Box::new(move |seen| {
                let case = cases.case(at);
                let failed = |failure| format!("{failure}\nsmallest: {}", case.shown());
                compare(&case, &cases.texts, seen).map_err(failed)
            });
            job
        })
    });
    (size, each)
}
