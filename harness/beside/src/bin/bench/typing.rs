//! Typing and intervals.
use super::{total, Call, Sheet, LOOKUPS};
use beside::random::Random;
use original::appendable_encoder::AppendableEncoder;
use original::interval_encoding::IntervalEncoding;
use original::prependable_encoder::PrependableEncoder;
use ours::intervals::{IntervalBuffers, Intervals};
use ours::measured::{Checked, Columns};
use ours::typing::{Head, Side, State};

/// Numbers of records of a public push, that of the byte pushed included.
const RECORDS: [usize; 3] = [100, 1000, 4096];
/// Public counts in one run.
const COUNTS: usize = 64;

/// The four tables of a prepared text.
struct Prepared([Vec<u32>; 4]);

impl Prepared {
    fn new(sheet: &Sheet, text: &[u8]) -> Self {
        let size = text.len();
        let mut tables = [size, size + 1, size + 1, size + 1].map(|size| vec![0; size]);
        let [last_codes, numbers, ends, depths] = &mut tables;
        let buffers = IntervalBuffers { last_codes, numbers, ends, depths };
        let answer = sheet.tables().interval_prepare(text, buffers, &mut vec![0; size]);
        assert_eq!(answer, Ok(size as u32));
        Prepared(tables)
    }

    fn get(&self) -> Intervals<'_> {
        let [last_codes, numbers, ends, depths] = &self.0;
        Intervals { last_codes, numbers, ends, depths }
    }
}

/// The typing of a whole text, a byte, by each side's core.
fn typed<'a>(sheet: &'a Sheet, text: &'a [u8]) -> [Call<'a>; 2] {
    let rust = &sheet.rust;
    let of = |side: Side, name: &str| {
        let checked = Checked::new(sheet.tables()).unwrap();
        let mut columns = Box::new(Columns::new());
        let ours = move || u64::from(checked.typed(side, text, &mut columns));
        Call::new(name).text(text.len()).run(text.len(), 1).core().ours(ours)
    };
    [
        of(Side::Append, "append push, a byte").rust(move || {
            let mut typed = AppendableEncoder::new(rust);
            text.iter().for_each(|&byte| typed.push(byte));
            typed.token_count() as u64
        }),
        of(Side::Prepend, "prepend push, a byte").rust(move || {
            let mut typed = PrependableEncoder::new(rust);
            text.iter().for_each(|&byte| typed.push(byte));
            typed.token_count() as u64
        }),
    ]
}

/// Preparation, and counts of random pieces.
fn intervals<'a>(sheet: &'a Sheet, text: &'a [u8]) -> [Call<'a>; 3] {
    let rust = &sheet.rust;
    let tables = sheet.tables();
    let size = text.len();
    let mut random = Random::new(10);
    let mut froms: Vec<u32> = (0..LOOKUPS).map(|_| random.below(size + 1) as u32).collect();
    let mut tos: Vec<u32> = (0..LOOKUPS).map(|_| random.below(size + 1) as u32).collect();
    for (from, to) in froms.iter_mut().zip(&mut tos) {
        (*from, *to) = (*from.min(to), *from.max(to));
    }
    let pieces: Vec<(usize, usize)> = froms.iter().zip(&tos).map(|(&from, &to)| (from as usize, to as usize)).collect();
    let few = pieces[..COUNTS].to_vec();
    let again = few.clone();
    let theirs = IntervalEncoding::new(rust, text);
    let theirs_too = IntervalEncoding::new(rust, text);
    // Kept as long as the program runs: the calls below lend it on.
    let prepared: &Prepared = Box::leak(Box::new(Prepared::new(sheet, text)));
    let checked = Checked::new(tables).unwrap();
    let measured = checked.pieces(text, prepared.get(), froms, tos).unwrap();
    let mut into = Prepared::new(sheet, text);
    let (mut work, mut work_too, mut work_three) = (vec![0; size], vec![0; size], vec![0; size]);
    let mut out = vec![0; LOOKUPS];
    [
        Call::new("interval preparation")
            .text(size)
            .ours(move || {
                let [last_codes, numbers, ends, depths] = &mut into.0;
                let buffers = IntervalBuffers { last_codes, numbers, ends, depths };
                tables.interval_prepare(text, buffers, &mut work).map(u64::from).unwrap()
            })
            .rust(move || {
                let theirs = IntervalEncoding::new(rust, text);
                theirs.probe_tables()[0].len() as u64
            }),
        Call::new("interval count, core, random pieces")
            .text(size)
            .lookups()
            .ours(move || {
                checked.counts(&measured, &mut work_too, &mut out);
                total(&out)
            })
            .rust(move || pieces.iter().map(|&(from, to)| theirs.count(from..to) as u64).sum()),
        Call::new("interval count, random pieces")
            .text(size)
            .run(COUNTS, COUNTS)
            .ours(move || {
                let count = |&(from, to): &(usize, usize)| {
                    tables.interval_count(text, prepared.get(), from, to, &mut work_three).map(u64::from).unwrap()
                };
                few.iter().map(count).sum()
            })
            .rust(move || again.iter().map(|&(from, to)| theirs_too.count(from..to) as u64).sum()),
    ]
}

pub fn text_calls<'a>(sheet: &'a Sheet, text: &'a [u8]) -> Vec<Call<'a>> {
    typed(sheet, text).into_iter().chain(intervals(sheet, text)).collect()
}

/// One public push with so many records.
pub fn pushes(sheet: &Sheet) -> Vec<Call<'_>> {
    let rust = &sheet.rust;
    let tables = sheet.tables();
    let push = |side: Side, name: &str, records: usize| {
        let (byte, before) = (sheet.text[records - 1], &sheet.text[..records - 1]);
        let mut states = vec![State { byte: 0, code: 0, count: 0 }; 4096];
        let answer = tables.extend(side, before, &mut Head { len: 0 }, &mut states);
        assert_eq!(answer, Ok(before.len() as u32));
        Call::new(name).text(records).ours(move || {
            let mut head = Head { len: records - 1 };
            tables.push(side, byte, &mut head, &mut states).unwrap();
            u64::from(states[records - 1].count)
        })
    };
    let mut calls = vec![];
    for records in RECORDS {
        let (byte, before) = (sheet.text[records - 1], &sheet.text[..records - 1]);
        let mut appended = AppendableEncoder::new(rust);
        appended.extend(before.iter().copied());
        calls.push(push(Side::Append, "append push, public", records).rust(move || {
            appended.truncate(records - 1);
            appended.push(byte);
            appended.token_count() as u64
        }));
        let mut prepended = PrependableEncoder::new(rust);
        prepended.extend(before.iter().copied());
        calls.push(push(Side::Prepend, "prepend push, public", records).rust(move || {
            prepended.truncate(records - 1);
            prepended.push(byte);
            prepended.token_count() as u64
        }));
    }
    calls
}
