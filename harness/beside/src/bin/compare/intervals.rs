//! Intervals: prepared tables by their definitions and beside the original's, counts of pieces, and damaged tables.
use crate::texts::{buffer, kept, length, text, Sides};
use crate::Seen;
use beside::book::{self, Prepared};
use beside::lent::Lent;
use beside::random::Random;
use original::interval_encoding::IntervalEncoding;
use ours::intervals::{IntervalBuffers, Intervals};
use ours::{Refusal, Tables};

/// Where the text is longer, the model takes the original's last codes and looks at some of them.
const ALL: usize = 70;

/// The lent buffers: last codes, numbers, ends, depths, work.
struct Lents([Lent; 5]);

impl Lents {
    fn new(random: &mut Random, text: usize) -> Self {
        Lents([text, text + 1, text + 1, text + 1, text].map(|size| buffer(random, size)))
    }

    fn sizes(&self) -> [usize; 5] {
        self.0.each_ref().map(|lent| lent.get().len())
    }

    fn prepare(&mut self, tables: &Tables, text: &[u8]) -> ours::Answer<u32> {
        let [last_codes, numbers, ends, depths, work] = self.0.each_mut().map(Lent::part);
        tables.interval_prepare(text, IntervalBuffers { last_codes, numbers, ends, depths }, work)
    }

    fn count(&mut self, tables: &Tables, text: &[u8], start: usize, end: usize) -> ours::Answer<u32> {
        let [a, b, c, d, work] = &mut self.0;
        let intervals = Intervals { last_codes: a.get(), numbers: b.get(), ends: c.get(), depths: d.get() };
        tables.interval_count(text, intervals, start, end, work.part())
    }

    fn intervals(&self) -> Intervals<'_> {
        let [last_codes, numbers, ends, depths, _] = self.0.each_ref().map(Lent::get);
        Intervals { last_codes, numbers, ends, depths }
    }

    /// What may have been written: the entries that preparation needs, or nothing.
    fn kept(&self, text: usize, written: bool) -> Result<(), String> {
        let needed = [text, text + 1, text + 1, text + 1, text];
        for (lent, needed) in self.0.iter().zip(needed) {
            kept("interval tables", lent, if written { needed } else { 0 })?;
        }
        Ok(())
    }
}

/// The prepared tables, by their definitions, and the original's.
fn wanted(sides: &Sides, text: &[u8], rust: &IntervalEncoding, random: &mut Random) -> Result<Prepared, String> {
    let theirs = rust.probe_tables();
    let last_codes = if text.len() <= ALL {
        book::last_codes(&sides.phrases, text)
    } else {
        for _ in 0..2 {
            let size = random.within(1, text.len());
            let code = sides.phrases.encode(&text[..size]).last().copied();
            same!(Some(theirs[0][size - 1]), code, "the original's last code of {size} bytes");
        }
        theirs[0].to_vec()
    };
    let wanted = book::prepared(&sides.phrases, last_codes);
    let ours = [&wanted.last_codes, &wanted.numbers, &wanted.ends, &wanted.depths];
    for (i, (theirs, ours)) in theirs.iter().zip(ours).enumerate() {
        same!(theirs[..], ours[..], "the original's interval table {i}");
    }
    Ok(wanted)
}

/// Pieces to count: all of a short text, else some; and some that are none.
fn pieces(random: &mut Random, size: usize) -> Vec<(usize, usize)> {
    let mut pieces: Vec<(usize, usize)> = match size {
        0..=7 => (0..=size).flat_map(|end| (0..=end).map(move |start| (start, end))).collect(),
        _ => (0..12)
            .map(|_| {
                let (x, y) = (random.below(size + 1), random.below(size + 1));
                (x.min(y), x.max(y))
            })
            .chain([(0, size)])
            .collect(),
    };
    pieces.extend([(random.below(size + 1), size + 1), (1, 0), (usize::MAX, usize::MAX), (size + 1, size)]);
    pieces
}

/// A count, by the merge procedure on the piece, and the original's two.
fn compare_count(
    sides: &Sides,
    text: &[u8],
    piece: (usize, usize),
    lents: &mut Lents,
    rust: &IntervalEncoding,
    seen: &mut Seen,
) -> Result<(), String> {
    let (start, end) = piece;
    lents.0.iter_mut().for_each(Lent::renew);
    let answer = lents.count(&sides.tables, text, start, end);
    let refusal = book::count_refusal(text.len(), lents.sizes()[4], true, start, end);
    seen.interval(refusal);
    for lent in &lents.0[..4] {
        kept("interval count", lent, 0)?;
    }
    kept("interval count", &lents.0[4], if refusal.is_some() { 0 } else { text.len() })?;
    if refusal.is_some() {
        same!(answer.err(), refusal, "count of {start} to {end}");
        return Ok(());
    }
    let piece = &text[start..end];
    let count = sides.rust.count(piece);
    same!(answer, Ok(count as u32), "count of {start} to {end}, the original's count");
    same!(rust.count(start..end), count, "count of {start} to {end}, the original's");
    if piece.len() <= 300 {
        same!(sides.phrases.encode(piece).len(), count, "count of {start} to {end}, the model");
    }
    Ok(())
}

/// Every kind of damage to the interval tables: refused by 8 exactly if they are out of form, else a bounded number.
fn compare_damaged(
    sides: &Sides,
    text: &[u8],
    lents: &mut Lents,
    random: &mut Random,
    seen: &mut Seen,
) -> Result<(), String> {
    let (n, m) = (sides.phrases.rows.len(), text.len());
    for _ in 0..3 {
        let table = random.below(4);
        let size = lents.0[table].get().len();
        if size == 0 {
            continue;
        }
        let at = random.below(size);
        let values = [n - 1, n, m, m + 1, m + 2, u32::MAX as usize, random.below(m + 2), random.below(n)];
        let value = *random.pick(&values) as u32;
        let kept_entry = std::mem::replace(&mut lents.0[table].part()[at], value);
        let form = book::intervals_in_form(n, m, lents.intervals());
        let (x, y) = (random.below(m + 2), random.below(m + 2));
        let refusal = book::count_refusal(m, lents.sizes()[4], form, x, y);
        lents.0.iter_mut().for_each(Lent::renew);
        let answer = lents.count(&sides.tables, text, x, y);
        let damage = format!("interval table {table}, entry {at} set to {value}, count of {x} to {y}");
        same!(answer.err(), refusal, "{damage}");
        if answer.unwrap_or(0) as usize > 2 * m + 1 {
            return Err(format!("{damage}: {answer:?}"));
        }
        kept(&damage, &lents.0[4], if refusal.is_some() { 0 } else { m })?;
        seen.count(if form { "damaged interval tables, in form" } else { "damaged interval tables, out of form" });
        lents.0[table].part()[at] = kept_entry;
    }
    // A table cut below what is needed.
    let table = random.below(4);
    let needed = if table == 0 { m } else { m + 1 };
    if needed > 0 {
        let cut = random.below(needed);
        let mut lists = [0, 1, 2, 3].map(|i| lents.0[i].get());
        lists[table] = &lists[table][..cut];
        let [last_codes, numbers, ends, depths] = lists;
        let cut_short = Intervals { last_codes, numbers, ends, depths };
        let answer = sides.tables.interval_count(text, cut_short, 0, 0, &mut vec![0; m]);
        same!(answer, Err(Refusal { cause: 8, place: 0 }), "interval table {table} cut to {cut}");
        seen.count("interval tables cut short");
    }
    Ok(())
}

/// Everything about one text.
fn compare_text(sides: &Sides, text: &[u8], seed: u64, seen: &mut Seen) -> Result<(), String> {
    let mut random = Random::new(seed);
    let mut lents = Lents::new(&mut random, text.len());
    let refusal = book::prepare_refusal(text.len(), lents.sizes(), true);
    let answer = lents.prepare(&sides.tables, text);
    seen.interval(refusal);
    same!(answer, refusal.map_or(Ok(text.len() as u32), Err), "prepare");
    lents.kept(text.len(), refusal.is_none())?;
    if refusal.is_some() {
        return Ok(());
    }
    let rust = IntervalEncoding::new(sides.rust, text);
    let Prepared { last_codes, numbers, ends, depths } = wanted(sides, text, &rust, &mut random)?;
    for (i, wanted) in [last_codes, numbers, ends, depths].iter().enumerate() {
        same!(lents.0[i].get()[..wanted.len()], wanted[..], "interval table {i}");
    }
    for piece in pieces(&mut random, text.len()) {
        compare_count(sides, text, piece, &mut lents, &rust, seen)?;
    }
    compare_damaged(sides, text, &mut lents, &mut random, seen)
}

/// The smallest form of a text that still fails.
fn smallest(sides: &Sides, mut text: Vec<u8>, seed: u64, mut failure: String) -> String {
    let mut at = 0;
    while at < text.len() {
        let mut form = text.clone();
        form.remove(at);
        match compare_text(sides, &form, seed, &mut Seen::default()) {
            Err(still) => (text, failure) = (form, still),
            Ok(()) => at += 1,
        }
    }
    format!("intervals of \"{}\": {failure}", text.escape_ascii())
}

/// Texts over the tables that build left.
pub fn compare_intervals(sides: &mut Sides, random: &mut Random, seen: &mut Seen) -> Result<(), String> {
    for _ in 0..2 {
        let size = length(random);
        let text = text(random, &sides.phrases.rows, size);
        let seed = random.word();
        seen.count("texts prepared for intervals");
        if let Err(failure) = compare_text(sides, &text, seed, seen) {
            return Err(smallest(sides, text, seed, failure));
        }
    }
    Ok(())
}

/// Over tables that no build left: refused by 8 exactly if they are out of form; what is prepared is in form, and a count is bounded.
pub fn compare_free(tables: &Tables, rows: &[Vec<u8>], form: bool, random: &mut Random) -> Result<(), String> {
    let size = length(random).min(300);
    let text = text(random, rows, size);
    let mut lents = Lents::new(random, size);
    let refusal = book::prepare_refusal(size, lents.sizes(), form);
    let answer = lents.prepare(tables, &text);
    same!(answer, refusal.map_or(Ok(size as u32), Err), "prepare");
    lents.kept(size, refusal.is_none())?;
    if refusal.is_none() && !book::intervals_in_form(rows.len(), size, lents.intervals()) {
        return Err("what was prepared is out of form".to_string());
    }
    let (x, y) = (random.below(size + 2), random.below(size + 2));
    let fine = form && book::intervals_in_form(rows.len(), size, lents.intervals());
    let refusal = book::count_refusal(size, lents.sizes()[4], fine, x, y);
    lents.0[4].renew();
    let answer = lents.count(tables, &text, x, y);
    same!(answer.err(), refusal, "count of {x} to {y}");
    kept("interval count", &lents.0[4], if refusal.is_some() { 0 } else { size })?;
    if answer.unwrap_or(0) as usize > 2 * size + 1 {
        return Err(format!("count of {x} to {y}: {answer:?}"));
    }
    Ok(())
}
