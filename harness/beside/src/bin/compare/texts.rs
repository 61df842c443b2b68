//! The calls on a text, and decoding: with the original and with the model, every number of every buffer.
use crate::Seen;
use beside::encoders::{Encoder, Sent, ENCODERS};
use beside::lent::{Entry, Lent};
use beside::model::{self, Phrases};
use beside::random::Random;
use beside::text;
use original::byte_pair_encoding::BytePairEncoding;
use ours::{Answer, Refusal, Tables, NONE};

/// Our tables, the original and the model of one file.
pub struct Sides<'a> {
    pub tables: Tables<'a>,
    pub rust: &'a BytePairEncoding,
    pub phrases: Phrases,
}

impl<'a> Sides<'a> {
    pub fn new(rows: &[Vec<u8>], tables: Tables<'a>, rust: &'a BytePairEncoding) -> Self {
        Sides { tables, rust, phrases: Phrases::new(rows) }
    }

    /// What the model says of a text.
    pub fn wanted(&mut self, text: &[u8]) -> Wanted {
        Wanted::new(&mut self.phrases, text)
    }

    /// Whether two rows pass, by the model.
    pub fn passes(&mut self, left: u32, right: u32) -> bool {
        self.phrases.pass(left, right)
    }
}

/// What the model says of a text.
pub struct Wanted {
    pub merged: Vec<u32>,
    shortest: Vec<u32>,
    greedy: Vec<u32>,
    pub running: Vec<usize>,
}

impl Wanted {
    fn new(phrases: &mut Phrases, text: &[u8]) -> Self {
        Wanted {
            merged: phrases.encode(text),
            shortest: phrases.shortest(text),
            greedy: phrases.greedy(text),
            running: phrases.running(text),
        }
    }

    pub fn codes(&self, sent: Sent) -> &[u32] {
        match sent {
            Sent::Merged => &self.merged,
            Sent::Shortest => &self.shortest,
            Sent::Greedy => &self.greedy,
        }
    }
}

/// Mostly short, and about the edges: a word of the bit set, and the longest text.
pub fn length(random: &mut Random) -> usize {
    match random.below(250) {
        0 => random.within(4095, 4097),
        1..=80 => random.within(0, 3),
        81..=120 => random.within(62, 66),
        121..=140 => random.within(67, 300),
        _ => random.within(4, 40),
    }
}

/// Kinds of texts.
pub const KINDS: usize = 7;

/// A text of so many bytes and of that kind: letters, one letter and few others, rows, any bytes, repetitions of a b^k c, rows with
/// one byte changed.
pub fn text_of(random: &mut Random, rows: &[Vec<u8>], size: usize, kind: usize) -> Vec<u8> {
    let letters = random.within(1, 4);
    let (letter, most) = (random.below(4) as u8, random.within(1, 14));
    let last = &rows[rows.len() - rows.len().min(if random.once_in(2) { 20 } else { rows.len() - 255 })..];
    let mut text = vec![];
    while text.len() < size {
        match kind {
            0 | 1 => text.push(b'a' + random.below(letters) as u8),
            2 if random.once_in(20) => text.push(b'a' + random.below(letters) as u8),
            2 => text.push(b'a' + letter),
            3 => text.extend(random.pick(last)),
            4 => text.push(random.word() as u8),
            5 => text.extend([b"a", &vec![b'b'; random.within(1, most)][..], b"c"].concat()),
            _ => {
                let mut row = random.pick(last).clone();
                let at = random.below(row.len());
                row[at] = if random.once_in(2) { b'a' + random.below(letters) as u8 } else { random.pick(last)[0] };
                text.extend(row);
            }
        }
    }
    text.truncate(size);
    text
}

/// The same of any kind.
pub fn text(random: &mut Random, rows: &[Vec<u8>], size: usize) -> Vec<u8> {
    let kind = random.below(KINDS);
    text_of(random, rows, size, kind)
}

/// All texts up to a length over two or three letters.
fn short_texts(random: &mut Random) -> Vec<Vec<u8>> {
    let mut letters = *b"abcd";
    random.shuffle(&mut letters);
    if random.once_in(2) {
        text::all(&letters[..2], 7)
    } else {
        text::all(&letters[..3], 4)
    }
}

/// A buffer of about that size; now and then one number too short. The choices that follow do not depend on the size.
pub fn buffer<T: Entry>(random: &mut Random, size: usize) -> Lent<T> {
    let size = if random.once_in(15) { size.saturating_sub(1) } else { size + random.below(3) };
    Lent::new(&mut Random::new(random.word()), size)
}

pub fn kept<T: Entry>(name: &str, lent: &Lent<T>, at: usize) -> Result<(), String> {
    if lent.kept_from(at) {
        return Ok(());
    }
    Err(format!("{name}: a buffer changed from {at} on"))
}

fn compare_encoders(
    sides: &Sides,
    text: &[u8],
    wanted: &Wanted,
    random: &mut Random,
    seen: &mut Seen,
) -> Result<(), String> {
    for Encoder { name, sent, ours, rust } in ENCODERS {
        let (mut out, mut work) = (buffer(random, text.len()), buffer(random, text.len()));
        let answer = ours(&sides.tables, text, out.part(), work.part());
        let refusal = model::send_refusal(text.len(), &[out.get().len(), work.get().len()], true);
        seen.encode(refusal);
        if let Some(refusal) = refusal {
            same!(answer, Err(refusal), "{name}");
            kept(name, &out, 0)?;
            kept(name, &work, 0)?;
            continue;
        }
        let codes = wanted.codes(sent);
        same!(rust(sides.rust, text)[..], codes[..], "the original's {name}");
        same!(answer, Ok(codes.len() as u32), "{name}");
        same!(out.get()[..codes.len()], codes[..], "{name}, the codes");
        kept(name, &out, codes.len())?;
        kept(name, &work, text.len())?;
    }
    Ok(())
}

/// Limits at which the answer turns, those at which the original's guess does, a small one, which a long text is over
/// long before it ends, and the largest.
fn limits(count: usize, running: &[usize], random: &mut Random) -> Vec<u64> {
    let count = count as u64;
    let most = running.iter().max().copied().unwrap_or(0) as u64;
    let mut limits = vec![count, count + 1, u64::MAX, u64::MAX - 10];
    limits.extend([random.below(most as usize + 2), random.below(150)].map(|limit| limit as u64));
    limits.extend(
        [count.checked_sub(1), most.checked_sub(9), most.checked_sub(10), most.checked_sub(11)].iter().flatten(),
    );
    limits
}

fn compare_counts(
    sides: &Sides,
    text: &[u8],
    wanted: &Wanted,
    random: &mut Random,
    seen: &mut Seen,
) -> Result<(), String> {
    let mut work: Lent = buffer(random, text.len());
    let refusal = model::send_refusal(text.len(), &[work.get().len()], true);
    let written = if refusal.is_some() { 0 } else { text.len() };
    seen.call("counts", refusal);
    let count = wanted.merged.len();
    let answer = sides.tables.count(text, work.part());
    same!(answer, refusal.map_or(Ok(count as u32), Err), "count");
    kept("count", &work, written)?;
    if refusal.is_none() {
        same!(wanted.running.last().copied().unwrap_or(0), count, "the model's backtracking");
        same!(sides.rust.count(text), count, "the original's count");
    }
    for limit in limits(count, &wanted.running, random) {
        work.renew();
        seen.call("limits", refusal);
        let told = model::limited(count, limit);
        let answer = sides.tables.count_till_limit(text, limit, work.part());
        same!(answer, refusal.map_or(Ok(told), Err), "count_till_limit {limit}");
        kept("count_till_limit", &work, written)?;
        if refusal.is_none() {
            guessed(sides, text, limit, told, seen)?;
        }
    }
    Ok(())
}

/// The original's own answer: it may be "over" for a text that is not.
fn guessed(sides: &Sides, text: &[u8], limit: u64, told: Option<u32>, seen: &mut Seen) -> Result<(), String> {
    let rust = sides.rust.count_till_limit(text, limit as usize).map(|count| count as u32);
    if rust != told {
        same!(rust, None, "the original's count_till_limit {limit}");
        seen.add("limits within which the original says \"over\"", 1);
    }
    Ok(())
}

/// Decoding of codes that are given; over tables in form by an equation, whoever left them. Its refusal.
fn decode(
    tables: &Tables,
    rows: &[Vec<u8>],
    codes: &[u32],
    form: bool,
    random: &mut Random,
) -> Result<Option<Refusal>, String> {
    let known = codes.iter().all(|&c| (c as usize) < rows.len());
    let bytes = if known { model::spelled(rows, codes) } else { vec![] };
    let mut out: Lent<u8> = buffer(random, bytes.len());
    let refusal = model::decode_refusal(rows, codes, out.get().len(), form);
    let bytes = if refusal.is_some() { &[] } else { &bytes[..] };
    let same_bytes = |answer: Answer<u32>, out: &Lent<u8>, name: &str| {
        same!(answer, refusal.map_or(Ok(bytes.len() as u32), Err), "{name} {codes:?}");
        same!(out.get()[..bytes.len()], bytes[..], "{name} {codes:?}, the bytes");
        kept(name, out, bytes.len())
    };
    same_bytes(tables.decode_tokens(codes, out.part()), &out, "decode_tokens")?;
    if let [code] = codes {
        out.part().fill(0);
        out.renew();
        same_bytes(tables.token_bytes(*code, out.part()), &out, "token_bytes")?;
    }
    Ok(refusal)
}

fn compare_decoding(
    sides: &Sides,
    text: &[u8],
    wanted: &Wanted,
    random: &mut Random,
    seen: &mut Seen,
) -> Result<(), String> {
    let rows = &sides.phrases.rows;
    let n = rows.len();
    let mut codes: Vec<u32> = (0..length(random)).map(|_| random.below(n) as u32).collect();
    let lists = [wanted.merged.clone(), codes.clone(), vec![random.below(n) as u32], vec![random.word() as u32 | 4096]];
    for list in lists {
        let refusal = decode(&sides.tables, rows, &list, true, random)?;
        seen.call("decodings", refusal);
        if refusal.is_none() {
            same!(sides.rust.decode_tokens(&list), model::spelled(rows, &list), "the original's decode_tokens");
            if let [code] = list[..] {
                same!(sides.rust.token_bytes(code), &rows[code as usize][..], "the original's token_bytes");
            }
        }
    }
    for _ in 0..codes.len().min(2) {
        let at = random.below(codes.len());
        codes[at] = [n as u32, NONE, random.word() as u32 | 4096][random.below(3)];
    }
    seen.call("decodings", decode(&sides.tables, rows, &codes, true, random)?);
    if text.len() <= 4096 {
        same!(model::spelled(rows, &wanted.merged)[..], text[..], "the model's codes spelled");
    }
    Ok(())
}

/// Everything about one text.
fn compare_text(sides: &mut Sides, text: &[u8], seed: u64, seen: &mut Seen) -> Result<(), String> {
    let mut random = Random::new(seed);
    let model = if text.len() > 4096 { &[] } else { text };
    let wanted = sides.wanted(model);
    compare_encoders(sides, text, &wanted, &mut random, seen)?;
    compare_counts(sides, text, &wanted, &mut random, seen)?;
    compare_decoding(sides, text, &wanted, &mut random, seen)
}

/// The smallest form of a text that still fails.
fn smallest(sides: &mut Sides, mut text: Vec<u8>, seed: u64, mut failure: String) -> String {
    let mut size = text.len();
    while size > 0 {
        let mut at = 0;
        while at < text.len() {
            let form = [&text[..at], &text[(at + size).min(text.len())..]].concat();
            match compare_text(sides, &form, seed, &mut Seen::default()) {
                Err(still) => (text, failure) = (form, still),
                Ok(()) => at += size,
            }
        }
        size /= 2;
    }
    format!("text \"{}\": {failure}", text.escape_ascii())
}

/// Texts over the tables that build left.
pub fn compare_texts(sides: &mut Sides, random: &mut Random, seen: &mut Seen) -> Result<(), String> {
    let mut texts: Vec<Vec<u8>> = (0..8)
        .map(|_| {
            let size = length(random);
            text(random, &sides.phrases.rows, size)
        })
        .collect();
    if random.once_in(20) {
        texts.extend(short_texts(random));
        seen.count("files with all short texts");
    }
    for text in texts {
        compare_shrinking(sides, text, random.word(), seen)?;
    }
    Ok(())
}

/// A text, or the smallest form of it that fails.
pub fn compare_shrinking(sides: &mut Sides, text: Vec<u8>, seed: u64, seen: &mut Seen) -> Result<(), String> {
    seen.count(if text.len() < 4000 { "texts" } else { "texts of 4,095 to 4,097 bytes" });
    match compare_text(sides, &text, seed, seen) {
        Err(failure) => Err(smallest(sides, text, seed, failure)),
        Ok(()) => Ok(()),
    }
}

/// A text over tables that no build left: refused by 8 exactly if they are out of form, else within the bounds that hold of any answer.
pub fn compare_free(tables: &Tables, rows: &[Vec<u8>], form: bool, random: &mut Random) -> Result<(), String> {
    let size = length(random);
    let text = text(random, rows, size);
    for Encoder { name, ours, .. } in ENCODERS {
        let (mut out, mut work): (Lent, Lent) = (buffer(random, size), buffer(random, size));
        let answer = ours(tables, &text, out.part(), work.part());
        let refusal = model::send_refusal(size, &[out.get().len(), work.get().len()], form);
        same!(answer.err(), refusal, "{name}");
        let count = answer.unwrap_or(0) as usize;
        if count > size || out.get()[..count].iter().any(|&c| c as usize >= rows.len()) {
            return Err(format!("{name}: {count} codes of {size} bytes, or one not below n"));
        }
        kept(name, &out, count)?;
        kept(name, &work, if refusal.is_some() { 0 } else { size })?;
    }
    let mut work: Lent = buffer(random, size);
    let refusal = model::send_refusal(size, &[work.get().len()], form);
    let answer = tables.count(&text, work.part());
    same!(answer.err(), refusal, "count");
    if answer.unwrap_or(0) as usize > size {
        return Err(format!("count: {answer:?} of {size} bytes"));
    }
    same!(tables.count_till_limit(&text, random.below(20) as u64, work.part()).err(), refusal, "count_till_limit");
    kept("count", &work, if refusal.is_some() { 0 } else { size })?;
    let codes: Vec<u32> = (0..length(random)).map(|_| random.below(rows.len()) as u32).collect();
    decode(tables, rows, &codes, form, random)?;
    decode(tables, rows, &[random.below(rows.len() + 1) as u32], form, random).map(|_| ())
}
