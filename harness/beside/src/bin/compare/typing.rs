//! Typing: lists of calls over one slice, with the original, and with document 01's typing book; then damaged heads and records.
use crate::texts::{length, text, Sides};
use crate::Seen;
use beside::book;
use beside::lent::Lent;
use beside::random::Random;
use original::appendable_encoder::AppendableEncoder;
use original::byte_pair_encoding::BytePairEncoding;
use original::prependable_encoder::PrependableEncoder;
use ours::typing::{truncate, Head, Side, State};
use ours::{Answer, Refusal, Tables};

/// Where the book is longer, the model looks at some of the records added, not at all.
const ALL: usize = 100;

#[derive(Clone, Debug)]
enum Step {
    Push(u8),
    Extend(Vec<u8>),
    Truncate(usize),
    TokenCount,
}

/// A list of calls over a slice of so many records.
#[derive(Clone)]
struct List {
    side: Side,
    size: usize,
    steps: Vec<Step>,
    seed: u64,
}

/// The original's encoder of a side.
enum Original<'a> {
    Append(AppendableEncoder<'a>),
    Prepend(PrependableEncoder<'a>),
}

impl<'a> Original<'a> {
    fn new(side: Side, rust: &'a BytePairEncoding) -> Self {
        match side {
            Side::Append => Original::Append(AppendableEncoder::new(rust)),
            Side::Prepend => Original::Prepend(PrependableEncoder::new(rust)),
        }
    }

    fn push(&mut self, byte: u8) {
        match self {
            Original::Append(e) => e.push(byte),
            Original::Prepend(e) => e.push(byte),
        }
    }

    fn extend(&mut self, bytes: &[u8]) {
        match self {
            Original::Append(e) => e.extend(bytes.iter().copied()),
            Original::Prepend(e) => e.extend(bytes.iter().copied()),
        }
    }

    fn truncate(&mut self, keep: usize) {
        match self {
            Original::Append(e) => e.truncate(keep),
            Original::Prepend(e) => e.truncate(keep),
        }
    }

    fn token_count(&self) -> usize {
        match self {
            Original::Append(e) => e.token_count(),
            Original::Prepend(e) => e.token_count(),
        }
    }

    /// Code and count of the records from a place on.
    fn states(&self, from: usize) -> Vec<(u32, u32)> {
        match self {
            Original::Append(e) => e.probe_states().skip(from).collect(),
            Original::Prepend(e) => e.probe_states().skip(from).collect(),
        }
    }
}

/// The records of a list, with the head, as the calls left them.
struct Typed {
    head: Head,
    states: Lent<State>,
    book: Vec<u8>,
}

impl Typed {
    /// Only the records from the old length to the new one were written.
    fn kept(&self, from: usize, to: usize) -> Result<(), String> {
        let kept = self.states.kept_from(to.max(from)) && self.states.get()[..from] == self.states.before()[..from];
        kept.then_some(()).ok_or_else(|| format!("a record was written that is not from {from} to {to}"))
    }
}

/// Records that a call added, by the merge procedure for the bytes typed.
fn compare_added(
    sides: &Sides,
    side: Side,
    typed: &[u8],
    states: &[State],
    from: usize,
    random: &mut Random,
) -> Result<(), String> {
    let looked: Vec<usize> = match typed.len() {
        0..=ALL => (from..typed.len()).collect(),
        size if from < size => vec![random.within(from, size - 1), size - 1],
        _ => vec![],
    };
    for i in looked {
        same!(states[i], book::record(&sides.phrases, side, &typed[..=i]), "record {i}, the model");
    }
    Ok(())
}

/// The calls of a list, one after the other.
fn play(sides: &Sides, list: &List, seen: &mut Seen) -> Result<Typed, String> {
    let mut random = Random::new(list.seed);
    let side = list.side;
    let mut typed = Typed { head: Head { len: 0 }, states: Lent::new(&mut random, list.size), book: vec![] };
    let mut rust = Original::new(side, sides.rust);
    for (at, step) in list.steps.iter().enumerate() {
        typed.states.renew();
        let len = typed.book.len();
        let (head, tables) = (&mut typed.head, &sides.tables);
        let answer = match step {
            Step::Push(byte) => tables.push(side, *byte, head, typed.states.part()),
            Step::Extend(bytes) => tables.extend(side, bytes, head, typed.states.part()),
            Step::Truncate(keep) => truncate(*keep, head, typed.states.get()),
            Step::TokenCount => tables.token_count(side, head, typed.states.get()),
        };
        let refusal = match step {
            Step::Push(_) => book::extend_refusal(len, list.size, 1, true),
            Step::Extend(bytes) => book::extend_refusal(len, list.size, bytes.len(), true),
            _ => None,
        };
        seen.typing(refusal);
        let mut wanted = None;
        match step {
            _ if refusal.is_some() => {}
            Step::Push(byte) => {
                typed.book.push(*byte);
                rust.push(*byte);
            }
            Step::Extend(bytes) => {
                typed.book.extend(bytes);
                rust.extend(bytes);
            }
            Step::Truncate(keep) => {
                typed.book.truncate(*keep);
                rust.truncate(*keep);
            }
            Step::TokenCount => {
                wanted = Some(rust.token_count() as u32);
                let codes = sides.phrases.encode(&book::in_order(side, &typed.book));
                same!(wanted, Some(codes.len() as u32), "call {at}, {step:?}: the original's count");
            }
        }
        let now = typed.book.len();
        same!(answer, refusal.map_or(Ok(wanted.unwrap_or(now as u32)), Err), "call {at}, {step:?}");
        same!(typed.head.len, now, "call {at}, {step:?}: the head");
        typed.kept(len.min(now), now).map_err(|e| format!("call {at}, {step:?}: {e}"))?;
        let (states, from) = (typed.states.get(), len.min(now));
        let told: Vec<(u32, u32)> = states[from..now].iter().map(|s| (s.code, s.count)).collect();
        same!(told, rust.states(from), "call {at}, {step:?}: the original's records from {from} on");
        let bytes: Vec<u8> = states[from..now].iter().map(|s| s.byte).collect();
        same!(bytes[..], typed.book[from..], "call {at}, {step:?}: the bytes from {from} on");
        compare_added(sides, side, &typed.book, states, from, &mut random)
            .map_err(|e| format!("call {at}, {step:?}: {e}"))?;
    }
    Ok(typed)
}

/// The smallest form of a list that still fails.
fn smallest(sides: &Sides, mut list: List, mut failure: String) -> String {
    'again: loop {
        for at in (0..list.steps.len()).rev() {
            let mut form = list.clone();
            match &mut form.steps[at] {
                Step::Extend(bytes) if bytes.len() > 1 => bytes.truncate(bytes.len() / 2),
                _ => drop(form.steps.remove(at)),
            }
            if let Err(still) = play(sides, &form, &mut Seen::default()) {
                (list, failure) = (form, still);
                continue 'again;
            }
        }
        return format!("{:?}, {} records, {:?}: {failure}", list.side, list.size, list.steps);
    }
}

/// A list of random calls: mostly short, now and then about the largest slice, and beyond it.
fn list(random: &mut Random, rows: &[Vec<u8>], side: Side) -> List {
    let large = random.once_in(250);
    let size = if large { random.within(4090, 4100) } else { length(random).min(300) };
    let count = random.within(1, 16);
    let mut len: usize = 0;
    let mut steps = vec![];
    for _ in 0..count {
        let some = if large && random.once_in(2) { random.within(1000, 4097) } else { random.below(8) };
        let step = match random.below(10) {
            0..=3 => Step::Push(text(random, rows, 1)[0]),
            // Up to the end of the slice, or one more.
            4 => {
                let left = size.saturating_sub(len) + random.below(2);
                Step::Extend(text(random, rows, left))
            }
            5 if random.once_in(50) => Step::Extend(text(random, rows, 4097)),
            5 | 6 => Step::Extend(text(random, rows, some)),
            7 if random.once_in(4) => Step::Truncate(usize::MAX - random.below(2)),
            7 => Step::Truncate(random.below(len + 3)),
            _ => Step::TokenCount,
        };
        len = match &step {
            Step::Push(_) if len < size => len + 1,
            Step::Extend(bytes) if len + bytes.len() <= size => len + bytes.len(),
            Step::Truncate(keep) => len.min(*keep),
            _ => len,
        };
        steps.push(step);
    }
    List { side, size, steps, seed: random.word() }
}

/// Changes the head or a field of a record.
fn damage(typed: &mut Typed, n: usize, random: &mut Random) {
    let size = typed.states.get().len();
    let len = typed.head.len;
    if len == 0 || random.once_in(3) {
        let lengths =
            [size + 1, 4097, usize::MAX, random.below(size + 1), random.below(len + 1), random.word() as usize];
        typed.head.len = *random.pick(&lengths);
        return;
    }
    let at = random.below(len);
    let other = typed.states.get()[random.below(len)];
    let record = &mut typed.states.part()[at];
    match random.below(5) {
        0 => record.byte = other.byte,
        1 => record.code = *random.pick(&[other.code, n as u32, u32::MAX]),
        2 => record.code = random.below(n) as u32,
        3 => record.count = *random.pick(&[record.count.wrapping_add(1), record.count - 1, 0, u32::MAX]),
        _ => *record = other,
    }
}

/// Every call over a damaged head or record: refused by 8 exactly if they are out of form.
fn compare_damaged(
    sides: &mut Sides,
    side: Side,
    typed: Typed,
    random: &mut Random,
    seen: &mut Seen,
) -> Result<(), String> {
    let n = sides.phrases.rows.len();
    let Typed { head, states, .. } = typed;
    for _ in 0..3 {
        let mut typed = Typed { head, states: states.clone(), book: vec![] };
        damage(&mut typed, n, random);
        typed.states.renew();
        let (len, size) = (typed.head.len, typed.states.get().len());
        let head_fine = book::head_in_form(len, size);
        let form = head_fine && book::records_in_form(&mut sides.phrases, side, &typed.states.get()[..len]);
        seen.count(if form { "damaged heads and records, in form" } else { "damaged heads and records, out of form" });
        let out = |fine: bool| (!fine).then_some(Refusal { cause: 8, place: 0 });
        let what = format!("{side:?}, length {len}, records {:?}", &typed.states.get()[..size.min(20)]);
        let count = if form && len > 0 { typed.states.get()[len - 1].count } else { 0 };
        let counted = sides.tables.token_count(side, &typed.head, typed.states.get());
        same!(counted, out(form).map_or(Ok(count), Err), "token_count, {what}");
        let keep = random.below(12);
        let mut shortened = typed.head;
        let answer = truncate(keep, &mut shortened, typed.states.get());
        same!(answer, out(head_fine).map_or(Ok(len.min(keep) as u32), Err), "truncate, {what}");
        same!(shortened.len, if head_fine { len.min(keep) } else { len }, "truncate's head, {what}");
        let more = if random.once_in(50) { 4097 } else { random.below(4) };
        let bytes = text(random, &sides.phrases.rows, more);
        let answer = match bytes[..] {
            [byte] => sides.tables.push(side, byte, &mut typed.head, typed.states.part()),
            _ => sides.tables.extend(side, &bytes, &mut typed.head, typed.states.part()),
        };
        let refusal = book::extend_refusal(len, size, more, form);
        same!(answer, refusal.map_or(Ok((len + more) as u32), Err), "extend, {what}");
        let end = if refusal.is_some() { len } else { len + more };
        same!(typed.head.len, end, "extend's head, {what}");
        let (from, to) = if refusal.is_some() { (0, 0) } else { (len, end) };
        typed.kept(from, to).map_err(|e| format!("extend, {what}: {e}"))?;
        if refusal.is_none() {
            let book: Vec<u8> = typed.states.get()[..len].iter().map(|s| s.byte).chain(bytes).collect();
            compare_added(sides, side, &book, typed.states.get(), len, random)
                .map_err(|e| format!("extend, {what}: {e}"))?;
        }
    }
    Ok(())
}

/// A list for each side, over the tables that build left.
pub fn compare_typing(sides: &mut Sides, random: &mut Random, seen: &mut Seen) -> Result<(), String> {
    for side in [Side::Append, Side::Prepend] {
        let list = list(random, &sides.phrases.rows, side);
        seen.count("typing lists");
        match play(sides, &list, seen) {
            Ok(typed) => compare_damaged(sides, side, typed, random, seen)?,
            Err(failure) => return Err(smallest(sides, list, failure)),
        }
    }
    Ok(())
}

/// An answer that is this refusal if there is one; but where records may be out of form, 8 comes before an answer and before 12.
fn free(answer: Answer<u32>, refusal: Option<Refusal>, name: &str) -> Result<bool, String> {
    let out = answer == Err(Refusal { cause: 8, place: 0 });
    if !out || refusal.is_some_and(|r| r.cause != 12) {
        same!(answer.err(), refusal, "{name}");
    }
    Ok(answer.is_ok())
}

/// Typing over tables that no build left: the first call is refused by 8 exactly if they are out of form; whether records are in form is free.
pub fn compare_free(tables: &Tables, rows: &[Vec<u8>], form: bool, random: &mut Random) -> Result<(), String> {
    let side = *random.pick(&[Side::Append, Side::Prepend]);
    let size = length(random).min(80);
    let mut typed = Typed { head: Head { len: 0 }, states: Lent::new(random, size), book: vec![] };
    same!(tables.token_count(side, &typed.head, typed.states.get()).ok(), form.then_some(0), "token_count");
    let bytes = {
        let size = random.below(size + 2);
        text(random, rows, size)
    };
    let refusal = book::extend_refusal(0, size, bytes.len(), form);
    let answer = tables.extend(side, &bytes, &mut typed.head, typed.states.part());
    same!(answer, refusal.map_or(Ok(bytes.len() as u32), Err), "extend");
    let len = answer.unwrap_or(0) as usize;
    same!(typed.head.len, len, "extend's head");
    typed.kept(0, len)?;
    typed.states.renew();
    let answer = tables.push(side, random.word() as u8, &mut typed.head, typed.states.part());
    let pushed = free(answer, book::extend_refusal(len, size, 1, form), "push")?;
    same!(typed.head.len, len + usize::from(pushed), "push's head");
    typed.kept(len, typed.head.len)?;
    let out = (!form).then_some(Refusal { cause: 8, place: 0 });
    free(tables.token_count(side, &typed.head, typed.states.get()), out, "token_count").map(|_| ())
}
