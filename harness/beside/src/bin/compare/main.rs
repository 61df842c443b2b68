//! Compares the public calls with the original and with the model: on random files and texts, on all small ones, and on fixed ones.
//! `compare [SEED [SECONDS]]`: stops at the first difference that is on no list, with the smallest form of its case.
use beside::cases::{case, Case};
use beside::lent::Lent;
use beside::model;
use beside::random::Random;
use original::byte_pair_encoding::BytePairEncoding;
use ours::{Buffers, Refusal, Tables, AREA, NONE};
use std::collections::BTreeMap;
use std::time::{Duration, Instant};

/// What was seen, by name, and the smallest case of each listed difference.
#[derive(Default)]
struct Seen {
    calls: u64,
    encodings: u64,
    counts: BTreeMap<String, u64>,
    listed: BTreeMap<String, (u64, Case)>,
}

impl Seen {
    fn count(&mut self, what: impl Into<String>) {
        *self.counts.entry(what.into()).or_default() += 1;
    }

    /// So many calls that were answered.
    fn add(&mut self, what: &str, times: u64) {
        self.calls += times;
        *self.counts.entry(what.to_string()).or_default() += times;
    }

    /// A call of an encoder, and its refusal.
    fn encode(&mut self, refusal: Option<Refusal>) {
        self.encodings += u64::from(refusal.is_none());
        self.call("encoders", refusal);
    }

    /// A call on a text, or of decoding, and its refusal.
    fn call(&mut self, what: &str, refusal: Option<Refusal>) {
        self.calls += 1;
        match refusal {
            None => self.count(what),
            Some(refusal) => self.count(format!("{what}, refused, cause {}", refusal.cause)),
        }
    }

    /// A typing call, and its refusal.
    fn typing(&mut self, refusal: Option<Refusal>) {
        match refusal {
            None => self.count("typing calls"),
            Some(refusal) => self.count(format!("typing calls, refused, cause {}", refusal.cause)),
        }
    }

    /// An interval call, and its refusal.
    fn interval(&mut self, refusal: Option<Refusal>) {
        match refusal {
            None => self.count("interval calls"),
            Some(refusal) => self.count(format!("interval calls, refused, cause {}", refusal.cause)),
        }
    }

    /// A difference that docs/DIFFERENCES.md lists.
    fn list(&mut self, what: &str, case: &Case) {
        let (times, smallest) = self.listed.entry(what.to_string()).or_insert_with(|| (0, case.clone()));
        *times += 1;
        if size(case) < size(smallest) {
            *smallest = case.clone();
        }
    }
}

macro_rules! same {
    ($left:expr, $right:expr, $($what:tt)+) => {{
        let (left, right) = (&$left, &$right);
        if left != right {
            return Err(format!("{}: {left:?}, not {right:?}", format!($($what)+)));
        }
    }};
}

mod exhaustive;
mod fixed;
mod intervals;
mod texts;
mod typing;

/// One comparison.
type Job = Box<dyn FnOnce(&mut Seen) -> Result<(), String>>;

/// The buffers that build is lent: four tables and the area.
#[derive(Clone, PartialEq)]
struct Buffer([Lent; 5]);

impl Buffer {
    fn lend(&mut self) -> Buffers<'_> {
        let [places, lefts, rights, prefixes, area] = self.0.each_mut().map(Lent::part);
        Buffers { places, lefts, rights, prefixes, area }
    }

    fn tables<'a>(&'a self, file: &'a [u8]) -> Tables<'a> {
        let [places, lefts, rights, prefixes, area] = self.0.each_ref().map(Lent::get);
        Tables { file, places, lefts, rights, prefixes, area }
    }
}

/// Document 01's table of causes: what a refusal leaves.
fn compare_after_refusal(buffer: &Buffer, cause: u32, n: usize) -> Result<(), String> {
    let cleared = model::clears(cause);
    for (i, lent) in buffer.0.iter().enumerate() {
        let size = if !cleared {
            0
        } else if i == 4 {
            AREA
        } else {
            n
        };
        let (now, before) = (lent.get(), lent.before());
        if now[..size].iter().any(|&x| x != NONE) {
            return Err(format!("buffer {i} is not none after refusal {cause}"));
        }
        if now[size..] != before[size..] {
            return Err(format!("buffer {i} changed beyond {size} after refusal {cause}"));
        }
    }
    Ok(())
}

fn compare_after_success(buffer: &Buffer, tables: &model::Tables) -> Result<(), String> {
    let n = tables.places.len();
    let wanted = [&tables.places, &tables.lefts, &tables.rights, &tables.prefixes];
    for (i, (lent, wanted)) in buffer.0.iter().zip(wanted).enumerate() {
        same!(lent.get()[..n], wanted[..], "table {i}");
        same!(lent.get()[n..], lent.before()[n..], "table {i} beyond n");
    }
    same!(buffer.0[4].get()[AREA..], buffer.0[4].before()[AREA..], "the area beyond its size");
    Ok(())
}

/// The original beside the model: it accepts with the same tables, or refuses, but for what is listed.
fn compare_original(
    case: &Case,
    rows: &[Vec<u8>],
    answer: &Result<model::Tables, Refusal>,
    seen: &mut Seen,
) -> Result<Option<BytePairEncoding>, String> {
    let cause = match answer {
        Err(Refusal { cause: 2, .. }) if case.damage.is_none() && case.rows.iter().any(|row| row.len() > 64) => {
            if original::build(case.rows.clone(), case.factor).is_ok() {
                seen.list("2: the original accepts a row over 64 bytes", case);
            }
            return Ok(None);
        }
        // Refusals that the original has no counterpart of.
        Err(Refusal { cause: 2 | 7, .. }) => return Ok(None),
        Err(Refusal { cause, .. }) => *cause,
        Ok(_) => 0,
    };
    let rust = original::build(rows.to_vec(), case.factor);
    match (rust, answer) {
        (Err(_), Err(_)) => {
            seen.count(format!("original refuses too, cause {cause}"));
            Ok(None)
        }
        (Err(panic), Ok(_)) => Err(format!("the original refuses: {panic}")),
        (Ok(rust), Ok(tables)) => {
            let parts: Vec<(u32, u32)> = tables.lefts.iter().copied().zip(tables.rights.iter().copied()).collect();
            same!(rust.probe_parts(), &parts[..], "the original's parts");
            same!(rust.probe_prefixes(), &tables.prefixes[..], "the original's prefixes");
            same!(rust.num_tokens(), rows.len(), "the original's count of rows");
            Ok(Some(rust))
        }
        (Ok(rust), Err(refusal)) => {
            match cause {
                3 => seen.list("3: the original accepts fewer than 256 or more than 4,096 rows", case),
                4 => seen.list("4: the original accepts a file without a byte's row", case),
                6 => {
                    seen.list("6: the original accepts a longer row without parts", case);
                    let own = |i: usize| rust.probe_parts()[i] == (i as u32, i as u32);
                    let lowest = (0..rows.len()).find(|&i| rows[i].len() > 1 && own(i));
                    same!(lowest, Some(refusal.place as usize), "the original's first row without parts");
                }
                _ => return Err(format!("the original accepts, not {refusal:?}")),
            }
            Ok(None)
        }
    }
}

/// Rows worth pairing: the longer ones and the letters that they are made of.
fn worth(rows: &[Vec<u8>]) -> Vec<u32> {
    let used: Vec<u8> = rows.iter().filter(|row| row.len() > 1).flatten().copied().collect();
    let short: Vec<u32> =
        (0..rows.len() as u32).filter(|&i| rows[i as usize].len() > 1 || used.contains(&rows[i as usize][0])).collect();
    if short.is_empty() {
        vec![0]
    } else {
        short
    }
}

/// The pair check and the lengths over tables that build left.
fn compare_calls(
    rows: &[Vec<u8>],
    tables: &Tables,
    rust: &BytePairEncoding,
    random: &mut Random,
    seen: &mut Seen,
) -> Result<(), String> {
    let n = rows.len() as u32;
    same!(tables.num_tokens(), Ok(n), "num_tokens");
    let worth = worth(rows);
    let numbers = model::numbers(rows);
    for _ in 0..24 {
        let (x, y) = (*random.pick(&worth), *random.pick(&worth));
        let (left, right) = (&rows[x as usize], &rows[y as usize]);
        let passes = tables.is_valid_token_pair(x, y);
        same!(passes, Ok(model::passes(&numbers, left, right)), "pair {x} {y}, the model");
        same!(passes, Ok(rust.probe_pair(x, y)), "pair {x} {y}, the original");
        same!(tables.token_len(x), Ok(rust.token_len(x) as u32), "token_len {x}");
        seen.add("pair checks", 1);
    }
    let x = random.below(rows.len()) as u32;
    for unknown in [n, n + 1, NONE, random.word() as u32 | 4096] {
        let at = |place| Err(Refusal { cause: 10, place });
        same!(tables.is_valid_token_pair(unknown, x), at(0).map(|_: ()| true), "pair {unknown} {x}");
        same!(tables.is_valid_token_pair(x, unknown), at(1).map(|_: ()| true), "pair {x} {unknown}");
        same!(tables.is_valid_token_pair(unknown, unknown), at(0).map(|_: ()| true), "pair {unknown} twice");
        same!(tables.token_len(unknown), at(0).map(|_: ()| 0), "token_len {unknown}");
        seen.count("refused codes");
    }
    Ok(())
}

/// The same over damaged tables: refused by 8 exactly if they are out of form; otherwise the answer is free.
fn compare_damaged(
    file: &[u8],
    buffer: &mut Buffer,
    rows: &[Vec<u8>],
    random: &mut Random,
    seen: &mut Seen,
) -> Result<(), String> {
    let n = rows.len();
    for _ in 0..4 {
        let table = random.below(5);
        let size = if table == 4 { AREA } else { n };
        let at = random.below(size);
        let value = match random.below(4) {
            0 => random.below(n + 1) as u32,
            1 => NONE,
            2 => random.word() as u32,
            _ => buffer.0[table].get()[random.below(size)],
        };
        let kept = std::mem::replace(&mut buffer.0[table].part()[at], value);
        let tables = buffer.tables(file);
        let (x, y) = (random.below(n) as u32, random.below(n) as u32);
        let form = Refusal { cause: 8, place: 0 };
        let told = [tables.num_tokens().err(), tables.token_len(x).err(), tables.is_valid_token_pair(x, y).err()];
        let wanted = (!model::in_form(&tables)).then_some(form);
        let damage = format!("table {table}, entry {at} set to {value}");
        same!(told, [wanted; 3], "{damage}");
        texts::compare_free(&tables, rows, wanted.is_none(), random)
            .and_then(|_| typing::compare_free(&tables, rows, wanted.is_none(), random))
            .and_then(|_| intervals::compare_free(&tables, rows, wanted.is_none(), random))
            .map_err(|e| format!("{damage}: {e}"))?;
        seen.count(if wanted.is_some() { "damaged tables, out of form" } else { "damaged tables, in form" });
        buffer.0[table].part()[at] = kept;
    }
    Ok(())
}

/// An accepted file: the tables that build left, and the original's dictionary.
struct Built {
    file: Vec<u8>,
    buffer: Buffer,
    rows: Vec<Vec<u8>>,
    rust: BytePairEncoding,
}

/// The build of a case; nothing where it is refused.
fn compare_build(case: &Case, random: &mut Random, seen: &mut Seen) -> Result<Option<Built>, String> {
    let file = case.file();
    let sizes = case.sizes();
    let mut buffer = Buffer(sizes.map(|size| Lent::new(random, size)));
    let answer = ours::from_dictionary(&file, case.factor, buffer.lend());
    let wanted = model::build(&file, case.factor, sizes);
    same!(answer, wanted.as_ref().map(|t| t.places.len() as u32).map_err(|e| *e), "build");
    for (i, lent) in buffer.0.iter().enumerate() {
        if !lent.edges_kept() {
            return Err(format!("build wrote beyond buffer {i}"));
        }
    }
    seen.add("files", 1);
    let rows = model::parse(&file).unwrap_or_default();
    match &wanted {
        Ok(tables) => {
            seen.count("files accepted");
            compare_after_success(&buffer, tables)?;
        }
        Err(refusal) => {
            seen.count(format!("files refused, cause {}", refusal.cause));
            compare_after_refusal(&buffer, refusal.cause, rows.len())?;
        }
    }
    let rust = compare_original(case, &rows, &wanted, seen)?;
    Ok(rust.map(|rust| Built { file, buffer, rows, rust }))
}

/// Everything about one case.
fn compare(case: &Case, seen: &mut Seen) -> Result<(), String> {
    let mut random = Random::new(case.seed ^ 0x5eed);
    let Some(Built { file, mut buffer, rows, rust }) = compare_build(case, &mut random, seen)? else { return Ok(()) };
    let before = buffer.clone();
    let tables = buffer.tables(&file);
    compare_calls(&rows, &tables, &rust, &mut random, seen)?;
    let mut sides = texts::Sides::new(&rows, tables, &rust);
    texts::compare_texts(&mut sides, &mut random, seen)?;
    typing::compare_typing(&mut sides, &mut random, seen)?;
    intervals::compare_intervals(&mut sides, &mut random, seen)?;
    compare_damaged(&file, &mut buffer, &rows, &mut random, seen)?;
    same!(buffer == before, true, "the tables after the calls are those before");
    Ok(())
}

/// How a case fails, with some other random choices too.
fn fails(case: &mut Case) -> Option<String> {
    let first = case.seed;
    for seed in first..first + 8 {
        case.seed = seed;
        if let Err(failure) = compare(case, &mut Seen::default()) {
            return Some(failure);
        }
    }
    None
}

/// Simpler forms of a case: plain surroundings, the bytes in order, and one row fewer.
fn simpler(case: &Case) -> Vec<Case> {
    let mut forms = vec![];
    let mut form = case.clone();
    form.damage = None;
    forms.push(form.clone());
    form.spare = [0; 5];
    forms.push(form.clone());
    form.factor = 1;
    forms.push(form);
    let mut form = case.clone();
    let mut bytes: Vec<Vec<u8>> = form.rows.iter().filter(|row| row.len() == 1).cloned().collect();
    bytes.sort();
    let mut bytes = bytes.into_iter();
    for row in form.rows.iter_mut().filter(|row| row.len() == 1) {
        *row = bytes.next().unwrap();
    }
    forms.push(form);
    forms.extend((0..case.rows.len()).rev().map(|at| {
        let mut form = case.clone();
        form.rows.remove(at);
        form
    }));
    forms
}

/// How large a case is, for the search for the smallest.
fn size(case: &Case) -> (usize, usize, bool, [i32; 5], u64) {
    let swaps = case.rows.windows(2).filter(|r| r[0].len() == 1 && r[1].len() == 1 && r[0] > r[1]).count();
    (case.rows.len(), swaps, case.damage.is_some(), case.spare, case.factor)
}

/// The smallest form of a case that still fails.
fn smallest(mut case: Case, mut failure: String) -> (Case, String) {
    'again: loop {
        for mut form in simpler(&case) {
            if size(&form) < size(&case) {
                if let Some(still) = fails(&mut form) {
                    case = form;
                    failure = still;
                    continue 'again;
                }
            }
        }
        return (case, failure);
    }
}

/// A case, or the smallest form of it that fails.
fn compare_shrinking(case: Case, seen: &mut Seen) -> Result<(), String> {
    match compare(&case, seen) {
        Err(failure) => {
            println!("seed {}: {failure}", case.seed);
            let (case, failure) = smallest(case, failure);
            Err(format!("smallest: {failure}\n{}", case.shown()))
        }
        Ok(()) => Ok(()),
    }
}

/// Comparisons of one kind, how many there are, how many were made and how long they took.
struct Source {
    name: &'static str,
    size: usize,
    jobs: Box<dyn Iterator<Item = Job>>,
    made: usize,
    spent: Duration,
}

impl Source {
    fn new(name: &'static str, (size, jobs): (usize, impl Iterator<Item = Job> + 'static)) -> Self {
        Source { name, size, jobs: Box::new(jobs), made: 0, spent: Duration::ZERO }
    }
}

fn random_cases(first: u64) -> (usize, impl Iterator<Item = Job>) {
    (usize::MAX, (first..).map(|seed| -> Job { Box::new(move |seen| compare_shrinking(case(seed), seen)) }))
}

/// The next comparison of the kind that had the least time.
fn next(sources: &mut [Source], seen: &mut Seen) -> Result<(), String> {
    let waiting = sources.iter_mut().filter(|source| source.made < source.size);
    let source = waiting.min_by_key(|source| source.spent).expect("random cases do not end");
    let start = Instant::now();
    let job = source.jobs.next().expect("as many comparisons as were said");
    job(seen).map_err(|failure| format!("{}, comparison {}: {failure}", source.name, source.made + 1))?;
    source.made += 1;
    source.spent += start.elapsed();
    Ok(())
}

fn main() {
    let mut words = std::env::args().skip(1).map(|w| w.parse::<u64>().expect("a number"));
    let first = words.next().unwrap_or(1);
    let limit = Duration::from_secs(words.next().unwrap_or(20));
    println!("seed {first}");
    let start = Instant::now();
    let mut seen = Seen::default();
    let mut sources = [
        Source::new("fixed files", fixed::all()),
        Source::new("all small files", exhaustive::all()),
        Source::new("random files", random_cases(first)),
    ];
    while start.elapsed() < limit {
        if let Err(failure) = next(&mut sources, &mut seen) {
            println!("{failure}");
            std::process::exit(1);
        }
    }
    for Source { name, size, made, spent, .. } in &sources {
        let all = if *size == usize::MAX { String::new() } else { format!(" of {size}") };
        println!("{name}: {made}{all} comparisons, {:.1} s", spent.as_secs_f64());
    }
    for (what, times) in &seen.counts {
        println!("{what}: {times}");
    }
    for (what, (times, case)) in &seen.listed {
        println!("listed difference {what}: {times}; smallest: {}", case.shown());
    }
    println!(
        "{} calls ({} encodings), {} files, 0 differences beside the listed",
        seen.calls, seen.encodings, seen.counts["files"]
    );
}
