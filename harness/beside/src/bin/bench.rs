//! Prints one table: each call, ours and the Rust's, in nanoseconds, on three files and three sizes of text, and on the
//! worst texts. Both run in turns, and the best of several rounds counts.
//! `bench [ROUNDS [WORD [FILE]]]`: only the calls whose name has the word, and the same figures as CSV into the file.
use aneubeck_daachorse::{DoubleArrayAhoCorasick, DoubleArrayAhoCorasickBuilder, MatchKind};
use beside::encoders::{Encoder, ENCODERS};
use beside::files;
use beside::model;
use beside::random::Random;
use beside::text::{digits, Language};
use original::byte_pair_encoding::BytePairEncoding;
use ours::measured::Checked;
use ours::{Buffers, Tables, AREA, NONE};
use report::{Figure, Report};
use std::fs::File;
use std::hint::black_box;
use std::io::{self, Write};
use std::time::Instant;

#[path = "bench/report.rs"]
mod report;
#[path = "bench/typing.rs"]
mod typing;

const SIZES: [usize; 3] = [1024, 2048, 4096];
/// Texts in one loop.
const TEXTS: usize = 64;
/// Lookups in one loop.
const LOOKUPS: usize = 4096;
/// A round of a call takes about so long: short, so that some rounds are not interrupted on a machine with other work.
const ROUND: f64 = 300_000.0;

/// A call in its two forms; the time is divided by `per`.
struct Call<'a> {
    name: String,
    /// Bytes of a text, and how many texts.
    text: Option<(usize, usize)>,
    per: usize,
    /// How often our side checks the tables.
    checks: usize,
    /// Whether the call is no public one, and only its core is shown.
    core: bool,
    /// Whether the Rust's answer may be another one.
    guess: bool,
    ours: Option<Box<dyn FnMut() -> u64 + 'a>>,
    rust: Option<Box<dyn FnMut() -> u64 + 'a>>,
}

impl<'a> Call<'a> {
    fn new(name: impl Into<String>) -> Self {
        Call { name: name.into(), text: None, per: 1, checks: 1, core: false, guess: false, ours: None, rust: None }
    }

    fn ours(mut self, call: impl FnMut() -> u64 + 'a) -> Self {
        self.ours = Some(Box::new(call));
        self
    }

    fn rust(mut self, call: impl FnMut() -> u64 + 'a) -> Self {
        self.rust = Some(Box::new(call));
        self
    }

    /// On a text of so many bytes.
    fn text(mut self, size: usize) -> Self {
        self.text = Some((size, 1));
        self
    }

    /// On so many texts of so many bytes in turn, the tables checked for each.
    fn turns(mut self, size: usize, texts: usize) -> Self {
        self.text = Some((size, texts));
        self.run(texts, texts)
    }

    /// A loop over core lookups, which check nothing.
    fn lookups(mut self) -> Self {
        self.per = LOOKUPS;
        self.checks = 0;
        self
    }

    /// A run does the work so often, and checks the tables so often.
    fn run(mut self, per: usize, checks: usize) -> Self {
        self.per = per;
        self.checks = checks;
        self
    }

    /// The Rust guesses.
    fn guess(mut self, call: impl FnMut() -> u64 + 'a) -> Self {
        self.guess = true;
        self.rust(call)
    }

    /// No public call.
    fn core(mut self) -> Self {
        self.core = true;
        self
    }
}

/// How often a call fits into a round.
fn times(call: &mut (dyn FnMut() -> u64 + '_)) -> usize {
    let best = (0..4).map(|_| round(call, 1)).fold(f64::INFINITY, f64::min);
    (ROUND / (best + 1.0)).clamp(1.0, 1e6) as usize
}

fn round(call: &mut (dyn FnMut() -> u64 + '_), times: usize) -> f64 {
    let start = Instant::now();
    for _ in 0..times {
        black_box(call());
    }
    start.elapsed().as_nanos() as f64 / times as f64
}

/// Times of a call: ours, the Rust's, and the check of the tables.
struct Times {
    ours: Option<f64>,
    rust: Option<f64>,
    check: f64,
}

impl Times {
    /// Ours without the check; nothing where that drowns in the check's own noise.
    fn core(&self) -> Option<f64> {
        let core = self.ours? - self.check;
        (core > self.check / 50.0).then_some(core)
    }
}

/// The best of the rounds, ours, the Rust's and the check in turns.
fn measure(call: &mut Call, tables: Tables, rounds: usize) -> Times {
    let mut check = || u64::from(tables.num_tokens().unwrap());
    let mut forms: [Option<&mut (dyn FnMut() -> u64 + '_)>; 3] =
        [call.ours.as_mut().map(|f| f.as_mut() as _), call.rust.as_mut().map(|f| f.as_mut() as _), Some(&mut check)];
    if let ([Some(ours), Some(rust), _], false) = (&mut forms, call.guess) {
        assert_eq!(ours(), rust(), "{}", call.name);
    }
    let counts: Vec<usize> = forms.iter_mut().map(|f| f.as_mut().map_or(0, |f| times(*f))).collect();
    let mut best = [f64::INFINITY; 3];
    for _ in 0..rounds {
        for (i, form) in forms.iter_mut().enumerate() {
            if let Some(form) = form {
                best[i] = best[i].min(round(*form, counts[i]));
            }
        }
    }
    let figure = |time: f64| time.is_finite().then_some(time / call.per as f64);
    let check = best[2] * call.checks as f64 / call.per as f64;
    Times { ours: figure(best[0]), rust: figure(best[1]), check }
}

/// A file with our tables and the original's.
struct Sheet {
    name: &'static str,
    rows: Vec<Vec<u8>>,
    file: Vec<u8>,
    factor: u64,
    tables: [Vec<u32>; 4],
    area: Vec<u32>,
    rust: BytePairEncoding,
    text: Vec<u8>,
}

impl Sheet {
    fn new(name: &'static str, rows: Vec<Vec<u8>>, text: Vec<u8>) -> Self {
        let file = files::file_of(&rows);
        let factor = files::factor_for(&rows, 1);
        let mut tables = [(); 4].map(|_| vec![0; rows.len()]);
        let mut area = vec![0; AREA];
        let answer = ours::from_dictionary(&file, factor, lend(&mut tables, &mut area));
        assert_eq!(answer, Ok(rows.len() as u32), "{name}");
        let rust = original::build(rows.clone(), factor).expect(name);
        for (i, parts) in rust.probe_parts().iter().enumerate() {
            assert_eq!((tables[1][i], tables[2][i]), *parts, "{name}, row {i}");
        }
        assert_eq!(tables[3], rust.probe_prefixes(), "{name}");
        Sheet { name, rows, file, factor, tables, area, rust, text }
    }

    fn tables(&self) -> Tables<'_> {
        Tables {
            file: &self.file,
            places: &self.tables[0],
            lefts: &self.tables[1],
            rights: &self.tables[2],
            prefixes: &self.tables[3],
            area: &self.area,
        }
    }
}

fn lend<'a>(tables: &'a mut [Vec<u32>; 4], area: &'a mut [u32]) -> Buffers<'a> {
    let [places, lefts, rights, prefixes] = tables;
    Buffers { places, lefts, rights, prefixes, area }
}

/// The build. What the original's searchers cost depends on the stand-in, so they are shown apart.
fn builds(sheet: &Sheet, report: &mut Report) {
    let mut tables = sheet.tables.clone();
    let mut area = sheet.area.clone();
    let mut ours = f64::INFINITY;
    let mut rust = f64::INFINITY;
    let mut searchers = f64::INFINITY;
    for _ in 0..report.rounds {
        for _ in 0..4 {
            let start = Instant::now();
            let answer = ours::from_dictionary(&sheet.file, sheet.factor, lend(&mut tables, &mut area));
            ours = ours.min(start.elapsed().as_nanos() as f64);
            assert!(answer.is_ok());
        }
        let rows = sheet.rows.clone();
        let start = Instant::now();
        let built = BytePairEncoding::from_dictionary(rows, Some(sheet.factor));
        rust = rust.min(start.elapsed().as_nanos() as f64);
        drop(built);
        let reversed: Vec<Vec<u8>> = sheet.rows.iter().map(|row| row.iter().rev().copied().collect()).collect();
        let start = Instant::now();
        let longest: DoubleArrayAhoCorasick<u32> =
            DoubleArrayAhoCorasickBuilder::new().match_kind(MatchKind::LeftmostLongest).build(&sheet.rows).unwrap();
        let all = DoubleArrayAhoCorasick::<u32>::new(&sheet.rows).unwrap();
        let all_reversed = DoubleArrayAhoCorasick::<u32>::new(&reversed).unwrap();
        searchers = searchers.min(start.elapsed().as_nanos() as f64);
        drop((longest, all, all_reversed));
    }
    let mut add = |call: &str, rust| {
        let (call, ours) = (call.to_string(), Some(ours));
        report.add(Figure { call, file: sheet.name, public: ours, core: ours, rust: Some(rust), ..Figure::default() });
    };
    add("from_dictionary", rust);
    add("from_dictionary, without the Rust's searchers", rust - searchers);
}

fn total(list: &[u32]) -> u64 {
    list.iter().map(|&x| u64::from(x)).sum()
}

/// The lookups, on rows and pairs of rows.
fn lookups(sheet: &Sheet) -> Vec<Call<'_>> {
    let rust = &sheet.rust;
    let n = sheet.rows.len();
    let mut random = Random::new(7);
    let mut any = || (0..LOOKUPS).map(|_| random.below(n) as u32).collect::<Vec<u32>>();
    let codes = rust.encode_via_backtracking(&sheet.text);
    let code = |i: usize| codes[i % codes.len()];
    let mut random = Random::new(8);
    let joined: Vec<usize> = (0..LOOKUPS).map(|_| random.within(256, n - 1)).collect();
    let part = |side: usize| joined.iter().map(|&i| sheet.tables[side][i]).collect();
    let bytes = |c: u32| &sheet.rows[c as usize][..];
    let found = |b: &Vec<u8>| u64::from(rust.probe_find(b).unwrap_or(NONE));
    let pairs: [(&str, Vec<u32>, Vec<u32>); 3] = [
        ("random rows", any(), any()),
        ("codes of the text", (0..LOOKUPS).map(code).collect(), (1..=LOOKUPS).map(code).collect()),
        ("parts of a row", part(1), part(2)),
    ];
    let rows = any();
    let texts: Vec<Vec<u8>> = rows.iter().map(|&c| bytes(c).to_vec()).collect();
    let checked = Checked::new(sheet.tables()).unwrap();
    let rows = checked.codes(rows);
    let mut out = vec![0; LOOKUPS];
    let mut calls = vec![Call::new("row by its bytes, random row")
        .lookups()
        .ours(move || {
            checked.finds(&rows, &mut out);
            total(&out)
        })
        .rust(move || texts.iter().map(found).sum())];
    for (what, lefts, rights) in pairs {
        let texts: Vec<Vec<u8>> = lefts.iter().zip(&rights).map(|(&l, &r)| [bytes(l), bytes(r)].concat()).collect();
        let checked = Checked::new(sheet.tables()).unwrap();
        let (x, y) = (checked.codes(lefts.clone()), checked.codes(rights.clone()));
        let mut out = vec![0; LOOKUPS];
        let join = Call::new(format!("join, {what}")).lookups();
        calls.push(
            join.ours(move || {
                checked.joins(&x, &y, &mut out);
                total(&out)
            })
            .rust(move || texts.iter().map(found).sum()),
        );
        let checked = Checked::new(sheet.tables()).unwrap();
        let (x, y) = (checked.codes(lefts.clone()), checked.codes(rights.clone()));
        let mut out = vec![0; LOOKUPS];
        let pair = Call::new(format!("pair check, {what}")).lookups();
        calls.push(
            pair.ours(move || {
                checked.pairs(&x, &y, &mut out);
                total(&out)
            })
            .rust(move || lefts.iter().zip(&rights).map(|(&l, &r)| rust.probe_pair(l, r) as u64).sum()),
        );
    }
    calls
}

/// The calls that need the tables alone.
fn table_calls(sheet: &Sheet) -> Vec<Call<'_>> {
    let tables = sheet.tables();
    let rust = &sheet.rust;
    let n = sheet.rows.len();
    let mut random = Random::new(9);
    let (x, y) = (random.below(n) as u32, random.below(n) as u32);
    let mut bytes = [0; 64];
    vec![
        Call::new("token_len")
            .ours(move || u64::from(tables.token_len(black_box(x)).unwrap()))
            .rust(move || rust.token_len(black_box(x)) as u64),
        Call::new("token_bytes")
            .ours(move || u64::from(tables.token_bytes(black_box(x), &mut bytes).unwrap()))
            .rust(move || rust.token_bytes(black_box(x)).len() as u64),
        Call::new("is_valid_token_pair")
            .ours(move || u64::from(tables.is_valid_token_pair(black_box(x), black_box(y)).unwrap()))
            .rust(move || rust.probe_pair(black_box(x), black_box(y)) as u64),
    ]
}

/// The calls on a text.
fn text_calls<'a>(sheet: &'a Sheet, text: &'a [u8]) -> Vec<Call<'a>> {
    let tables = sheet.tables();
    let rust = &sheet.rust;
    let size = text.len();
    let on = |name: &str| Call::new(name).text(size);
    let encoder = |Encoder { name, ours, rust: theirs, .. }| {
        let (mut out, mut work) = (vec![0; size], vec![0; size]);
        let codes = theirs(rust, text);
        assert_eq!(ours(&tables, text, &mut out, &mut work), Ok(codes.len() as u32), "{name}");
        assert_eq!(out[..codes.len()], codes, "{name}");
        on(name)
            .ours(move || u64::from(ours(&tables, text, &mut out, &mut work).unwrap()))
            .rust(move || theirs(rust, text).len() as u64)
    };
    let limited = |name, limit: u64| {
        let mut work = vec![0; size];
        on(name).ours(move || tables.count_till_limit(text, limit, &mut work).unwrap().map_or(0, u64::from))
    };
    let guess = move |limit: usize| rust.count_till_limit(text, limit).map_or(0, |count| count as u64);
    let within = move |limit: usize| u64::from(model::limited(rust.count(text), limit as u64).unwrap_or(0));
    let mut work = vec![0; size];
    let mut bytes = vec![0; size];
    let codes = rust.encode_via_backtracking(text);
    assert_eq!(tables.decode_tokens(&codes, &mut bytes), Ok(size as u32));
    assert_eq!(bytes, text);
    let again = codes.clone();
    let mut calls: Vec<Call> = ENCODERS.into_iter().map(encoder).collect();
    let (one, other) = (Checked::new(tables).unwrap(), Checked::new(tables).unwrap());
    let (mut codes_out, mut entries, mut rows_out) = (vec![0; size], vec![0; size], vec![0; size]);
    calls.extend([
        on("encode_minimal, core by itself")
            .run(1, 0)
            .core()
            .ours(move || one.minimal(text, &mut codes_out, &mut entries) as u64)
            .rust(move || rust.encode_minimal(text).len() as u64),
        on("encode_greedy, core by itself")
            .run(1, 0)
            .core()
            .ours(move || other.greedy(text, &mut rows_out) as u64)
            .rust(move || rust.encode_greedy(text).len() as u64),
        on("count")
            .ours(move || u64::from(tables.count(text, &mut work).unwrap()))
            .rust(move || rust.count(text) as u64),
        limited("count_till_limit, no limit", u64::MAX).rust(move || guess(usize::MAX)),
        limited("count_till_limit, 100", 100).guess(move || guess(100)),
        limited("count_till_limit, 100, and the Rust's count", 100).rust(move || within(100)),
        on("decode_tokens")
            .ours(move || u64::from(tables.decode_tokens(&codes, &mut bytes).unwrap()))
            .rust(move || rust.decode_tokens(&again).len() as u64),
    ]);
    calls
}

/// The encoders and counters on many texts in turn: the branches of one text that is encoded again and again are foreseen better
/// than those of a text that comes once.
fn turns<'a>(sheet: &'a Sheet, texts: &'a [Vec<u8>]) -> Vec<Call<'a>> {
    let tables = sheet.tables();
    let rust = &sheet.rust;
    let size = SIZES[2];
    let encoder = |Encoder { name, ours, rust: theirs, .. }| {
        let (mut out, mut work) = (vec![0; size], vec![0; size]);
        let mut count = move |text: &[u8]| u64::from(ours(&tables, text, &mut out, &mut work).unwrap());
        Call::new(name)
            .turns(size, texts.len())
            .ours(move || texts.iter().map(|text| count(text)).sum())
            .rust(move || texts.iter().map(|text| theirs(rust, text).len() as u64).sum())
    };
    let mut calls: Vec<Call> = ENCODERS.into_iter().map(encoder).collect();
    let on = |name: &str| Call::new(name).turns(size, texts.len());
    let limited = |name| {
        let mut work = vec![0; size];
        let mut told = move |text: &[u8]| tables.count_till_limit(text, 100, &mut work).unwrap().map_or(0, u64::from);
        on(name).ours(move || texts.iter().map(|text| told(text)).sum())
    };
    let mut work = vec![0; size];
    let mut count = move |text: &[u8]| u64::from(tables.count(text, &mut work).unwrap());
    let counted = move || texts.iter().map(|text| rust.count(text) as u64).sum();
    let within = |text: &[u8]| u64::from(model::limited(rust.count(text), 100).unwrap_or(0));
    let guess = |text: &[u8]| rust.count_till_limit(text, 100).map_or(0, |count| count as u64);
    calls.extend([
        on("count").ours(move || texts.iter().map(|text| count(text)).sum()).rust(counted),
        limited("count_till_limit, 100").guess(move || texts.iter().map(|text| guess(text)).sum()),
        limited("count_till_limit, 100, and the Rust's count").rust(move || texts.iter().map(|text| within(text)).sum()),
    ]);
    calls
}

/// Measures the calls that are wanted.
fn figures(sheet: &Sheet, calls: Vec<Call>, report: &mut Report) {
    for mut call in calls {
        let file = sheet.name;
        let mut figure = Figure { call: call.name.clone(), file, text: call.text, ..Figure::default() };
        if !report.wants(&figure.name()) {
            continue;
        }
        let times = measure(&mut call, sheet.tables(), report.rounds);
        figure.rust = times.rust;
        figure.core = if call.checks > 0 { times.core() } else { times.ours };
        if call.checks > 0 && !call.core {
            figure.public = times.ours;
            figure.check = Some(times.check);
        }
        report.add(figure);
    }
}

/// The check of the tables, as a call and for each row.
fn checks(sheet: &Sheet, report: &mut Report) {
    let name = "check of the tables (num_tokens)";
    if !report.wants(name) {
        return;
    }
    let check = measure(&mut Call::new(name), sheet.tables(), report.rounds).check;
    for (call, time) in [(name, check), ("check of the tables, a row", check / sheet.rows.len() as f64)] {
        let (call, time) = (call.to_string(), Some(time));
        report.add(Figure { call, file: sheet.name, public: time, check: time, ..Figure::default() });
    }
}

/// One byte 4,096 times, the text that backtracks most, and the one whose running count is furthest above its count.
fn worst() -> [Sheet; 4] {
    let size = SIZES[2];
    let piece = [b"a", &[b'b'; 62][..], b"c"].concat();
    [
        Sheet::new("1,356 rows, grid, one digit", files::grid(), vec![b'0'; size]),
        Sheet::new("319 rows, a to a^64, a", files::repeated(64), vec![b'a'; size]),
        Sheet::new("320 rows, b^k c, a b^62 c", files::backtracking(63), piece.repeat(size / piece.len())),
        Sheet::new("4,056 rows, neighbours", files::neighbours(), files::neighbours_text()),
    ]
}

fn main() {
    let mut words = std::env::args().skip(1);
    let rounds = words.next().map(|w| w.parse().expect("a number of rounds")).unwrap_or(40);
    let only = words.next().unwrap_or_default();
    let csv: Box<dyn Write> = match words.next() {
        Some(path) => Box::new(File::create(&path).expect(&path)),
        None => Box::new(io::sink()),
    };
    let mut report = Report { rounds, only, csv };
    let language = Language::new(1, 6000);
    let english = language.text(2, SIZES[2]);
    let sheets = [
        Sheet::new("512 rows", files::trained(&language, 512), english.clone()),
        Sheet::new("1,356 rows, grid", files::grid(), digits(2, SIZES[2])),
        Sheet::new("4,096 rows", files::trained(&language, 4096), english),
    ];
    report.begin();
    let words: Vec<_> = (0..TEXTS).map(|k| language.text(3 + k as u64, SIZES[2])).collect();
    let numbers: Vec<_> = (0..TEXTS).map(|k| digits(3 + k as u64, SIZES[2])).collect();
    for (sheet, texts) in sheets.iter().zip([&words, &numbers, &words]) {
        checks(sheet, &mut report);
        if report.wants("from_dictionary") {
            builds(sheet, &mut report);
        }
        let mut calls = table_calls(sheet);
        calls.extend(lookups(sheet));
        for size in SIZES {
            calls.extend(text_calls(sheet, &sheet.text[..size]));
            calls.extend(typing::text_calls(sheet, &sheet.text[..size]));
        }
        calls.extend(typing::pushes(sheet));
        calls.extend(turns(sheet, texts));
        figures(sheet, calls, &mut report);
    }
    for sheet in worst() {
        figures(&sheet, text_calls(&sheet, &sheet.text), &mut report);
    }
}
