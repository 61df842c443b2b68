//! Makes the replay list: commands for the program `samples` (crates/samples/README.md says what they mean), and what it
//! has to print.
//! `list commands` prints the one, `list outcomes` the other; the seed is fixed. Answers and codes are the original's. Refusals that the
//! original does not have, and the places of those that it has as panics, are the model's.
use beside::cases::{case, Case};
use beside::encoders::ENCODERS;
use beside::files;
use beside::model;
use beside::random::Random;
use beside::text::{self, Language};
use original::byte_pair_encoding::BytePairEncoding;
use ours::{Refusal, AREA, NONE};
use std::io::Write;

/// The commands that name the encoders, in the order of ENCODERS.
const NAMES: [&str; 5] = ["bitfield", "backtracking", "table", "minimal", "greedy"];

/// The first sizes of the lent buffers: tables, output and work, and decoded bytes.
const LENT: usize = 4200;
const LENT_BYTES: usize = 66000;

const KEPT: &[u8] = b"; the rest as before\n";

/// Bytes as the commands write them.
fn escaped(bytes: &[u8]) -> String {
    let shown = |&b: &u8| match b {
        b'\\' => "\\\\".to_string(),
        b' '..=b'~' => (b as char).to_string(),
        _ => format!("\\x{b:02x}"),
    };
    bytes.iter().map(shown).collect()
}

struct List {
    random: Random,
    commands: Vec<u8>,
    outcomes: Vec<u8>,
    cases: usize,
    files: usize,
}

/// A file that both sides accepted.
struct Accepted {
    rows: Vec<Vec<u8>>,
    rust: BytePairEncoding,
    places: Vec<u32>,
    factor: u64,
}

impl List {
    fn command(&mut self, line: String) {
        writeln!(self.commands, "{line}").unwrap();
    }

    /// A command that prints: its words, and number, place and the rest of the line.
    fn case(&mut self, line: String, number: u32, place: u64, rest: &[u8]) {
        let name = line.split(' ').next().unwrap().to_string();
        self.command(line);
        write!(self.outcomes, "{name} {number} {place}").unwrap();
        self.outcomes.extend(rest);
        self.cases += 1;
    }

    /// The rows of a file, the 256 bytes in one line where they stand in front in order.
    fn rows(&mut self, rows: &[Vec<u8>]) {
        self.command("empty".to_string());
        let letters = rows.iter().zip(files::bytes()).take_while(|(row, byte)| *row == byte).count();
        if letters > 0 {
            self.command(format!("letters {letters}"));
        }
        for row in &rows[letters..] {
            self.command(format!("row {}", escaped(row)));
        }
        self.files += 1;
    }

    /// A build over buffers of the first sizes. The original accepts and the model too, or the outcome is the model's refusal.
    fn build(&mut self, rows: &[Vec<u8>], factor: u64) -> Option<Accepted> {
        self.rows(rows);
        self.build_again(rows, factor)
    }

    fn build_again(&mut self, rows: &[Vec<u8>], factor: u64) -> Option<Accepted> {
        let file = files::file_of(rows);
        let sizes = [LENT, LENT, LENT, LENT, AREA + 16];
        let rust = original::build(rows.to_vec(), factor);
        let line = format!("build {factor}");
        match (model::build(&file, factor, sizes), rust) {
            (Ok(tables), Ok(rust)) => {
                let prefixes = if rust.probe_prefixes().iter().all(|&p| p == NONE) { "none" } else { "filled" };
                let states = format!(" filled filled filled {prefixes} filled\n");
                self.case(line, 0, rust.num_tokens() as u64, states.as_bytes());
                Some(Accepted { rows: rows.to_vec(), rust, places: tables.places, factor })
            }
            (Ok(_), Err(panic)) => panic!("the original refuses: {panic}"),
            (Err(refusal), rust) => {
                assert!(!matches!(refusal.cause, 5 | 13) || rust.is_err(), "the original accepts two rows of one hash");
                self.refused_build(line, refusal);
                None
            }
        }
    }

    fn refused_build(&mut self, line: String, Refusal { cause, place }: Refusal) {
        let state = if model::clears(cause) { "none" } else { "unchanged" };
        self.case(line, cause, place.into(), format!("{}\n", format!(" {state}").repeat(5)).as_bytes());
    }

    /// A file with other bytes than whole records: refusals 2.
    fn raw(&mut self, rows: &[Vec<u8>], more: &[u8]) {
        self.rows(rows);
        self.command(format!("raw {}", escaped(more)));
        let file = [&files::file_of(rows)[..], more].concat();
        let refusal = model::build(&file, 1, [LENT, LENT, LENT, LENT, AREA + 16]).unwrap_err();
        self.refused_build("build 1".to_string(), refusal);
    }

    /// Parts and prefixes, lengths, pairs.
    fn ask(&mut self, file: &Accepted, times: usize) {
        let Accepted { rows, rust, places, .. } = file;
        let n = rows.len();
        self.case("rows".to_string(), 0, rust.num_tokens() as u64, b"\n");
        for _ in 0..times {
            let row =
                if self.random.once_in(4) { self.random.below(n) } else { self.random.within(256.min(n - 1), n - 1) };
            self.command(format!("entries {row}"));
            let (left, right) = rust.probe_parts()[row];
            writeln!(self.outcomes, "entries {row} {} {left} {right} {}", places[row], rust.probe_prefixes()[row])
                .unwrap();
            self.cases += 1;
            self.case(format!("length {row}"), 0, rust.token_len(row as u32) as u64, b"\n");
            let (x, y) = if self.random.once_in(3) { (left, right) } else { (row as u32, self.random.below(n) as u32) };
            self.case(format!("pair {x} {y}"), 0, rust.probe_pair(x, y).into(), b"\n");
            let z = self.random.pick(&[left, right, row as u32]).to_owned();
            self.case(format!("pair {z} {row}"), 0, rust.probe_pair(z, row as u32).into(), b"\n");
        }
        let unknown = *self.random.pick(&[n as u32, n as u32 + 1, NONE]);
        self.case(format!("pair {unknown} 0"), 10, 0, b"\n");
        self.case(format!("pair 0 {unknown}"), 10, 1, b"\n");
        self.case(format!("length {unknown}"), 10, 0, b"\n");
    }

    /// Sets the text by the line, and sends and counts it.
    fn text(&mut self, file: &Accepted, line: String, text: &[u8], encoders: usize) {
        self.command(line);
        for (name, encoder) in NAMES.iter().zip(ENCODERS).take(encoders) {
            let codes = (encoder.rust)(&file.rust, text);
            let said: String = codes.iter().map(|code| format!(" {code}")).collect();
            self.case(name.to_string(), 0, codes.len() as u64, &[b":", said.as_bytes(), KEPT].concat());
        }
        let count = file.rust.count(text);
        self.case("count".to_string(), 0, count as u64, KEPT);
        let random = self.random.below(count + 3);
        for limit in [count, count.saturating_sub(1), count.saturating_sub(11), random] {
            self.limit(count, limit);
        }
    }

    /// Sets the text, and counts it with these limits.
    fn limits(&mut self, file: &Accepted, text: &[u8], limits: &[usize]) {
        self.command(format!("text {}", escaped(text)));
        let count = file.rust.count(text);
        self.case("count".to_string(), 0, count as u64, KEPT);
        for &limit in limits {
            self.limit(count, limit);
        }
    }

    /// The original's count and the limit: its own call guesses.
    fn limit(&mut self, count: usize, limit: usize) {
        let told = if limit < count { NONE } else { count as u32 };
        self.case(format!("limit {limit}"), 0, told.into(), KEPT);
    }

    /// Decodes codes, with so many bytes lent.
    fn decode(&mut self, file: &Accepted, codes: &[u32], lent: usize) {
        let words: String = codes.iter().map(|code| format!(" {code}")).collect();
        self.command(if words.is_empty() { "codes ".to_string() } else { format!("codes{words}") });
        self.decode_set("decode".to_string(), file, codes, lent);
        if let [code] = codes {
            self.decode_set(format!("bytes {code}"), file, codes, lent);
        }
    }

    fn decode_set(&mut self, line: String, file: &Accepted, codes: &[u32], lent: usize) {
        match model::decode_refusal(&file.rows, codes, lent, true) {
            Some(Refusal { cause, place }) => self.case(line, cause, place.into(), &[b": ", KEPT].concat()),
            None => {
                let bytes = file.rust.decode_tokens(codes);
                self.case(line, 0, bytes.len() as u64, &[b": ", &bytes[..], KEPT].concat());
            }
        }
    }

    /// A text of a file's rows, of its letters or near its rows; printable bytes only, so that the list stays readable.
    fn some_text(&mut self, file: &Accepted, size: usize) -> Vec<u8> {
        let plain = |row: &&Vec<u8>| row.iter().all(|b| (b' '..=b'~').contains(b));
        let longer: Vec<&Vec<u8>> = file.rows.iter().filter(|row| row.len() > 1).filter(plain).collect();
        let letters: Vec<u8> = longer.iter().flat_map(|row| row.iter().copied()).chain(*b"ab").collect();
        let kind = self.random.below(4);
        let mut text = vec![];
        while text.len() < size {
            match kind {
                0 if !longer.is_empty() => text.extend(self.random.pick::<&Vec<u8>>(&longer).iter()),
                1 if !longer.is_empty() => {
                    let mut row = self.random.pick(&longer).to_vec();
                    let at = self.random.below(row.len());
                    row[at] = *self.random.pick(&letters);
                    text.extend(row);
                }
                2 => text.extend(vec![*self.random.pick(&letters); self.random.within(1, 9)]),
                _ => text.push(*self.random.pick(&letters)),
            }
        }
        text.truncate(size);
        text
    }

    /// Everything on an accepted file.
    fn accepted(&mut self, file: &Accepted, texts: usize) {
        self.ask(file, 4);
        let edges = [0, 1, 2, 63, 64, 65];
        for i in 0..texts {
            let size = if i < 3 { *self.random.pick(&edges) } else { self.random.within(3, 30) };
            let text = self.some_text(file, size);
            self.text(file, format!("text {}", escaped(&text)), &text, NAMES.len());
            if i % 3 == 0 {
                let codes = file.rust.encode_via_backtracking(&text);
                self.decode(file, &codes, LENT_BYTES);
            }
        }
        let plain: Vec<u32> = (0..file.rows.len() as u32)
            .filter(|&c| file.rows[c as usize].iter().all(|b| (b' '..=b'~').contains(b)))
            .collect();
        let codes: Vec<u32> = (0..self.random.within(1, 12)).map(|_| *self.random.pick(&plain)).collect();
        self.decode(file, &codes, LENT_BYTES);
        self.decode(file, &codes[..1], LENT_BYTES);
        let unknown = [&codes[..], &[file.rows.len() as u32]].concat();
        self.decode(file, &unknown, LENT_BYTES);
    }

    /// Refusals 9, 7 and 8, on an accepted file.
    fn refusals(&mut self, file: &Accepted) {
        let calls = [&NAMES[..], &["count", "limit 3"]].concat();
        let refused = |list: &mut Self, cause: u32, names: &[&str]| {
            for name in names {
                let sent: &[u8] = if NAMES.contains(name) { b":" } else { b"" };
                list.case(name.to_string(), cause, 0, &[sent, KEPT].concat());
            }
        };
        self.command("repeat 4097 a".to_string());
        refused(self, 9, &calls);
        self.command("repeat 65 a".to_string());
        self.command("lend work 64".to_string());
        refused(self, 7, &calls);
        self.command("lend all".to_string());
        self.command("lend output 64".to_string());
        refused(self, 7, &NAMES);
        self.command("lend all".to_string());
        let (row, n) = (file.rows.len() - 1, file.rows.len());
        for damage in [
            format!("lend prefixes {row}"),
            format!("lend area {}", AREA - 1),
            format!("set lefts {row} {n}"),
            format!("set places {row} 0"),
        ] {
            self.command(damage);
            refused(self, 8, &calls);
            self.case("rows".to_string(), 8, 0, b"\n");
            self.case(format!("pair 0 {n}"), 8, 0, b"\n");
            self.command("lend all".to_string());
        }
        self.build_again(&file.rows, file.factor);
        self.command("same 4097 97".to_string());
        self.decode_set("decode".to_string(), file, &[97; 4097], LENT_BYTES);
        self.command("lend bytes 64".to_string());
        self.command("same 65 97".to_string());
        self.decode_set("decode".to_string(), file, &[97; 65], 64);
        self.command("same 64 97".to_string());
        self.decode_set("decode".to_string(), file, &[97; 64], 64);
        self.command("lend all".to_string());
    }

    /// Texts about the longest, of one row again and again.
    fn long(&mut self, file: &Accepted, row: &[u8], encoders: usize) {
        for size in [4095, 4096] {
            let times = size / row.len();
            let text = row.repeat(times);
            self.text(file, format!("repeat {times} {}", escaped(row)), &text, encoders);
        }
    }
}

/// Random files that are accepted, with rows in odd orders or letters late; none that begins with all bytes in order.
fn odd_files(count: usize) -> Vec<Case> {
    let odd = |case: &Case| {
        let longer = case.rows.iter().filter(|row| row.len() > 1).count();
        case.damage.is_none() && longer > 3 && case.rows.len() < 300 && case.rows[..256] != files::bytes()[..]
    };
    let accepted = |case: &Case| model::build(&case.file(), case.factor, [LENT, LENT, LENT, LENT, AREA]).is_ok();
    (1..).map(case).filter(odd).filter(accepted).take(count).collect()
}

fn main() {
    let mut list = List { random: Random::new(8), commands: vec![], outcomes: vec![], cases: 0, files: 0 };
    let language = Language::new(7, 4000);
    let trained = |size| files::trained(&language, size);
    let powers: Vec<Vec<u8>> = (1..=6).map(|k| vec![b'a'; 1 << k]).collect();
    let mut backwards = files::bytes();
    backwards.reverse();
    backwards.extend(trained(330).split_off(256));
    let named: Vec<(Vec<Vec<u8>>, usize)> = vec![
        (files::with(&["bc", "ab", "cd"]), 12),
        (files::with(&["aa"]), 12),
        (files::bytes(), 4),
        (files::with(&["cd", "ab", "bc", "abc", "bcd", "aab"]), 12),
        (files::repeated(64), 10),
        ([files::bytes(), powers].concat(), 10),
        (files::backtracking(12), 12),
        (files::backtracking(62), 8),
        (files::grid(), 10),
        (backwards, 12),
        (trained(300), 12),
        (trained(512), 12),
        (trained(1500), 12),
        (trained(4096), 12),
    ];
    for (rows, texts) in named {
        let factor = files::factor_for(&rows, rows.len() as u64);
        let file = list.build(&rows, factor).expect("a file that is accepted");
        list.accepted(&file, texts);
        if rows.len() < 600 {
            list.refusals(&file);
        }
    }
    for case in odd_files(14) {
        let file = list.build(&case.rows, case.factor).expect("a file that is accepted");
        list.accepted(&file, 10);
    }
    let repeated = files::repeated(64);
    let file = list.build(&repeated, 1).expect("a file that is accepted");
    list.long(&file, b"a", NAMES.len());
    let file = list.build(&files::with(&["bc", "ab", "cd"]), 1).expect("a file that is accepted");
    list.long(&file, b"abcd", 0);
    // Refused files.
    let mut missing = files::with(&["ab"]);
    missing.remove(200);
    let clash_and_equal = [files::clash(), vec![b"cu".to_vec()]].concat();
    for rows in [
        files::g(),
        files::with(&["abc"]),
        files::with(&["ab", "cd", "ab"]),
        files::clash(),
        clash_and_equal,
        missing,
        files::bytes()[..255].to_vec(),
    ] {
        assert!(list.build(&rows, 1).is_none());
    }
    assert!(list.build(&files::bytes(), 0).is_none());
    for more in
        [&[0xc7, 0x51][..], &[0xc7, 0x51, 0], &[0xc7, 0x51, 65], &[0xc7, 0x51, 2, 97], &[0xc7, 0x50, 1, 97], &[0]]
    {
        list.raw(&files::bytes(), more);
    }
    // Limits: a text with many more codes on the way than at the end, and texts that are over long before they end.
    let rows = files::neighbours();
    let file = list.build(&rows, files::factor_for(&rows, 1)).expect("a file that is accepted");
    list.limits(&file, &files::neighbours_text(), &[0, 1, 40, 41, 42, 100, 1269, 1270, 1280]);
    list.limits(&file, &files::neighbours_text()[..2560], &[0, 1, 41, 100, 1279, 1280]);
    let file = list.build(&files::grid(), 1).expect("a file that is accepted");
    let numbers = text::digits(9, 4096);
    list.limits(&file, &numbers, &[0, 1, 40, 100, 1000, file.rust.count(&numbers) - 1, file.rust.count(&numbers)]);
    list.limits(&file, &[b'0'; 4096], &[0, 1, 40, 100, 1364, 1365, 1366]);
    eprintln!(
        "{} cases, {} files, {} bytes of commands, {} bytes of outcomes",
        list.cases,
        list.files,
        list.commands.len(),
        list.outcomes.len()
    );
    let wanted = match std::env::args().nth(1).as_deref() {
        Some("commands") => list.commands,
        Some("outcomes") => list.outcomes,
        _ => panic!("list commands, or list outcomes"),
    };
    std::io::stdout().write_all(&wanted).unwrap();
}
