//! Files that are always compared: texts of every length about each boundary and of every kind, and damaged copies, each byte of
//! small files changed in turn, some bytes of large ones.
use crate::texts::{self, Sides, KINDS};
use crate::{compare_build, compare_shrinking, Built, Job, Seen};
use beside::cases::{Case, Damage};
use beside::files;
use beside::random::Random;
use beside::text::Language;
use std::rc::Rc;

/// About a word and the first two of the bit set, the longest row, and the longest text.
const LENGTHS: [usize; 12] = [0, 1, 2, 3, 63, 64, 65, 127, 128, 4095, 4096, 4097];

/// E, F and G of document 01, and a file with its letters late.
fn small() -> Vec<Vec<Vec<u8>>> {
    let mut late = files::bytes();
    late.retain(|row| !b"abc".contains(&row[0]));
    late.extend(["c", "a", "ca", "b", "bca", "ab", "aab"].map(|row| row.as_bytes().to_vec()));
    vec![files::with(&["bc", "ab", "cd"]), files::with(&["aa"]), files::g(), late]
}

/// The files that the benchmark uses, and longer ones of the kinds of document 01's traps.
fn large() -> Vec<Vec<Vec<u8>>> {
    let language = Language::new(7, 4000);
    let mut backwards = files::bytes();
    backwards.reverse();
    backwards.extend(files::trained(&language, 700).split_off(256));
    vec![
        files::repeated(64),
        files::backtracking(62),
        files::grid(),
        files::trained(&language, 512),
        backwards,
        files::trained(&language, 4096),
    ]
}

fn case(rows: &[Vec<u8>], seed: u64, damage: Option<Damage>) -> Case {
    let factor = files::factor_for(rows, seed);
    Case { seed, rows: rows.to_vec(), damage, factor, spare: [1; 5] }
}

/// The smallest files that the original takes and document 01 refuses: too few or too many rows, a byte without a row, a row over 64 bytes.
fn refused() -> Vec<Vec<Vec<u8>>> {
    let mut all: Vec<Vec<Vec<u8>>> = (0..256).map(|count| files::bytes()[..count].to_vec()).collect();
    for byte in 0..=255 {
        let mut rows = files::with(&["ab"]);
        rows.retain(|row| row[..] != [byte]);
        all.push(rows);
    }
    let mut many = files::bytes();
    many.extend((0..3841u32).map(|k| vec![(k / 256) as u8, k as u8]));
    all.push(many);
    let powers: Vec<Vec<u8>> = [1, 2, 4, 8, 16, 32, 64, 65].map(|size| vec![b'a'; size]).to_vec();
    all.push([files::bytes(), powers[1..].to_vec()].concat());
    all.push(powers);
    all
}

/// Equal rows and clashes, under factors that bring the clash and that do not: a clash alone, with an equal row above it
/// or below it, beside a row without parts, a row that equals one row and clashes with another, and equal rows alone.
fn clashing() -> Vec<(Vec<Vec<u8>>, u64)> {
    let row = |text: &str| vec![text.as_bytes().to_vec()];
    let files = [
        files::clash(),
        [files::clash(), row("cu")].concat(),
        [row("dacuba"), files::clash()].concat(),
        [row("ab"), files::clash()].concat(),
        [files::clash(), row("curulo")].concat(),
        [files::clash(), row("dacuba")].concat(),
        files::with(&["ab", "ab"]),
        files::with(&["a"]),
    ];
    let factors = [1, 2, 3, 1 << 32, 1 << 48, 1 << 63];
    files.iter().flat_map(|rows| factors.map(|factor| (rows.clone(), factor))).collect()
}

/// Texts of each length and kind.
fn compare_boundaries(case: &Case, seen: &mut Seen) -> Result<(), String> {
    let mut random = Random::new(case.seed);
    let Some(Built { file, buffer, rows, rust }) = compare_build(case, &mut random, seen)? else { return Ok(()) };
    let mut sides = Sides::new(&rows, buffer.tables(&file), &rust);
    for size in LENGTHS {
        for kind in 0..KINDS {
            let text = texts::text_of(&mut random, &rows, size, kind);
            texts::compare_shrinking(&mut sides, text, random.word(), seen)?;
        }
    }
    Ok(())
}

/// The text with many more codes on the way than at the end, and its fronts.
fn compare_neighbours(seen: &mut Seen) -> Result<(), String> {
    let case = case(&files::neighbours(), 1, None);
    let mut random = Random::new(case.seed);
    let built = compare_build(&case, &mut random, seen)?;
    let Built { file, buffer, rows, rust } = built.expect("a file that is accepted");
    let mut sides = Sides::new(&rows, buffer.tables(&file), &rust);
    for size in [2561, 2560, 2559, 1281, 129, 128, 65] {
        let text = files::neighbours_text()[..size].to_vec();
        texts::compare_shrinking(&mut sides, text, random.word(), seen)?;
    }
    Ok(())
}

/// The damages at one place: the byte changed, the file cut there.
fn damages(file: &[u8], at: usize) -> Vec<Damage> {
    let old = file[at];
    let mut bytes = vec![old ^ 1, old.wrapping_add(1), 0, 64, 65, 0xc7];
    bytes.sort();
    bytes.dedup();
    bytes.retain(|&byte| byte != old);
    let mut damages: Vec<Damage> = bytes.into_iter().map(|byte| Damage::Set(at, byte)).collect();
    damages.push(Damage::Cut(at));
    damages
}

/// The comparisons, and how many.
pub fn all() -> (usize, impl Iterator<Item = Job>) {
    let (small, large): (Vec<_>, Vec<_>) =
        (small().into_iter().map(Rc::new).collect(), large().into_iter().map(Rc::new).collect());
    let mut jobs: Vec<Job> = vec![];
    for rows in refused() {
        let case = Case { seed: 0, rows, damage: None, factor: 1, spare: [0; 5] };
        jobs.push(Box::new(move |seen| compare_shrinking(case, seen)));
    }
    for (rows, factor) in clashing() {
        let case = Case { seed: 0, rows, damage: None, factor, spare: [2; 5] };
        jobs.push(Box::new(move |seen| compare_shrinking(case, seen)));
    }
    for rows in small.iter().chain(&large).cloned() {
        let seed = jobs.len() as u64;
        jobs.push(Box::new(move |seen| {
            let case = case(&rows, seed, None);
            compare_boundaries(&case, seen).map_err(|failure| format!("{failure}\n{}", case.shown()))
        }));
    }
    jobs.push(Box::new(compare_neighbours));
    let mut random = Random::new(1);
    for (rows, in_turn) in small.into_iter().map(|rows| (rows, true)).chain(large.into_iter().map(|rows| (rows, false)))
    {
        let file = files::file_of(&rows);
        let places: Vec<usize> =
            if in_turn { (0..file.len()).collect() } else { (0..12).map(|_| random.below(file.len())).collect() };
        for damage in places.into_iter().flat_map(|at| damages(&file, at)) {
            let (rows, seed) = (rows.clone(), jobs.len() as u64);
            jobs.push(Box::new(move |seen| compare_shrinking(case(&rows, seed, Some(damage)), seen)));
        }
    }
    (jobs.len(), jobs.into_iter())
}
