//! Random small phrase files: the 256 bytes and some longer rows over few letters, in all kinds of orders, and damaged copies.
use crate::files;
use crate::random::Random;
use crate::train;
use ours::AREA;

/// What is done to a file after it is written.
#[derive(Clone, Debug)]
pub enum Damage {
    Set(usize, u8),
    Cut(usize),
    Add(Vec<u8>),
}

/// A call of build: rows, damage to the file, factor, and the sizes of the lent buffers beyond what is needed.
#[derive(Clone, Debug)]
pub struct Case {
    pub seed: u64,
    pub rows: Vec<Vec<u8>>,
    pub damage: Option<Damage>,
    pub factor: u64,
    /// Sizes of the four tables and the area: so many more or fewer than n, or than 16,384.
    pub spare: [i32; 5],
}

impl Case {
    pub fn file(&self) -> Vec<u8> {
        let mut file = files::file_of(&self.rows);
        match &self.damage {
            None => {}
            Some(Damage::Set(at, byte)) => {
                let at = at % file.len().max(1);
                if let Some(b) = file.get_mut(at) {
                    *b = *byte;
                }
            }
            Some(Damage::Cut(size)) => file.truncate(*size % (file.len() + 1)),
            Some(Damage::Add(bytes)) => file.extend(bytes),
        }
        file
    }

    pub fn sizes(&self) -> [usize; 5] {
        let n = self.rows.len();
        [n, n, n, n, AREA]
            .map(|size| size as i32)
            .iter()
            .zip(&self.spare)
            .map(|(s, k)| (s + k).max(0) as usize)
            .collect::<Vec<usize>>()
            .try_into()
            .unwrap()
    }

    /// The longer rows and, where the bytes do not stand in front in order, where they stand.
    pub fn shown(&self) -> String {
        let mut text = String::new();
        let mut at = 0;
        while at < self.rows.len() {
            let start = at;
            while at < self.rows.len()
                && self.rows[at].len() == 1
                && self.rows[at][0] as usize == self.rows[start][0] as usize + (at - start)
            {
                at += 1;
            }
            if at > start + 1 {
                text += &format!("bytes {} to {}; ", self.rows[start][0], self.rows[at - 1][0]);
                continue;
            }
            text += &format!("row {start} \"{}\"; ", self.rows[start].escape_ascii());
            at = start + 1;
        }
        format!("{text}factor {}, spare {:?}, damage {:?}", self.factor, self.spare, self.damage)
    }
}

/// Longer rows over the first letters of the alphabet.
fn longer(random: &mut Random, letters: usize) -> Vec<Vec<u8>> {
    let letter = |random: &mut Random| b'a' + random.below(letters) as u8;
    let count = random.below(15);
    let mut rows: Vec<Vec<u8>> = vec![];
    match random.below(5) {
        // Joins of rows that are there.
        0 | 1 => {
            let mut pool: Vec<Vec<u8>> = (0..letters).map(|i| vec![b'a' + i as u8]).collect();
            for _ in 0..count {
                let row = [&random.pick(&pool)[..], &random.pick(&pool)[..]].concat();
                if row.len() <= 20 && !pool.contains(&row) {
                    pool.push(row.clone());
                    rows.push(row);
                }
            }
        }
        // Any strings.
        2 => {
            for _ in 0..count {
                let size = random.within(2, 6);
                rows.push((0..size).map(|_| letter(random)).collect());
            }
        }
        // Trained on random words.
        3 => {
            let mut text = vec![];
            for _ in 0..60 {
                let size = random.within(1, 8);
                text.extend((0..size).map(|_| letter(random)));
                text.push(b' ');
            }
            rows = train::rows(&text, 256 + count, 64).split_off(256);
        }
        // One letter repeated, up to and beyond the longest row.
        _ => {
            let c = letter(random);
            let mut size = 1;
            for _ in 0..count {
                size = if random.once_in(2) { size * 2 } else { size + 1 };
                if size <= 65 {
                    rows.push(vec![c; size]);
                }
            }
        }
    }
    if random.once_in(4) {
        random.shuffle(&mut rows);
    }
    rows
}

/// The bytes, mostly in order and in front, else late in the file.
fn arranged(random: &mut Random, letters: usize, longer: Vec<Vec<u8>>) -> Vec<Vec<u8>> {
    let mut rows = files::bytes();
    match random.below(6) {
        // Some letters late.
        0 => {
            let late: Vec<u8> = (0..letters).map(|i| b'a' + i as u8).filter(|_| random.once_in(2)).collect();
            rows.retain(|row| !late.contains(&row[0]));
            rows.extend(longer);
            for c in late {
                let at = random.within(256 - letters, rows.len());
                rows.insert(at, vec![c]);
            }
        }
        // Anywhere among the longer rows.
        1 => {
            for row in longer {
                let at = random.below(rows.len() + 1);
                rows.insert(at, row);
            }
        }
        2 => {
            random.shuffle(&mut rows);
            rows.extend(longer);
        }
        _ => rows.extend(longer),
    }
    rows
}

/// Files about the largest count of rows: rows of two bytes, whose parts are always there.
fn large(random: &mut Random) -> Vec<Vec<u8>> {
    let mut rows = files::bytes();
    let mut pairs: Vec<Vec<u8>> = (0..62u8).flat_map(|a| (0..62u8).map(move |b| vec![a, b])).collect();
    random.shuffle(&mut pairs);
    pairs.truncate(random.within(4094, 4098) - 256);
    rows.extend(pairs);
    rows
}

/// The rows of the known clash behind the others, those that are not there yet; sometimes an equal row anywhere.
fn with_clash(random: &mut Random, rows: &mut Vec<Vec<u8>>) {
    for row in files::clash().split_off(256) {
        if !rows.contains(&row) {
            rows.push(row);
        }
    }
    if random.once_in(3) {
        let row = random.pick(rows).clone();
        rows.insert(random.below(rows.len() + 1), row);
    }
}

pub fn case(seed: u64) -> Case {
    let mut random = Random::new(seed);
    let letters = random.within(1, 4);
    let mut rows = if random.once_in(2000) {
        large(&mut random)
    } else {
        let longer = longer(&mut random, letters);
        arranged(&mut random, letters, longer)
    };
    if random.once_in(40) {
        let row = random.pick(&rows).clone();
        rows.insert(random.below(rows.len() + 1), row);
    }
    if random.once_in(40) {
        rows.remove(random.below(rows.len()));
    }
    let damage = match random.below(60) {
        0 => Some(Damage::Set(random.below(2000), random.word() as u8)),
        1 => Some(Damage::Cut(random.below(2000))),
        2 => Some(Damage::Add(vec![0xc7, 0x51, random.below(70) as u8])),
        _ => None,
    };
    let mut factor = match random.below(40) {
        0 => 0,
        1 => 1,
        2 => 1 << random.within(32, 63),
        _ => random.word(),
    };
    let mut spare = [(); 5].map(|_| random.below(5) as i32);
    if random.once_in(30) {
        spare[random.below(5)] = -1;
    }
    if random.once_in(50) {
        with_clash(&mut random, &mut rows);
        factor = random.within(1, 3) as u64;
    }
    Case { seed, rows, damage, factor, spare }
}
