//! A text that looks like English: common words and made-up ones, the more common the earlier in the list, in sentences.
use crate::random::Random;

const COMMON: &str = "the of and to a in is it you that he was for on are with as his they at be this have from or one \
had by but not what all were we when your can said there use an each which she do how their if will up other about out \
many then them these so some her would make like him into time has look two more write go see number no way could people \
my than first water been call who its now find long down day did get come made may part over new sound take only little \
work know place year live me back give most very after thing our just name good sentence man think say great where help \
through much before line right too mean old any same tell boy follow came want show also around form three small set put \
end does another well large must big even such because turn here why ask went men read need land different home us move \
try kind hand picture again change off play spell air away animal house point page letter mother answer found study still \
learn should world";

const ONSETS: [&str; 34] = [
    "", "b", "bl", "br", "c", "ch", "cl", "cr", "d", "dr", "f", "fl", "g", "gr", "h", "j", "k", "l", "m", "n", "p",
    "pl", "pr", "qu", "r", "s", "sh", "sp", "st", "str", "t", "th", "tr", "w",
];
const NUCLEI: [&str; 14] = ["a", "e", "i", "o", "u", "ea", "ai", "ou", "ee", "io", "oa", "y", "ie", "au"];
const CODAS: [&str; 24] = [
    "", "", "", "n", "r", "t", "s", "l", "nd", "st", "ck", "m", "p", "ng", "th", "d", "nt", "sh", "rm", "x", "ll",
    "ss", "ch", "ft",
];
const ENDINGS: [&str; 12] = ["", "", "", "", "s", "ed", "ing", "er", "ly", "ion", "ment", "ness"];

/// The words with the sums of their weights: the word at rank k has weight 1 / (k + 3).
pub struct Language {
    words: Vec<String>,
    sums: Vec<f64>,
}

impl Language {
    pub fn new(seed: u64, size: usize) -> Self {
        let mut random = Random::new(seed);
        let mut words: Vec<String> = COMMON.split_whitespace().map(str::to_string).collect();
        while words.len() < size {
            let mut word = String::new();
            for _ in 0..random.within(1, 3) {
                word.push_str(random.pick::<&str>(&ONSETS));
                word.push_str(random.pick::<&str>(&NUCLEI));
                word.push_str(random.pick::<&str>(&CODAS));
            }
            word.push_str(random.pick::<&str>(&ENDINGS));
            words.push(word);
        }
        let mut sum = 0.0;
        let sums = (0..words.len())
            .map(|k| {
                sum += 1.0 / (k as f64 + 3.0);
                sum
            })
            .collect();
        Language { words, sums }
    }

    fn word(&self, random: &mut Random) -> &str {
        let total = self.sums[self.sums.len() - 1];
        let at = (random.word() >> 11) as f64 / (1u64 << 53) as f64 * total;
        let k = self.sums.partition_point(|&s| s < at);
        &self.words[k.min(self.words.len() - 1)]
    }

    /// A text of exactly so many bytes.
    pub fn text(&self, seed: u64, size: usize) -> Vec<u8> {
        let mut random = Random::new(seed);
        let mut text = Vec::new();
        while text.len() < size {
            let words = random.within(4, 17);
            for i in 0..words {
                let start = text.len();
                if random.once_in(40) {
                    text.extend(random.below(2000).to_string().bytes());
                } else {
                    text.extend(self.word(&mut random).bytes());
                }
                if i == 0 {
                    text[start].make_ascii_uppercase();
                }
                if i + 1 < words {
                    if random.once_in(12) {
                        text.push(b',');
                    }
                    text.push(b' ');
                }
            }
            text.push(*random.pick(b"....?!;:"));
            text.push(if random.once_in(8) { b'\n' } else { b' ' });
        }
        text.truncate(size);
        text
    }
}

/// All texts up to a length over these letters, from the shortest on.
pub fn all(letters: &[u8], longest: usize) -> Vec<Vec<u8>> {
    let mut texts = vec![vec![]];
    let mut from = 0;
    for _ in 0..longest {
        let to = texts.len();
        for i in from..to {
            texts.extend(letters.iter().map(|&c| [&texts[i][..], &[c]].concat()).collect::<Vec<_>>());
        }
        from = to;
    }
    texts
}

/// A text of digits.
pub fn digits(seed: u64, size: usize) -> Vec<u8> {
    let mut random = Random::new(seed);
    (0..size).map(|_| b'0' + random.below(10) as u8).collect()
}
