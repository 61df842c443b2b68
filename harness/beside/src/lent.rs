//! Buffers to lend, with numbers before and behind each that a call must not touch.
use crate::random::Random;
use ours::typing::State;

const EDGE: usize = 16;

/// What a buffer holds: bytes, numbers of 32 bits, or typing records.
pub trait Entry: Copy + PartialEq {
    fn cut(word: u64) -> Self;
}

impl Entry for u8 {
    fn cut(word: u64) -> Self {
        word as u8
    }
}

impl Entry for u32 {
    fn cut(word: u64) -> Self {
        word as u32
    }
}

impl Entry for State {
    fn cut(word: u64) -> Self {
        State { byte: word as u8, code: (word >> 8) as u32 % 300, count: (word >> 40) as u32 }
    }
}

#[derive(Clone, PartialEq)]
pub struct Lent<T = u32> {
    all: Vec<T>,
    before: Vec<T>,
}

impl<T: Entry> Lent<T> {
    /// A buffer of so many random numbers.
    pub fn new(random: &mut Random, size: usize) -> Self {
        let all: Vec<T> = (0..size + 2 * EDGE).map(|_| T::cut(random.word())).collect();
        Lent { before: all.clone(), all }
    }

    pub fn part(&mut self) -> &mut [T] {
        let end = self.all.len() - EDGE;
        &mut self.all[EDGE..end]
    }

    pub fn get(&self) -> &[T] {
        &self.all[EDGE..self.all.len() - EDGE]
    }

    /// The contents when it was lent.
    pub fn before(&self) -> &[T] {
        &self.before[EDGE..self.before.len() - EDGE]
    }

    /// Nothing beyond the buffer was touched.
    pub fn edges_kept(&self) -> bool {
        let end = self.all.len() - EDGE;
        self.all[..EDGE] == self.before[..EDGE] && self.all[end..] == self.before[end..]
    }

    /// Nothing from this place on was touched, neither in the buffer nor beyond it.
    pub fn kept_from(&self, at: usize) -> bool {
        self.edges_kept() && self.get()[at..] == self.before()[at..]
    }

    /// The contents as when it was lent.
    pub fn restore(&mut self) {
        self.all.copy_from_slice(&self.before);
    }

    /// What is there now is what was lent.
    pub fn renew(&mut self) {
        self.before.copy_from_slice(&self.all);
    }
}
