//! Stand-in for the crate `aneubeck-daachorse`: an Aho-Corasick automaton in a double array, with the part of its
//! interface that the original uses. The meaning is document 01's: all patterns that end at a place, longest first;
//! leftmost-longest search.
use std::fmt;

mod build;

/// Which matches a search gives.
#[derive(Clone, Copy, PartialEq, Eq, Debug)]
#[repr(u8)]
pub enum MatchKind {
    Standard = 0,
    LeftmostLongest = 1,
    LeftmostFirst = 2,
}

#[derive(Debug)]
pub struct BuildError(pub(crate) &'static str);

impl fmt::Display for BuildError {
    fn fmt(&self, f: &mut fmt::Formatter<'_>) -> fmt::Result {
        f.write_str(self.0)
    }
}

impl std::error::Error for BuildError {}

/// A pattern that was found.
#[derive(Clone, Copy, PartialEq, Eq, Debug)]
pub struct Match<V> {
    length: usize,
    end: usize,
    value: V,
}

impl<V: Copy> Match<V> {
    #[inline]
    pub fn start(&self) -> usize {
        self.end - self.length
    }

    #[inline]
    pub fn end(&self) -> usize {
        self.end
    }

    #[inline]
    pub fn value(&self) -> V {
        self.value
    }
}

pub(crate) const ROOT: u32 = 0;
pub(crate) const DEAD: u32 = 1;

/// A state. Its child for byte c stands at `base ^ c`, if the check of that state is c.
#[derive(Clone, Copy)]
pub(crate) struct State {
    pub(crate) base: u32,
    pub(crate) fail: u32,
    /// The position of the first output plus 1 (0: none) times 256, plus the check.
    pub(crate) output_check: u32,
}

impl State {
    #[inline(always)]
    fn check(&self) -> u8 {
        self.output_check as u8
    }

    #[inline(always)]
    pub(crate) fn output(&self) -> u32 {
        self.output_check >> 8
    }
}

/// A pattern that ends in a state; `parent` leads to the next shorter one (position plus 1, 0: none).
#[derive(Clone, Copy)]
pub(crate) struct Output<V> {
    pub(crate) value: V,
    pub(crate) length: u32,
    pub(crate) parent: u32,
}

pub struct DoubleArrayAhoCorasick<V> {
    pub(crate) states: Vec<State>,
    pub(crate) outputs: Vec<Output<V>>,
    pub(crate) kind: MatchKind,
    pub(crate) count: u32,
}

/// Builds an automaton for a kind of search.
pub struct DoubleArrayAhoCorasickBuilder {
    kind: MatchKind,
}

impl Default for DoubleArrayAhoCorasickBuilder {
    fn default() -> Self {
        Self::new()
    }
}

impl DoubleArrayAhoCorasickBuilder {
    pub fn new() -> Self {
        Self { kind: MatchKind::Standard }
    }

    pub fn match_kind(mut self, kind: MatchKind) -> Self {
        self.kind = kind;
        self
    }

    /// The value of a pattern is the number of patterns before it.
    pub fn build<I, P, V>(self, patterns: I) -> Result<DoubleArrayAhoCorasick<V>, BuildError>
    where
        I: IntoIterator<Item = P>,
        P: AsRef<[u8]>,
        V: Copy + TryFrom<usize>,
    {
        build::automaton(self.kind, patterns)
    }
}

impl<V: Copy> DoubleArrayAhoCorasick<V> {
    pub fn new<I, P>(patterns: I) -> Result<Self, BuildError>
    where
        I: IntoIterator<Item = P>,
        P: AsRef<[u8]>,
        V: TryFrom<usize>,
    {
        DoubleArrayAhoCorasickBuilder::new().build(patterns)
    }

    /// The child of a state for a byte. A state without children has base 0, which is no state's base.
    #[inline(always)]
    fn child(&self, state: u32, c: u8) -> Option<u32> {
        // Every state's number, and every base with any byte, is below the number of states: `build` sees to it.
        unsafe {
            let child = self.states.get_unchecked(state as usize).base ^ u32::from(c);
            (self.states.get_unchecked(child as usize).check() == c).then_some(child)
        }
    }

    #[inline(always)]
    fn state(&self, state: u32) -> &State {
        unsafe { self.states.get_unchecked(state as usize) }
    }

    pub fn start_state(&self) -> u32 {
        ROOT
    }

    /// The state after one more byte, and the patterns that end at `pos`, longest first.
    #[inline]
    pub fn consume(&self, state: u32, pos: usize, c: u8) -> (u32, OutputIter<'_, V>) {
        assert!((state as usize) < self.states.len());
        let mut state = state;
        let next = loop {
            if let Some(child) = self.child(state, c) {
                break child;
            }
            if state == ROOT {
                break ROOT;
            }
            state = self.state(state).fail;
        };
        let output = self.state(next).output();
        (next, OutputIter { outputs: &self.outputs, end: pos, output })
    }

    pub fn leftmost_find_iter<P: AsRef<[u8]>>(&self, haystack: P) -> LeftmostFindIter<'_, P, V> {
        assert!(self.kind != MatchKind::Standard, "not built for leftmost search");
        LeftmostFindIter { automaton: self, haystack, pos: 0 }
    }
}

impl DoubleArrayAhoCorasick<u32> {
    pub fn serialize(&self) -> Vec<u8> {
        let mut bytes = vec![];
        let mut put = |x: u32| bytes.extend_from_slice(&x.to_le_bytes());
        put(self.states.len() as u32);
        for s in &self.states {
            put(s.base);
            put(s.fail);
            put(s.output_check);
        }
        put(self.outputs.len() as u32);
        for o in &self.outputs {
            put(o.value);
            put(o.length);
            put(o.parent);
        }
        bytes.push(self.kind as u8);
        bytes.extend_from_slice(&self.count.to_le_bytes());
        bytes
    }

    /// # Safety
    /// The bytes must be what `serialize` gave.
    pub unsafe fn deserialize_unchecked(mut bytes: &[u8]) -> (Self, &[u8]) {
        fn take(bytes: &mut &[u8]) -> u32 {
            let (front, rest) = bytes.split_at(4);
            *bytes = rest;
            u32::from_le_bytes([front[0], front[1], front[2], front[3]])
        }
        let size = take(&mut bytes);
        let states = (0..size)
            .map(|_| State { base: take(&mut bytes), fail: take(&mut bytes), output_check: take(&mut bytes) })
            .collect();
        let size = take(&mut bytes);
        let outputs = (0..size)
            .map(|_| Output { value: take(&mut bytes), length: take(&mut bytes), parent: take(&mut bytes) })
            .collect();
        let kind = match bytes[0] {
            0 => MatchKind::Standard,
            1 => MatchKind::LeftmostLongest,
            _ => MatchKind::LeftmostFirst,
        };
        bytes = &bytes[1..];
        let count = take(&mut bytes);
        (Self { states, outputs, kind, count }, bytes)
    }
}

/// The patterns that end at a place, longest first.
pub struct OutputIter<'a, V> {
    outputs: &'a [Output<V>],
    end: usize,
    output: u32,
}

impl<V: Copy> Iterator for OutputIter<'_, V> {
    type Item = Match<V>;

    #[inline]
    fn next(&mut self) -> Option<Match<V>> {
        if self.output == 0 {
            return None;
        }
        let output = unsafe { self.outputs.get_unchecked(self.output as usize - 1) };
        self.output = output.parent;
        Some(Match { length: output.length as usize, end: self.end, value: output.value })
    }
}

/// Matches that do not overlap, each the longest of the leftmost.
pub struct LeftmostFindIter<'a, P, V> {
    automaton: &'a DoubleArrayAhoCorasick<V>,
    haystack: P,
    pos: usize,
}

impl<P: AsRef<[u8]>, V: Copy> Iterator for LeftmostFindIter<'_, P, V> {
    type Item = Match<V>;

    #[inline]
    fn next(&mut self) -> Option<Match<V>> {
        let text = self.haystack.as_ref();
        let mut state = ROOT;
        let mut found = 0;
        let mut at = self.pos;
        'walk: while at < text.len() {
            let c = text[at];
            at += 1;
            state = loop {
                if let Some(child) = self.automaton.child(state, c) {
                    break child;
                }
                if state == ROOT {
                    break ROOT;
                }
                state = self.automaton.state(state).fail;
                if state == DEAD {
                    break 'walk;
                }
            };
            let output = self.automaton.state(state).output();
            if output != 0 {
                found = output;
                self.pos = at;
            }
        }
        if found == 0 {
            return None;
        }
        let output = unsafe { self.automaton.outputs.get_unchecked(found as usize - 1) };
        Some(Match { length: output.length as usize, end: self.pos, value: output.value })
    }
}
