//! The trie of the patterns, its failure links, and its arrangement in a double array.
use crate::{BuildError, DoubleArrayAhoCorasick, MatchKind, Output, State, DEAD, ROOT};

const BLOCK: usize = 256;
/// Only the last blocks are searched for room.
const OPEN_BLOCKS: usize = 16;
const NOWHERE: u32 = u32::MAX;

/// A node of the trie; nodes are numbered as they are made, the root is 0.
struct Node {
    edges: Vec<(u8, u32)>,
    pattern: Option<(usize, u32)>,
    fail: u32,
    output: u32,
}

fn node() -> Node {
    Node { edges: vec![], pattern: None, fail: 0, output: 0 }
}

fn edge(nodes: &[Node], at: u32, c: u8) -> Option<u32> {
    let edges = &nodes[at as usize].edges;
    edges.binary_search_by_key(&c, |e| e.0).ok().map(|i| edges[i].1)
}

/// The trie; a pattern given twice, or an empty one, is refused.
fn trie<I, P>(kind: MatchKind, patterns: I) -> Result<Vec<Node>, BuildError>
where
    I: IntoIterator<Item = P>,
    P: AsRef<[u8]>,
{
    let mut nodes = vec![node()];
    'patterns: for (i, pattern) in patterns.into_iter().enumerate() {
        let pattern = pattern.as_ref();
        if pattern.is_empty() {
            return Err(BuildError("an empty pattern"));
        }
        let mut at = 0;
        for &c in pattern {
            if kind == MatchKind::LeftmostFirst && nodes[at as usize].pattern.is_some() {
                continue 'patterns;
            }
            let new = nodes.len() as u32;
            let edges = &mut nodes[at as usize].edges;
            at = match edges.binary_search_by_key(&c, |e| e.0) {
                Ok(k) => edges[k].1,
                Err(k) => {
                    edges.insert(k, (c, new));
                    nodes.push(node());
                    new
                }
            };
        }
        if nodes[at as usize].pattern.is_some() {
            return Err(BuildError("a pattern given twice"));
        }
        nodes[at as usize].pattern = Some((i, pattern.len() as u32));
    }
    Ok(nodes)
}

/// Sets the failure links and returns the nodes but the root, by rising depth. In a leftmost search a node behind a
/// match fails to nowhere.
fn set_fails(nodes: &mut [Node], leftmost: bool) -> Vec<u32> {
    let mut queue: Vec<u32> = nodes[0].edges.iter().map(|e| e.1).collect();
    let mut next = 0;
    while next < queue.len() {
        let at = queue[next];
        next += 1;
        if leftmost && nodes[at as usize].pattern.is_some() {
            nodes[at as usize].fail = NOWHERE;
        }
        for k in 0..nodes[at as usize].edges.len() {
            let (c, child) = nodes[at as usize].edges[k];
            let mut fail = nodes[at as usize].fail;
            let found = loop {
                if fail == NOWHERE {
                    break NOWHERE;
                }
                if let Some(f) = edge(nodes, fail, c) {
                    break f;
                }
                if fail == 0 {
                    break 0;
                }
                fail = nodes[fail as usize].fail;
            };
            nodes[child as usize].fail = found;
            queue.push(child);
        }
    }
    queue
}

/// The outputs; those of a node go on with those of the node that it fails to.
fn set_outputs<V: TryFrom<usize>>(nodes: &mut [Node], queue: &[u32]) -> Result<Vec<Output<V>>, BuildError> {
    let mut outputs = vec![];
    for &at in queue {
        let fail = nodes[at as usize].fail;
        let parent = if fail == NOWHERE { 0 } else { nodes[fail as usize].output };
        nodes[at as usize].output = match nodes[at as usize].pattern {
            None => parent,
            Some((i, length)) => {
                let value = V::try_from(i).map_err(|_| BuildError("too many patterns"))?;
                outputs.push(Output { value, length, parent });
                outputs.len() as u32
            }
        };
    }
    Ok(outputs)
}

/// Room for states: which slots and bases are taken, and the free slots of the open blocks as a list from `first` on.
struct Room {
    taken: Vec<bool>,
    based: Vec<bool>,
    next: Vec<u32>,
    prev: Vec<u32>,
    first: u32,
    last: u32,
}

impl Room {
    fn new() -> Self {
        let mut room = Room { taken: vec![], based: vec![], next: vec![], prev: vec![], first: NOWHERE, last: NOWHERE };
        room.add_block();
        room.take(ROOT);
        room.take(DEAD);
        // Base 0 says that there are no children.
        room.based[0] = true;
        room
    }

    /// Adds a block at the end; the oldest open one is searched no more.
    fn add_block(&mut self) {
        let start = self.taken.len();
        if start >= BLOCK * OPEN_BLOCKS {
            let closed = start - BLOCK * OPEN_BLOCKS;
            for slot in closed..closed + BLOCK {
                if !self.taken[slot] {
                    self.unlink(slot as u32);
                }
            }
        }
        self.taken.resize(start + BLOCK, false);
        self.based.resize(start + BLOCK, false);
        for slot in start as u32..(start + BLOCK) as u32 {
            self.prev.push(self.last);
            self.next.push(NOWHERE);
            match self.last {
                NOWHERE => self.first = slot,
                last => self.next[last as usize] = slot,
            }
            self.last = slot;
        }
    }

    fn unlink(&mut self, slot: u32) {
        let (prev, next) = (self.prev[slot as usize], self.next[slot as usize]);
        match prev {
            NOWHERE => self.first = next,
            prev => self.next[prev as usize] = next,
        }
        match next {
            NOWHERE => self.last = prev,
            next => self.prev[next as usize] = prev,
        }
    }

    fn take(&mut self, slot: u32) {
        self.taken[slot as usize] = true;
        // The slots of closed blocks are in no list, and nobody takes them.
        self.unlink(slot);
    }

    fn fits(&self, base: u32, edges: &[(u8, u32)]) -> bool {
        !self.based[base as usize] && edges.iter().all(|e| !self.taken[(base ^ u32::from(e.0)) as usize])
    }

    /// A base that no state has, with a free slot for each edge.
    fn base(&mut self, edges: &[(u8, u32)]) -> u32 {
        let first = u32::from(edges[0].0);
        let mut slot = self.first;
        while slot != NOWHERE {
            let base = slot ^ first;
            if self.fits(base, edges) {
                return base;
            }
            slot = self.next[slot as usize];
        }
        let base = self.taken.len() as u32;
        self.add_block();
        base
    }
}

/// Gives each node its slot. Two states never have one base, so the byte alone tells whose child a state is.
fn arrange(nodes: &[Node]) -> Vec<State> {
    let mut room = Room::new();
    let mut slots = vec![ROOT; nodes.len()];
    let mut bases = vec![0; nodes.len()];
    let mut checks = vec![0u8; nodes.len()];
    let mut stack = vec![0u32];
    while let Some(at) = stack.pop() {
        let edges = &nodes[at as usize].edges;
        if edges.is_empty() {
            continue;
        }
        let base = room.base(edges);
        room.based[base as usize] = true;
        bases[at as usize] = base;
        for &(c, child) in edges {
            let slot = base ^ u32::from(c);
            room.take(slot);
            slots[child as usize] = slot;
            checks[child as usize] = c;
        }
        stack.extend(edges.iter().rev().map(|e| e.1));
    }
    let mut states = vec![State { base: 0, fail: ROOT, output_check: 0 }; room.taken.len()];
    for block in 0..room.taken.len() / BLOCK {
        // The check of a slot that is nobody's child is that of a base which no state has. A full block has no such
        // slot; base 0 is marked as one that somebody has.
        let start = block * BLOCK;
        let unused = (start..start + BLOCK).find(|&b| !room.based[b]);
        if let Some(unused) = unused {
            for (slot, state) in states.iter_mut().enumerate().skip(start).take(BLOCK) {
                state.output_check = ((slot ^ unused) & 0xff) as u32;
            }
        }
    }
    for (i, node) in nodes.iter().enumerate() {
        let slot = slots[i] as usize;
        let check = if i == 0 { states[slot].output_check } else { u32::from(checks[i]) };
        states[slot] = State {
            base: bases[i],
            fail: if node.fail == NOWHERE { DEAD } else { slots[node.fail as usize] },
            output_check: node.output << 8 | check,
        };
    }
    states
}

pub(crate) fn automaton<I, P, V>(kind: MatchKind, patterns: I) -> Result<DoubleArrayAhoCorasick<V>, BuildError>
where
    I: IntoIterator<Item = P>,
    P: AsRef<[u8]>,
    V: Copy + TryFrom<usize>,
{
    let mut nodes = trie(kind, patterns)?;
    let queue = set_fails(&mut nodes, kind != MatchKind::Standard);
    let outputs = set_outputs(&mut nodes, &queue)?;
    let states = arrange(&nodes);
    let count = nodes.len() as u32;
    Ok(DoubleArrayAhoCorasick { states, outputs, kind, count })
}

#[cfg(test)]
mod tests {
    use super::*;
    use crate::DoubleArrayAhoCorasickBuilder;

    fn number(seed: &mut u64, below: usize) -> usize {
        *seed = seed.wrapping_mul(6364136223846793005).wrapping_add(1442695040888963407);
        (*seed >> 33) as usize % below
    }

    /// Random patterns over few letters: every pattern that ends at a place, longest first, and the longest of the leftmost.
    #[test]
    fn finds_what_a_plain_search_finds() {
        let mut seed = 1;
        for round in 0..400 {
            let letters = 1 + number(&mut seed, 5) * 51;
            let mut patterns: Vec<Vec<u8>> = vec![];
            for _ in 0..number(&mut seed, 300) {
                let size = 1 + number(&mut seed, 5);
                let p: Vec<u8> = (0..size).map(|_| number(&mut seed, letters) as u8).collect();
                if !patterns.contains(&p) {
                    patterns.push(p);
                }
            }
            let text: Vec<u8> = (0..200).map(|_| number(&mut seed, letters) as u8).collect();
            let all = DoubleArrayAhoCorasick::<u32>::new(&patterns).unwrap();
            let bytes = all.serialize();
            let all = unsafe { DoubleArrayAhoCorasick::deserialize_unchecked(&bytes).0 };
            let mut state = all.start_state();
            for end in 1..=text.len() {
                let (next, found) = all.consume(state, end, text[end - 1]);
                state = next;
                let found: Vec<(usize, u32)> = found.map(|m| (m.start(), m.value())).collect();
                let mut plain: Vec<(usize, u32)> = vec![];
                for start in 0..end {
                    if let Some(i) = patterns.iter().position(|p| p == &text[start..end]) {
                        plain.push((start, i as u32));
                    }
                }
                assert_eq!(found, plain, "round {round}");
            }
            let longest: DoubleArrayAhoCorasick<u32> =
                DoubleArrayAhoCorasickBuilder::new().match_kind(MatchKind::LeftmostLongest).build(&patterns).unwrap();
            let found: Vec<(usize, u32)> = longest.leftmost_find_iter(&text).map(|m| (m.start(), m.value())).collect();
            let mut plain = vec![];
            let mut at = 0;
            while at < text.len() {
                let best =
                    (at + 1..=text.len()).rev().find_map(|end| patterns.iter().position(|p| p == &text[at..end]));
                match best {
                    Some(i) => {
                        plain.push((at, i as u32));
                        at += patterns[i].len();
                    }
                    None => at += 1,
                }
            }
            assert_eq!(found, plain, "round {round}");
        }
    }
}
