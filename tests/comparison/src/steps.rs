//! Every order in which the edges of small graphs can be added or removed (document 02, P6), step by
//! step.
//!
//! A state is its bytes. So if adding an edge leaves exactly the bytes of one edge more, what comes
//! afterwards does not depend on the order of the edges so far: the orders of a graph's edges are
//! paths through the subsets of them, and to try each step from each subset once is to try all.

use crate::both::Both;
use crate::call::Call;
use crate::lent::Lent;
use crate::reach::{Reached, NO_SWITCH};
use crate::tables::take_all;
use reference::graphs::{all_pairs, from_bits, Graph};
use reference::random::Random;
use reference::search::partial_graphs;
use reference::{adjacency, graph6, log, ADJACENCY_BYTES};
use replica::raw;

/// Tries the steps of one table, given all graphs that have it at the degrees laid out: adding, from
/// every part of each graph, every other edge of it; removing, from everything that the state can
/// hold, every edge; both ways round. So many of 1,000 steps are tried.
pub fn run(label: &str, realizations: &[Graph], share: usize, random: &mut Random) -> Reached {
    let mut state = Small::new(label, &realizations[0], random);
    let mut count = Reached::default();
    let either_way = |(bits, pair)| [(bits, pair, false), (bits, pair, true)];
    for (bits, pair, turned) in additions(realizations).flat_map(either_way) {
        if random.below(1_000) < share {
            state.add(bits, pair, turned);
            count.steps_added += 1;
        }
    }
    let partial = partial_graphs(&realizations[0].table());
    let removals = partial.iter().flat_map(|&bits| removals(bits));
    for (bits, pair, turned) in removals.flat_map(either_way) {
        if random.below(1_000) < share {
            state.remove(bits, pair, turned);
            count.steps_removed += 1;
        }
    }
    count.calls = count.steps_added + count.steps_removed;
    count
}

/// Each part of each graph, and the number of a pair that the graph has besides; each such step once.
fn additions(realizations: &[Graph]) -> impl Iterator<Item = (u64, usize)> {
    let pairs = all_pairs(realizations[0].vertices());
    let mut within = vec![false; 1 << pairs.len()];
    for graph in realizations {
        let has = |pair: &usize| graph.joined(pairs[*pair].0, pairs[*pair].1);
        let all: usize = (0..pairs.len()).filter(has).map(|pair| 1 << pair).sum();
        let mut part = all;
        within[part] = true;
        while part > 0 {
            part = (part - 1) & all;
            within[part] = true;
        }
    }
    let wholes = (0..within.len()).filter(move |&bits| within[bits]);
    wholes.flat_map(|bits| removals(bits as u64).map(|(bits, pair)| (bits ^ 1 << pair, pair)))
}

/// The number of each pair that a graph has.
fn removals(bits: u64) -> impl Iterator<Item = (u64, usize)> {
    let has = move |pair: &usize| bits >> pair & 1 == 1;
    (0..64).filter(has).map(move |pair| (bits, pair))
}

/// A laid state of a few vertices, lent between guard bytes, and what must be in it.
struct Small {
    label: String,
    vertices: usize,
    pairs: Vec<(usize, usize)>,
    journal: Vec<u8>,
    lent_journal: Lent,
    /// The edges that are there, one bit a pair.
    bits: u64,
    adjacency: Vec<u8>,
    lent_adjacency: Lent,
    /// Empty before and after every step.
    lent_log: Lent,
}

impl Small {
    /// Laid out for the graph's table, without an edge.
    fn new(label: &str, graph: &Graph, random: &mut Random) -> Small {
        let mut both = Both::new(label);
        take_all(&graph.table(), random, &mut both);
        let vertices = graph.vertices();
        assert_eq!(both.call(Call::LayOut), [0, vertices as u64, 0, 0, 0, 0]);
        let adjacency = vec![0; ADJACENCY_BYTES];
        Small {
            label: label.to_string(),
            vertices,
            pairs: all_pairs(vertices),
            lent_journal: Lent::new(&both.journal, random.below(16)),
            journal: both.journal,
            bits: 0,
            lent_adjacency: Lent::new(&adjacency, random.below(16)),
            adjacency,
            lent_log: Lent::new(&log::empty(), random.below(16)),
        }
    }

    /// Adds a pair to these edges: no switch, and one edge more.
    fn add(&mut self, bits: u64, pair: usize, turned: bool) {
        self.lay(bits);
        let (v, w) = self.ends(pair, turned);
        let (journal, adjacency) = (self.lent_journal.get(), self.lent_adjacency.get_mut());
        let log = self.lent_log.get_mut();
        let answer = raw::add_edge(journal, adjacency, log, v, w).numbers();
        self.expect(bits | 1 << pair);
        let right = answer == NO_SWITCH && self.as_expected();
        assert!(right, "{}: adding ({v}, {w}): {answer:?}", self.place(bits));
    }

    /// Removes a pair from these edges: one edge less.
    fn remove(&mut self, bits: u64, pair: usize, turned: bool) {
        self.lay(bits);
        let (v, w) = self.ends(pair, turned);
        let (journal, adjacency) = (self.lent_journal.get(), self.lent_adjacency.get_mut());
        let log = self.lent_log.get_mut();
        let answer = raw::remove_edge(journal, adjacency, log, v, w).numbers();
        self.expect(bits ^ 1 << pair);
        let right = answer == [0; 6] && self.as_expected();
        assert!(
            right,
            "{}: removing ({v}, {w}): {answer:?}",
            self.place(bits)
        );
    }

    fn ends(&self, pair: usize, turned: bool) -> (u64, u64) {
        let (v, w) = self.pairs[pair];
        let (v, w) = if turned { (w, v) } else { (v, w) };
        (v as u64, w as u64)
    }

    /// The state holds these edges, and must.
    fn lay(&mut self, bits: u64) {
        for (_, pair) in removals(bits ^ self.bits) {
            let (v, w) = self.pairs[pair];
            let change = if bits >> pair & 1 == 1 {
                adjacency::insert
            } else {
                adjacency::remove
            };
            change(self.lent_adjacency.get_mut(), v, w);
            change(&mut self.adjacency, v, w);
        }
        self.bits = bits;
    }

    /// The state must hold these edges, which differ by one from those before.
    fn expect(&mut self, bits: u64) {
        let pair = (bits ^ self.bits).trailing_zeros() as usize;
        let (v, w) = self.pairs[pair];
        let change = if bits > self.bits {
            adjacency::insert
        } else {
            adjacency::remove
        };
        change(&mut self.adjacency, v, w);
        self.bits = bits;
    }

    fn as_expected(&self) -> bool {
        self.lent_adjacency.get() == self.adjacency
            && self.lent_journal.get() == self.journal
            && self.lent_log.get().iter().all(|&byte| byte == 0)
            && self.lent_adjacency.guards_hold()
            && self.lent_journal.guards_hold()
            && self.lent_log.guards_hold()
    }

    /// Where a message comes from.
    fn place(&self, bits: u64) -> String {
        let graph = graph6::text(&from_bits(self.vertices, bits));
        format!("{}, from {}", self.label, graph.escape_ascii())
    }
}
