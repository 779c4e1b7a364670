//! Document 01's third demand over whole lists of calls: a tally beside the state, fed with each
//! call's arguments and answers, says what must hold; small states are tried pair by pair.

use crate::blocks::{self, Size};
use crate::both::Both;
use crate::call::{any_output, Call, Completing};
use crate::swaps::{self, Began};
use crate::tables::{simple, sum_of, sum_of_graph, Cells, Sum};
use reference::numbers::Numbers;
use reference::random::Random;
use reference::search::find_graph;
use reference::{join_record, log, refused, refused_at, Table};

/// The tally of document 01, with the blocks it has counted.
struct Tally {
    blocks: Vec<Vec<u8>>,
    laid: bool,
    edges: u64,
}

impl Tally {
    fn new() -> Tally {
        Tally {
            blocks: Vec::new(),
            laid: false,
            edges: 0,
        }
    }

    /// T, the summed table, and the isolated vertices beside it.
    fn sum(&self) -> Sum {
        sum_of(&self.blocks)
    }

    fn table(&self) -> Table {
        self.sum().table()
    }

    /// Edges wanted and not laid.
    fn missing(&self) -> u64 {
        self.sum().edges() - self.edges
    }

    fn fed(&mut self, call: &Call, numbers: &Numbers) {
        let done = numbers[0] == 0;
        match call {
            Call::TakeBlock { number, block } => {
                let next = *number == self.blocks.len() as u64 && self.blocks.len() < 64;
                if well_formed(block) && next && !self.laid {
                    self.blocks.push(block.clone());
                }
            }
            Call::LayOut if !self.laid => self.laid = self.table().check().is_ok(),
            Call::AddEdge { .. } if done => self.edges += 1,
            Call::RemoveEdge { .. } if done => self.edges -= 1,
            Call::Complete { .. } | Call::CompleteShuffled { .. } if done => {
                self.edges += numbers[1];
            }
            _ => {}
        }
    }
}

/// Checks 4 and 5. A block of no bytes passes both.
fn well_formed(block: &[u8]) -> bool {
    let length = block.len() <= 64 && block.len() % 4 == 0;
    let good = |record: &[u8]| match record[..2] {
        [0, 0] => true,
        [k, l] => 1 <= k && k <= l && l <= 40,
        _ => false,
    };
    length && block.chunks(4).all(good)
}

/// Runs a list of taking, laying out, joining, removing, swapping, taking back and completing calls
/// from a cleared state and checks the demand after every call, and that the log says what was done
/// to the matrix it began with.
pub fn run(seed: u64, both: &mut Both) {
    let mut random = Random::new(seed);
    let plan = blocks::plan(Size::Small, &mut random);
    let mut tally = Tally::new();
    both.call(Call::Clear);
    let mut began = Began::with(&both.adjacency);
    for _ in 0..2 * plan.len() + random.between(5, 25) {
        let call = next_call(&plan, &tally, &both.adjacency, &mut random);
        let numbers = both.call(call.clone());
        tally.fed(&call, &numbers);
        began.after(&call, &both.adjacency, &both.log);
        if tally.laid {
            check_laid(&tally, &mut random, both);
        } else {
            check_taking(&tally, both);
        }
        if !tally.blocks.is_empty() {
            let number = random.below(tally.blocks.len());
            both.read_back(number as u64, &tally.blocks[number]);
        }
    }
    for (number, block) in (0..).zip(&tally.blocks) {
        both.read_back(number, block);
    }
    both.count.call_lists += 1;
}

fn next_call(plan: &[Vec<u8>], tally: &Tally, adjacency: &[u8], random: &mut Random) -> Call {
    let blocks = tally.blocks.len();
    let any = |random: &mut Random| random.below(10) as u64;
    match random.below(14) {
        0 => Call::LayOut,
        1 if blocks > 0 => {
            let number = random.below(blocks);
            Call::TakeBlock {
                number: number as u64,
                block: tally.blocks[number].clone(),
            }
        }
        2 => {
            let block = *random.pick(&[[1, 1, 2, 0], [2, 3, 6, 0], [0, 0, 1, 0]]);
            Call::TakeBlock {
                number: random.below(blocks + 2) as u64,
                block: blocks::spoil(&block, random),
            }
        }
        3 | 4 if tally.laid => Call::RemoveEdge {
            v: any(random),
            w: any(random),
        },
        5 if tally.laid && random.chance(30) => {
            let needed = join_record::LENGTH * tally.missing() as usize;
            Completing::any(random).call(any_output(needed, random))
        }
        6..=8 if tally.laid => {
            let any = [(); 4].map(|()| any(random));
            let found = swaps::any_allowed(adjacency, &tally.table().degrees(), random);
            found.map_or(Call::SwapEdges(any), swaps::swap_call)
        }
        9 => Call::UndoSwap,
        _ if tally.laid => Call::AddEdge {
            v: any(random),
            w: any(random),
        },
        _ if blocks < plan.len() => Call::TakeBlock {
            number: blocks as u64,
            block: plan[blocks].clone(),
        },
        _ => Call::LayOut,
    }
}

/// Not yet laid: laying out is refused for want of a graph exactly when no graph has the table,
/// whatever the isolated vertices; else it is refused exactly when there are over 200 with them.
fn check_taking(tally: &Tally, both: &mut Both) {
    let numbers = both.call_on(both.journal.clone(), both.adjacency.clone(), Call::LayOut);
    let table = tally.table();
    let no_graph = (9..=11).contains(&numbers[0]);
    let linked = Table::new(table.matrix.clone(), 0);
    if linked.vertex_count() <= 7 {
        let found = find_graph(&linked);
        assert_eq!(no_graph, found.is_none(), "{:?}", tally.sum());
    }
    if !no_graph {
        let vertices = table.vertex_count();
        let expected = if vertices > 200 {
            (12, 0)
        } else {
            (0, vertices)
        };
        assert_eq!((numbers[0], numbers[1]), expected, "{:?}", tally.sum());
    }
}

/// Once laid: figures agree with the tally, every short pair can be joined, there is one while a
/// cell is short, and completing in either way makes exactly as many joins as edges are missing, if
/// there is room for their records.
fn check_laid(tally: &Tally, random: &mut Random, both: &mut Both) {
    let (table, wanted) = (tally.table(), tally.sum());
    let (vertices, edges) = (table.vertex_count(), wanted.edges());
    let figures = both.call(Call::Figures);
    let blocks = tally.blocks.len() as u64;
    assert_eq!(figures, [0, 1, blocks, vertices, edges, tally.edges]);
    let missing = tally.missing();

    let degrees = table.degrees();
    if vertices <= 10 {
        let pairs = short_pairs(&degrees, &wanted.cells, &both.adjacency);
        assert_eq!(pairs.is_empty(), missing == 0);
        for (v, w) in pairs {
            check_pair(v, w, tally.edges, both);
            check_pair(w, v, tally.edges, both);
        }
        check_isolated(&degrees, both);
    }
    let journal = both.journal.clone();
    let (before, log) = (both.adjacency.clone(), both.log.clone());
    for completing in [Completing::Lowest, Completing::any_shuffled(random)] {
        both.complete_by(completing, missing);
        assert!(simple(&both.adjacency));
        assert_eq!(sum_of_graph(&both.adjacency, vertices as usize), wanted);
        both.journal.clone_from(&journal);
        both.adjacency.clone_from(&before);
        both.log.clone_from(&log);
    }
}

/// Pairs that are not joined and whose cell, counted at the degrees laid out, is short.
fn short_pairs(degrees: &[usize], wanted: &Cells, adjacency: &[u8]) -> Vec<(usize, usize)> {
    let mut counted = Cells::new();
    let mut open = Vec::new();
    for v in 0..degrees.len() {
        for w in v + 1..degrees.len() {
            if adjacency[200 * v + w] == 1 {
                let both_ends = if degrees[v] == degrees[w] { 2 } else { 1 };
                *counted.entry((degrees[v], degrees[w])).or_default() += both_ends;
            } else {
                open.push((v, w));
            }
        }
    }
    let count = |cells: &Cells, cell| cells.get(&cell).copied().unwrap_or(0);
    open.retain(|&(v, w)| {
        let cell = (degrees[v], degrees[w]);
        count(&counted, cell) < count(wanted, cell)
    });
    open
}

/// No edge can be added at an isolated vertex, which is vertex 0 if there is one, and none removed.
fn check_isolated(degrees: &[usize], both: &mut Both) {
    if degrees.first() != Some(&0) {
        return;
    }
    for (other, &degree) in (0..).zip(degrees).skip(1) {
        for (v, w) in [(0, other), (other, 0)] {
            let answer = both.call(Call::AddEdge { v, w });
            let expected = refused_at(16, 0, degree as u64);
            assert_eq!(answer, expected, "joining {v}, {w}");
            let answer = both.call(Call::RemoveEdge { v, w });
            assert_eq!(answer, refused(17), "removing {v}, {w}");
        }
    }
}

/// The pair is joined, the state stays valid, its log is empty, and it has exactly one edge more;
/// then all is put back.
fn check_pair(v: usize, w: usize, edges: u64, both: &mut Both) {
    let (adjacency, log) = (both.adjacency.clone(), both.log.clone());
    let call = Call::AddEdge {
        v: v as u64,
        w: w as u64,
    };
    assert_eq!(both.call(call)[0], 0);
    assert_eq!(both.adjacency[200 * v + w], 1);
    let figures = both.call(Call::Figures);
    assert_eq!((figures[0], figures[5]), (0, edges + 1));
    assert_eq!(both.log, log::empty());
    both.adjacency = adjacency;
    both.log = log;
    both.count.pairs_joined += 1;
}
