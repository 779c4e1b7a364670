//! The calls that are measured, and the states they are made on.

use comparison::call::{room, Call, Completing, Entry, Memory};
use comparison::swaps::{any_allowed_among, swap_call};
use reference::graphs::{self, Graph};
use reference::journal::{self, record, LAID, TAKING};
use reference::random::Random;
use reference::{adjacency, graph6, log, swapping, Matrix, Table};
use reference::{ADJACENCY_BYTES, JOURNAL_BYTES, MAX_BLOCKS, MAX_BLOCK_BYTES, MAX_SWAPS};

const SIZES: [usize; 4] = [25, 50, 100, 200];

/// One call on a state.
pub struct Case {
    pub name: String,
    pub call: Call,
    journal: Vec<u8>,
    adjacency: Vec<u8>,
    log: Vec<u8>,
}

impl Case {
    pub fn entry(&self) -> Entry {
        self.call.entry()
    }

    /// Fresh copies of all bytes of the call.
    pub fn memory(&self) -> Memory {
        Memory::of(&self.journal, &self.adjacency, &self.log, &self.call)
    }

    fn with_log(self, log: &[u8]) -> Case {
        let log = log.to_vec();
        Case { log, ..self }
    }
}

/// With an empty log.
fn case(name: &str, call: Call, journal: Vec<u8>, adjacency: Vec<u8>) -> Case {
    Case {
        name: name.to_string(),
        call,
        journal,
        adjacency,
        log: log::empty(),
    }
}

/// The number that shuffled cases begin with.
const X: u32 = 1;

/// Completing a state in either way, with just the room that its records need.
fn completion(name: &str, journal: Vec<u8>, adjacency: Vec<u8>) -> [Case; 2] {
    [Completing::Lowest, Completing::Shuffled(X)].map(|completing| {
        let output = vec![0; room(&journal, &adjacency)];
        let call = completing.call(output);
        case(name, call, journal.clone(), adjacency.clone())
    })
}

/// All cases, entry by entry.
pub fn all() -> Vec<Case> {
    let mut cases = Vec::new();
    for size in SIZES {
        cases.extend(completions(size));
    }
    let ring = laid(&graphs::regular(200, 2).matrix());
    cases.extend(completion("regular-2-200", ring, no_edges()));
    for size in SIZES {
        cases.extend(edges_by_hand(size));
    }
    cases.extend(with_swaps());
    cases.extend(blocks());
    for size in SIZES {
        cases.extend(layings_out(size));
    }
    for size in SIZES {
        cases.extend(reports(size));
    }
    for size in SIZES {
        cases.extend(exchanges(&format!("regular-{size}"), &regular(size)));
    }
    let uniform = graphs::uniform(200, 4_000, &mut Random::new(4));
    cases.extend(exchanges("uniform-200", &uniform));
    cases.extend(half_isolated());
    cases.push(case("any", Call::Clear, vec![1; JOURNAL_BYTES], no_edges()));
    cases.sort_by_key(|case| case.entry() as usize);
    cases
}

fn no_edges() -> Vec<u8> {
    vec![0; ADJACENCY_BYTES]
}

/// A journal with these records in blocks of 16, written without any entry.
pub fn journal_of(phase: u8, records: &[u8]) -> Vec<u8> {
    let mut bytes = vec![0; JOURNAL_BYTES];
    bytes[0] = phase;
    for (i, block) in records.chunks(MAX_BLOCK_BYTES).enumerate() {
        let start = journal::slot_start(i);
        bytes[1] += 1;
        bytes[start] = block.len() as u8;
        bytes[start + 1..start + 1 + block.len()].copy_from_slice(block);
    }
    bytes
}

fn laid(matrix: &Matrix) -> Vec<u8> {
    journal_of(LAID, &records_of(matrix))
}

/// The records of a matrix and of no isolated vertices.
fn records_of(matrix: &Matrix) -> Vec<u8> {
    Table::new(matrix.clone(), 0).records()
}

/// The records of a matrix, counts split until there are as many as a journal holds.
fn all_records(matrix: &Matrix) -> Vec<u8> {
    let mut cells = matrix.nonzero_cells();
    let room = MAX_BLOCKS * MAX_BLOCK_BYTES / 4;
    let mut next = 0;
    while cells.len() < room {
        let (k, l, count) = cells[next];
        if count > 1 {
            cells[next].2 = count - 1;
            cells.push((k, l, 1));
        }
        next = (next + 1) % cells.len();
    }
    cells
        .iter()
        .flat_map(|&(k, l, count)| record(k, l, count))
        .collect()
}

/// The degree of the regular graph on so many vertices; 200 vertices have 4,000 edges.
fn regular_degree(size: usize) -> usize {
    size / 5 / 2 * 2
}

fn regular(size: usize) -> Graph {
    graphs::regular(size, regular_degree(size))
}

/// An average degree of 21 where there is room: 2,100 edges on 200 vertices.
fn random(size: usize) -> Graph {
    let edges = (21 * size / 2).min(graphs::pairs(size) / 2);
    graphs::even(size, edges, &mut Random::new(1))
}

fn hubs(size: usize) -> Graph {
    graphs::hubs(size, 6, &mut Random::new(2))
}

/// Complete bipartite graphs, one or two of them: cells as large as they can be, or half of it.
fn bipartite(size: usize) -> Graph {
    let (side, copies) = match size {
        25 => (12, 1),
        50 => (24, 1),
        100 => (24, 2),
        _ => (39, 2),
    };
    let width = 2 * side + 1;
    let mut graph = Graph::new(copies * width);
    for start in (0..copies).map(|copy| copy * width) {
        for v in 0..side {
            for w in side..width {
                graph.join(start + v, start + w);
            }
        }
    }
    graph
}

/// Degrees spread over 1 to 40: about 600 cells on 200 vertices.
fn cells(size: usize) -> Graph {
    graphs::spread(size, 40.min(size - 1), &mut Random::new(3))
}

/// Four cliques of the regular table's degree, all their vertices saturated, the others bare: every
/// edge that is still missing wants two switches.
fn four_cliques(size: usize) -> Graph {
    let clique = regular_degree(size) + 1;
    graphs::cliques(4 * clique, clique)
}

fn completions(size: usize) -> Vec<Case> {
    let graphs = [
        ("regular", regular(size)),
        ("random", random(size)),
        ("hubs", hubs(size)),
        ("bipartite", bipartite(size)),
        ("cells", cells(size)),
    ];
    let mut cases: Vec<Case> = graphs
        .iter()
        .flat_map(|(name, graph)| {
            let name = format!("{name}-{size}");
            completion(&name, laid(&graph.matrix()), no_edges())
        })
        .collect();
    let journal = laid(&regular(size).matrix());
    let start = four_cliques(size).adjacency();
    let name = format!("start-{size}");
    cases.extend(completion(&name, journal.clone(), start));
    let name = format!("nothing-{size}");
    let complete = regular(size).adjacency();
    cases.extend(completion(&name, journal, complete));
    cases
}

fn edges_by_hand(size: usize) -> Vec<Case> {
    let graph = regular(size);
    let journal = laid(&graph.matrix());
    // The same state for an edge without switches, one with two, and a removal.
    let mut one_missing = graph.adjacency();
    adjacency::remove(&mut one_missing, 0, 1);
    // Two vertices far from the missing edge and from each other: both are saturated.
    let (v, w) = (size as u64 / 4, 3 * size as u64 / 4);
    let named = |name: &str| format!("{name}-{size}");
    vec![
        case(
            &named("plain"),
            Call::AddEdge { v: 0, w: 1 },
            journal.clone(),
            one_missing.clone(),
        ),
        case(
            &named("switches"),
            Call::AddEdge { v, w },
            journal.clone(),
            one_missing.clone(),
        ),
        case(
            &named("plain"),
            Call::RemoveEdge { v: 0, w: 2 },
            journal,
            one_missing,
        ),
    ]
}

/// The state of the edges by hand at 200 vertices with so many swaps in its log, none of them at
/// vertices 0 and 1, so that the same edges are added and removed; and a swap that can be made
/// next.
struct Rewired {
    journal: Vec<u8>,
    adjacency: Vec<u8>,
    log: Vec<u8>,
    next: Call,
}

impl Rewired {
    fn new(swaps: usize) -> Rewired {
        let graph = regular(200);
        let mut random = Random::new(5);
        let (mut adjacency, mut log) = (graph.adjacency(), log::empty());
        adjacency::remove(&mut adjacency, 0, 1);
        let degrees = graph.degrees();
        let mut next = |adjacency: &[u8]| {
            let found = any_allowed_among(adjacency, &degrees, |v| v > 1, &mut random);
            found.expect("a swap among 198 vertices")
        };
        for _ in 0..swaps {
            let swap = next(&adjacency);
            swapping::make(&mut adjacency, swap);
            log::push(&mut log, swap);
        }
        Rewired {
            next: swap_call(next(&adjacency)),
            journal: laid(&graph.matrix()),
            adjacency,
            log,
        }
    }

    fn case(&self, name: &str, call: &Call) -> Case {
        let (journal, adjacency) = (self.journal.clone(), self.adjacency.clone());
        case(name, call.clone(), journal, adjacency).with_log(&self.log)
    }
}

/// Swaps and takings-back, with few swaps in the log and with one less than it holds; and adding
/// and removing with so many.
fn with_swaps() -> Vec<Case> {
    let [none, one, most] = [0, 1, MAX_SWAPS - 1].map(Rewired::new);
    vec![
        none.case("empty-200", &none.next),
        most.case("swaps-200", &most.next),
        one.case("one-200", &Call::UndoSwap),
        most.case("swaps-200", &Call::UndoSwap),
        most.case("plain-swaps-200", &Call::AddEdge { v: 0, w: 1 }),
        most.case("plain-swaps-200", &Call::RemoveEdge { v: 0, w: 2 }),
    ]
}

fn blocks() -> Vec<Case> {
    let graph = cells(200).without_isolated().by_rising_degree();
    let records = all_records(&graph.matrix());
    let (first, last) = (0, MAX_BLOCKS - 1);
    let block = |i: usize| records[i * MAX_BLOCK_BYTES..(i + 1) * MAX_BLOCK_BYTES].to_vec();
    let take = |i: usize| Call::TakeBlock {
        number: i as u64,
        block: block(i),
    };
    let held = Call::HeldBlock {
        number: last as u64,
    };
    let empty = journal_of(TAKING, &[]);
    let but_last = journal_of(TAKING, &records[..last * MAX_BLOCK_BYTES]);
    let full = journal_of(TAKING, &records);
    let laid = journal_of(LAID, &records);
    vec![
        case("new-1st", take(first), empty, no_edges()),
        case("new-64th", take(last), but_last, no_edges()),
        case("held-64th", take(last), full.clone(), no_edges()),
        case(
            "held-64th-laid",
            take(last),
            laid.clone(),
            graph.adjacency(),
        ),
        case("64th", held.clone(), full, no_edges()),
        case("64th-laid", held, laid, graph.adjacency()),
    ]
}

fn layings_out(size: usize) -> Vec<Case> {
    let lay = |name: &str, records: &[u8]| {
        let name = format!("{name}-{size}");
        case(&name, Call::LayOut, journal_of(TAKING, records), no_edges())
    };
    let mut cases = vec![
        lay("regular", &records_of(&regular(size).matrix())),
        lay("cells", &records_of(&cells(size).matrix())),
    ];
    if size == 200 {
        cases.push(lay("64-blocks", &all_records(&cells(size).matrix())));
    }
    cases
}

/// Out as graph6 and in again, with just the room that either needs. No state is lent.
fn exchanges(name: &str, graph: &Graph) -> [Case; 2] {
    let (edges, text) = (graph.edge_list(), graph6::text(graph));
    let read = Call::Graph6Read {
        text: text.clone(),
        output: vec![0; edges.len()],
    };
    let write = Call::Graph6Write {
        edges,
        total: graph.vertices() as u64,
        output: vec![0; text.len()],
    };
    [write, read].map(|call| case(name, call, Vec::new(), Vec::new()))
}

/// A regular graph on 100 vertices beside 100 isolated ones.
fn half_isolated() -> Vec<Case> {
    let graph = regular(100).widened(200).by_rising_degree();
    let records = graph.table().records();
    let (taken, laid) = (journal_of(TAKING, &records), journal_of(LAID, &records));
    let survey = Call::JdmOfEdges {
        edges: graph.edge_list(),
        total: graph.vertices() as u64,
        output: vec![0; records.len()],
    };
    let name = "isolated-200";
    let mut cases = vec![
        case(name, Call::LayOut, taken, no_edges()),
        case(name, Call::Figures, laid.clone(), graph.adjacency()),
        case(name, survey, laid.clone(), graph.adjacency()),
    ];
    cases.extend(completion(name, laid, no_edges()));
    cases
}

fn reports(size: usize) -> Vec<Case> {
    let mut cases = Vec::new();
    for (name, graph) in [("regular", regular(size)), ("cells", cells(size))] {
        let name = format!("{name}-{size}");
        let graph = graph.without_isolated().by_rising_degree();
        let journal = laid(&graph.matrix());
        let edges = graph.edge_list();
        let list = Call::EdgeList {
            output: vec![0; edges.len()],
        };
        let jdm = Call::JdmOfEdges {
            edges,
            total: graph.vertices() as u64,
            output: vec![0; graph.table().records().len()],
        };
        let adjacency = graph.adjacency();
        for call in [Call::Figures, list, jdm] {
            cases.push(case(&name, call, journal.clone(), adjacency.clone()));
        }
    }
    cases
}
