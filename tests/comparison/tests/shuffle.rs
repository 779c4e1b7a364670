//! Completing shuffled (document 02, P7): known cases to the byte; every start of small tables, parts
//! of random graphs; what a number decides, and what it does not.

use comparison::both::Both;
use comparison::call::{room, Call, Completing};
use comparison::tables::{simple, sum_of_graph, take_all};
use reference::graphs::{self, from_bits, Graph};
use reference::random::Random;
use reference::search::{partial_graphs, realizations_by_table};
use reference::shuffling::{step, stepped};
use reference::{adjacency, join_record, Table};
use std::collections::BTreeSet;

/// A byte of a record that is not needed.
const U: u8 = 255;
/// What an output holds before a call.
const FILLED: u8 = 0xee;

/// Laid out for this table, without an edge.
fn laid(label: &str, table: &Table, random: &mut Random) -> Both {
    let mut both = Both::new(label);
    take_all(table, random, &mut both);
    let vertices = table.vertex_count();
    assert_eq!(both.call(Call::LayOut), [0, vertices, 0, 0, 0, 0]);
    both
}

/// A call with just the room it needs.
fn call(x: u32, both: &Both) -> Call {
    let output = vec![FILLED; room(&both.journal, &both.adjacency)];
    Call::CompleteShuffled { x, output }
}

/// Completes what is laid and checks the graph by a count of its own: the table and every degree.
/// Returns the records.
fn complete(x: u32, table: &Table, both: &mut Both) -> Vec<u8> {
    let call = call(x, both);
    let missing = call.output().len() / join_record::LENGTH;
    let answer = both.call(call);
    let expected = Completing::Shuffled(x).answer(missing as u64, answer[2]);
    assert_eq!(answer, expected);
    let vertices = table.vertex_count() as usize;
    assert!(simple(&both.adjacency));
    let sum = sum_of_graph(&both.adjacency, vertices);
    assert_eq!(&sum.table(), table, "from {x}");
    let at = |v| adjacency::edges_at(&both.adjacency, v);
    assert!((0..vertices).map(at).eq(table.degrees()), "from {x}");
    both.output.clone()
}

/// What comes of a table and a number, written down here.
struct Known {
    table: Table,
    x: u32,
    switches: u64,
    last: u64,
    /// Two vertices each, and the triples of their switches.
    joins: Vec<[u8; 8]>,
    edges: Vec<(usize, usize)>,
}

fn squares() -> [Known; 2] {
    let known = |x, last, joins: [[u8; 8]; 4], edges: [(usize, usize); 4]| Known {
        table: Table::of(&[(2, 2, 8)], 0),
        x,
        switches: 1,
        last,
        joins: joins.to_vec(),
        edges: edges.to_vec(),
    };
    let from_least = [
        [0, 3, U, U, U, U, U, U],
        [0, 2, U, U, U, U, U, U],
        [0, 1, 0, 2, 3, U, U, U],
        [1, 3, U, U, U, U, U, U],
    ];
    let from_most = [
        [0, 2, U, U, U, U, U, U],
        [0, 3, U, U, U, U, U, U],
        [2, 3, U, U, U, U, U, U],
        [0, 1, 0, 1, 2, U, U, U],
    ];
    let edges = [(0, 1), (0, 2), (1, 3), (2, 3)];
    let least = known(0, 2_868_466_484, from_least, edges);
    let edges = [(0, 1), (0, 3), (1, 2), (2, 3)];
    let most = known(u32::MAX, 2_709_482_403, from_most, edges);
    [least, most]
}

fn two_switches_for_one_edge() -> Known {
    Known {
        table: Table::of(&[(1, 1, 6)], 0),
        x: 0,
        switches: 3,
        last: 3_519_870_697,
        joins: vec![
            [1, 2, U, U, U, U, U, U],
            [0, 1, 1, 3, 2, U, U, U],
            [1, 3, 1, 4, 0, 3, 5, 2],
        ],
        edges: vec![(0, 4), (1, 3), (2, 5)],
    }
}

/// Behind an isolated vertex; the pair of cell (2, 2), 5-6, is not the last.
fn two_cells() -> Known {
    Known {
        table: Table::of(&[(1, 2, 4), (2, 2, 2)], 1),
        x: 2,
        switches: 2,
        last: 3_079_534_013,
        joins: vec![
            [4, 7, U, U, U, U, U, U],
            [1, 7, U, U, U, U, U, U],
            [3, 7, 7, 5, 1, U, U, U],
            [5, 6, U, U, U, U, U, U],
            [1, 6, 1, 2, 5, U, U, U],
        ],
        edges: vec![(1, 6), (2, 5), (3, 7), (4, 7), (5, 6)],
    }
}

/// The answer, the records and the bytes behind them, the edges and the journal.
#[test]
fn known_cases() {
    let [least, most] = squares();
    for known in [least, most, two_switches_for_one_edge(), two_cells()] {
        let mut both = laid("known cases", &known.table, &mut Random::new(1));
        let (x, joins, records) = (known.x, known.joins.len(), known.joins.concat());
        let (written, journal) = (records.len() as u64, both.journal.clone());
        let output = vec![FILLED; records.len() + 9];
        let answer = both.call(Call::CompleteShuffled { x, output });
        let expected = [0, joins as u64, known.switches, written, known.last, 0];
        assert_eq!(answer, expected);
        assert_eq!(both.output, [&records[..], &[FILLED; 9]].concat());
        assert_eq!(adjacency::edges(&both.adjacency), known.edges);
        assert!(both.journal == journal);
    }
}

/// Every state that a table of up to 5 vertices can be in, from the least or the most number and from
/// any.
#[test]
fn every_start_of_small_tables() {
    let mut random = Random::new(2);
    let tables = (0..=5).flat_map(realizations_by_table);
    let mut starts = 0;
    for (table, _) in tables {
        let mut both = laid("small tables", &table, &mut random);
        let vertices = table.vertex_count() as usize;
        for bits in partial_graphs(&table) {
            let start = from_bits(vertices, bits).adjacency();
            for x in [*random.pick(&[0, 1, u32::MAX]), random.any() as u32] {
                both.adjacency.clone_from(&start);
                complete(x, &table, &mut both);
            }
            starts += 1;
        }
    }
    println!("{starts} starts");
    assert!(starts > 1_000, "{starts} starts");
}

/// So many numbers are enough for every graph of a small table.
const NUMBERS: u32 = 300;

/// Of a table of up to 5 vertices every graph, at the degrees laid out, comes from one of the first
/// numbers, and no other does.
#[test]
fn every_graph_of_small_tables() {
    let mut random = Random::new(3);
    for (table, graphs) in (0..=5).flat_map(realizations_by_table) {
        let mut both = laid("small graphs", &table, &mut random);
        let mut expected: Vec<_> = graphs.iter().map(Graph::adjacency).collect();
        expected.sort();
        let mut reached = BTreeSet::new();
        for x in 0..NUMBERS {
            both.adjacency.fill(0);
            let answer = both.call_library(call(x, &both));
            assert_eq!(answer[0], 0);
            reached.insert(both.adjacency.clone());
        }
        assert!(reached.iter().eq(&expected), "{table:?}");
    }
}

/// A part of a graph's edges, none and all among them.
fn part_of(graph: &Graph, random: &mut Random) -> Vec<u8> {
    let percent = *random.pick(&[0, 10, 50, 90, 100]);
    let mut part = graph.adjacency();
    for &(v, w) in graph.edges() {
        if !random.chance(percent) {
            adjacency::remove(&mut part, v, w);
        }
    }
    part
}

/// Random graphs by their most vertices and how many of them.
const RANDOM: [(usize, usize); 3] = [(12, 150), (60, 80), (200, 12)];

/// Parts of random graphs: the same number gives the same bytes again, and the number after it another
/// graph, mostly, where much is missing.
#[test]
fn random_starts() {
    let mut random = Random::new(4);
    let (mut much, mut same) = (0, 0);
    for (most, count) in RANDOM {
        for _ in 0..count {
            let graph = graphs::any(most, &mut random).by_rising_degree();
            let mut both = laid("random starts", &graph.table(), &mut random);
            let start = part_of(&graph, &mut random);
            let x = random.any() as u32;
            both.adjacency.clone_from(&start);
            let records = complete(x, &graph.table(), &mut both);
            let first = std::mem::replace(&mut both.adjacency, start.clone());
            both.call_library(call(x, &both));
            assert!(both.adjacency == first && both.output == records, "again");
            if records.len() >= join_record::LENGTH * 20 {
                both.adjacency = start;
                both.call_library(call(x.wrapping_add(1), &both));
                much += 1;
                same += usize::from(both.adjacency == first);
            }
        }
    }
    println!("{much} starts with much missing, {same} the same from the next number");
    assert!(much > 30 && same < much / 5, "{same} of {much}");
}

/// The pairs of the records, joined by hand, make the same switches. After any of them, completing
/// from the number stepped as often makes the rest.
#[test]
fn joined_by_hand() {
    let mut random = Random::new(6);
    for (most, count) in [(8, 60), (60, 10)] {
        for _ in 0..count {
            let graph = graphs::any(most, &mut random).by_rising_degree();
            let table = graph.table();
            let mut both = laid("joined by hand", &table, &mut random);
            let start = part_of(&graph, &mut random);
            both.adjacency.clone_from(&start);
            let x = random.any() as u32;
            let records = complete(x, &table, &mut both);
            let whole = std::mem::replace(&mut both.adjacency, start);
            let joins = records.chunks(join_record::LENGTH);
            let cut = random.below(joins.len() + 1);
            for record in joins.take(cut) {
                join(record, &mut both);
            }
            let rest = complete(stepped(x, cut), &table, &mut both);
            assert!(both.adjacency == whole && records.ends_with(&rest));
        }
    }
}

fn join(record: &[u8], both: &mut Both) {
    let (v, w) = (record[0].into(), record[1].into());
    let answer = both.call(Call::AddEdge { v, w });
    let told = answer[3..].iter().map(|&number| number as u8);
    assert_eq!(answer[0], 0);
    assert!(told.eq(record[2..].iter().copied()), "{record:?}");
}

/// A complete state gives any number back and stays as it is, whatever the room.
#[test]
fn nothing_missing() {
    let mut random = Random::new(7);
    let tables = [
        Table::of(&[], 0),
        Table::of(&[], 200),
        Table::of(&[(2, 2, 8)], 3),
        Table::of(&[(40, 40, 8_000)], 0),
    ];
    for table in tables {
        let mut both = laid("nothing missing", &table, &mut random);
        complete(1, &table, &mut both);
        let whole = both.adjacency.clone();
        for x in [0, 1, 65_535, 65_536, 1 << 31, u32::MAX] {
            for length in [0, 1, 8, 32_000] {
                let output = vec![FILLED; length];
                let answer = both.call(Call::CompleteShuffled { x, output });
                assert_eq!(answer, [0, 0, 0, 0, x.into(), 0]);
                assert!(both.adjacency == whole);
                assert!(both.output.iter().all(|&byte| byte == FILLED));
            }
        }
    }
}

/// The last number of each replica is the next one's: so many replicas of a table differ.
#[test]
fn replicas_in_turn() {
    let table = graphs::regular(200, 6).table();
    let mut both = laid("replicas in turn", &table, &mut Random::new(8));
    let edges = table.matrix.edge_count();
    let mut replicas = BTreeSet::new();
    let mut x = 0;
    for _ in 0..100 {
        both.adjacency.fill(0);
        let answer = both.call_library(call(x, &both));
        let expected = Completing::Shuffled(x).answer(edges, answer[2]);
        assert_eq!(answer, expected, "from {x}");
        replicas.insert(both.adjacency.clone());
        x = answer[4] as u32;
    }
    assert_eq!(replicas.len(), 100);
    assert_eq!(x, stepped(0, 100 * edges as usize));
    assert_ne!(x, step(x));
}
