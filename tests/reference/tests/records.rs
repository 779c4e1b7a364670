//! Which edges moved (document 02, P2): the triples of a join, the records of completing and the room
//! they need, each case worked out by hand from document 01's rules; then the records of random
//! states, played.

use reference::adjacency::{self, insert};
use reference::graphs;
use reference::player::{play, Fault};
use reference::program::lay;
use reference::random::Random;
use reference::{
    add_edge, complete, figures, lay_out, log, refused, take_block, Completion, Switch, Table,
    ADJACENCY_BYTES, JOURNAL_BYTES,
};

/// A byte of a record that is not needed.
const U: u8 = 255;

const PAPER: [u8; 12] = [1, 3, 1, 0, 2, 2, 2, 0, 2, 3, 2, 0];
const SQUARE: [u8; 4] = [2, 2, 8, 0];

/// A laid state without edges.
fn empty(records: &[u8]) -> (Vec<u8>, Vec<u8>) {
    let mut journal = vec![0; JOURNAL_BYTES];
    let adjacency = vec![0; ADJACENCY_BYTES];
    for (number, block) in (0..).zip(records.chunks(64)) {
        take_block(&mut journal, &adjacency, number, block).unwrap();
    }
    lay_out(&mut journal, &adjacency).unwrap();
    (journal, adjacency)
}

/// A laid state with these edges.
fn with_edges(records: &[u8], edges: &[(usize, usize)]) -> (Vec<u8>, Vec<u8>) {
    let (journal, mut adjacency) = empty(records);
    for &(v, w) in edges {
        insert(&mut adjacency, v, w);
    }
    (journal, adjacency)
}

/// The records of completing a table from these edges, which give the graph back when played.
fn completed(records: &[u8], edges: &[(usize, usize)]) -> Vec<[u8; 8]> {
    let (journal, mut adjacency) = with_edges(records, edges);
    let mut output = vec![7; 32_000];
    let mut played = adjacency.clone();
    let done = complete(&journal, &mut adjacency, &mut log::empty(), &mut output).unwrap();
    let (written, rest) = output.split_at(done.written as usize);
    assert!(rest.iter().all(|&byte| byte == 7));
    assert_eq!(play(written, &mut played), Ok(()));
    assert!(played == adjacency, "played, the records give other edges");
    let chunks = written.chunks(8);
    chunks.map(|chunk| chunk.try_into().unwrap()).collect()
}

fn switch(a: usize, b: usize, t: usize) -> Switch {
    Switch { a, b, t }
}

#[test]
fn no_switch() {
    assert_eq!(completed(&[], &[]), [[0; 8]; 0]);
    assert_eq!(completed(&[1, 1, 2, 0], &[]), [[0, 1, U, U, U, U, U, U]]);
    assert_eq!(
        completed(&PAPER, &[]),
        [
            [0, 3, U, U, U, U, U, U],
            [1, 2, U, U, U, U, U, U],
            [1, 3, U, U, U, U, U, U],
            [2, 3, U, U, U, U, U, U],
        ]
    );
}

/// Joining 0-3, vertex 0 gives 0-2 to vertex 1; then 0-2 is the lowest open pair again, and 0 gives
/// 0-1 to vertex 3.
#[test]
fn a_square_from_empty() {
    assert_eq!(
        completed(&SQUARE, &[]),
        [
            [0, 1, U, U, U, U, U, U],
            [0, 2, U, U, U, U, U, U],
            [0, 3, 0, 1, 2, U, U, U],
            [0, 2, 0, 3, 1, U, U, U],
        ]
    );
}

/// The other named vertex takes the edge.
#[test]
fn a_square_from_a_triangle() {
    let triangle = [(0, 1), (0, 2), (1, 2)];
    assert_eq!(completed(&SQUARE, &triangle), [[0, 3, 0, 3, 1, U, U, U]]);
    for (v, w) in [(0, 3), (3, 0)] {
        let (journal, mut adjacency) = with_edges(&SQUARE, &triangle);
        let switches = add_edge(&journal, &mut adjacency, &mut log::empty(), v, w);
        assert_eq!(switches, Ok(vec![switch(0, 3, 1)]));
    }
}

/// With 0-2 and 1-3 laid, joining 0-1 moves both of them; the first named vertex is first.
#[test]
fn two_switches() {
    assert_eq!(
        completed(&[1, 1, 6, 0], &[]),
        [
            [0, 1, U, U, U, U, U, U],
            [0, 2, 0, 3, 1, U, U, U],
            [0, 1, 0, 4, 2, 1, 5, 3],
        ]
    );
    let laid = [(0, 2), (1, 3)];
    let add = |v, w| {
        let (journal, mut adjacency) = with_edges(&[1, 1, 6, 0], &laid);
        add_edge(&journal, &mut adjacency, &mut log::empty(), v, w)
    };
    assert_eq!(add(0, 1), Ok(vec![switch(0, 4, 2), switch(1, 5, 3)]));
    assert_eq!(add(1, 0), Ok(vec![switch(1, 4, 3), switch(0, 5, 2)]));
}

/// The only switch stands in the first triple, also when it is the second vertex's.
#[test]
fn one_switch_of_the_second_vertex() {
    let records = completed(&[1, 1, 4, 0], &[(1, 2)]);
    assert_eq!(records, [[0, 1, 1, 3, 2, U, U, U]]);
}

/// Four vertices of degree 1 and three of degree 2: the second cell's join moves edges of the first.
#[test]
fn two_cells() {
    assert_eq!(
        completed(&[1, 2, 4, 0, 2, 2, 2, 0], &[]),
        [
            [0, 4, U, U, U, U, U, U],
            [0, 5, 0, 1, 4, U, U, U],
            [0, 4, 0, 2, 5, U, U, U],
            [0, 5, 0, 3, 4, U, U, U],
            [4, 5, 4, 6, 1, 5, 6, 0],
        ]
    );
}

/// Isolated vertices come first and take no part.
#[test]
fn isolated_vertices_shift_the_numbers() {
    let records = completed(&[0, 0, 2, 0, 2, 2, 8, 0], &[]);
    assert_eq!(
        records,
        [
            [2, 3, U, U, U, U, U, U],
            [2, 4, U, U, U, U, U, U],
            [2, 5, 2, 3, 4, U, U, U],
            [2, 4, 2, 5, 3, U, U, U],
        ]
    );
    assert_eq!(completed(&[0, 0, 200, 0], &[]), [[0; 8]; 0]);
}

/// Refused with 18 below 8 bytes for each missing edge, and nothing changes then.
#[test]
fn room() {
    for (laid, missing) in [(0, 4), (1, 3), (3, 1), (4, 0)] {
        let edges = [(0, 2), (0, 3), (1, 2), (1, 3)];
        let (journal, adjacency) = with_edges(&SQUARE, &edges[..laid]);
        for length in 0..8 * missing {
            let (mut after, mut output) = (adjacency.clone(), vec![7; length]);
            let answer = complete(&journal, &mut after, &mut log::empty(), &mut output);
            assert_eq!(answer, Err(refused(18)), "{length} bytes");
            assert!(after == adjacency && output.iter().all(|&byte| byte == 7));
        }
        for more in [0, 1, 7, 8, 9] {
            let mut output = vec![7; 8 * missing + more];
            let done = complete(
                &journal,
                &mut adjacency.clone(),
                &mut log::empty(),
                &mut output,
            )
            .unwrap();
            assert_eq!(done.joins as usize, missing);
            assert_eq!(done.written as usize, 8 * missing);
            assert!(output[8 * missing..].iter().all(|&byte| byte == 7));
        }
    }
}

/// 18 comes after 1, 2 and 3.
#[test]
fn order_of_checks() {
    let (journal, adjacency) = empty(&SQUARE);
    let answer = |journal: &[u8], adjacency: &[u8]| {
        complete(
            journal,
            &mut adjacency.to_vec(),
            &mut log::empty(),
            &mut [0; 31],
        )
        .unwrap_err()
    };
    assert_eq!(answer(&journal, &adjacency), refused(18));
    assert_eq!(answer(&journal[1..], &adjacency), refused(1));
    assert_eq!(answer(&journal, &adjacency[1..]), refused(1));
    let mut damaged = adjacency.clone();
    damaged[0] = 1;
    assert_eq!(answer(&journal, &damaged), refused(2));
    let mut taking = journal.clone();
    taking[0] = 0;
    assert_eq!(answer(&taking, &adjacency), refused(3));
}

#[test]
fn the_most_records() {
    let (journal, mut adjacency) = empty(&[40, 40, 64, 31]);
    let mut output = vec![7; 32_000];
    let short = complete(
        &journal,
        &mut adjacency,
        &mut log::empty(),
        &mut output[..31_999],
    );
    assert_eq!(short, Err(refused(18)));
    let expected = Completion {
        joins: 4_000,
        switches: 7_139,
        written: 32_000,
    };
    let mut played = adjacency.clone();
    let done = complete(&journal, &mut adjacency, &mut log::empty(), &mut output);
    assert_eq!(done, Ok(expected));
    assert_eq!(play(&output, &mut played), Ok(()));
    assert!(played == adjacency);
}

/// From any part of a graph's own edges, and from edges joined by hand with their switches.
#[test]
fn random_states_are_played() {
    let mut random = Random::new(9);
    for round in 0..120 {
        let graph = graphs::any(if round < 110 { 30 } else { 200 }, &mut random);
        let graph = graph.by_rising_degree();
        let table = graph.table().records();
        let percent = random.between(0, 100);
        let mut part: Vec<(usize, usize)> = graph.edges().iter().copied().collect();
        part.retain(|_| random.chance(percent));
        let (journal, mut adjacency) = with_edges(&table, &part);
        for _ in 0..10 {
            let vertex = |random: &mut Random| random.below(graph.vertices()) as u64;
            let (v, w) = (vertex(&mut random), vertex(&mut random));
            let mut played = adjacency.clone();
            if let Ok(switches) = add_edge(&journal, &mut adjacency, &mut log::empty(), v, w) {
                play(&record_by_hand(v, w, &switches), &mut played).unwrap();
                assert!(played == adjacency, "{v}, {w}: {switches:?}");
            }
        }
        let laid = figures(&journal, &adjacency).unwrap();
        let records = completed(&table, &adjacency::edges(&adjacency));
        assert_eq!(records.len() as u64, laid.edges_wanted - laid.edges_laid);
        assert!(records.iter().all(|record| record[0] < record[1]));
    }
}

fn record_by_hand(v: u64, w: u64, switches: &[Switch]) -> [u8; 8] {
    let triple = |switch: &Switch| [switch.a as u8, switch.b as u8, switch.t as u8];
    let unused = [U; 3];
    let (first, second) = match switches {
        [] => (unused, unused),
        [only] => (triple(only), unused),
        [first, second] => (triple(first), triple(second)),
        _ => panic!("{} switches", switches.len()),
    };
    let mut record = [v as u8, w as u8, 0, 0, 0, 0, 0, 0];
    record[2..5].copy_from_slice(&first);
    record[5..].copy_from_slice(&second);
    record
}

/// Playing all records of a completion from empty gives the whole graph.
#[test]
fn a_laid_table_is_its_records() {
    let tables = [
        Table::of(&[(1, 1, 200)], 0),
        Table::of(&[(1, 2, 4), (2, 2, 2)], 5),
    ];
    for table in tables {
        let laid = lay(&table.records(), &[]).unwrap();
        let mut played = vec![0; ADJACENCY_BYTES];
        assert_eq!(play(&laid.records, &mut played), Ok(()));
        assert!(played == laid.adjacency);
        let used = laid.records.chunks(8).map(|record| {
            let first = record[2] != U;
            u64::from(first) + u64::from(first && record[5] != U)
        });
        assert_eq!(used.sum::<u64>(), laid.switches);
    }
}

/// The player says where an edge is missing or there already, and what is no record.
#[test]
fn faults() {
    let (_, adjacency) = with_edges(&SQUARE, &[(0, 1), (0, 2)]);
    let fault = |records: &[u8]| play(records, &mut adjacency.clone()).unwrap_err();
    assert_eq!(fault(&[0, 1, U, U, U, U, U, U]), (0, Fault::Present(0, 1)));
    assert_eq!(fault(&[2, 0, U, U, U, U, U, U]), (0, Fault::Present(2, 0)));
    assert_eq!(fault(&[0, 3, 0, 1, 3, U, U, U]), (0, Fault::Missing(0, 3)));
    assert_eq!(fault(&[0, 3, 1, 2, 0, U, U, U]), (0, Fault::Present(2, 0)));
    assert_eq!(fault(&[1, 2, 0, 1, 2, U, U, U]), (0, Fault::Present(1, 2)));
    assert_eq!(fault(&[0, 3, 0, 1, 2, 0, 3, 2]), (0, Fault::Missing(0, 2)));
    let good = [0, 3, U, U, U, U, U, U];
    let twice = [good, good].concat();
    assert_eq!(fault(&twice), (1, Fault::Present(0, 3)));
    assert_eq!(fault(&twice[..9]), (1, Fault::Malformed));
    for bad in [
        [0, 3, U, U, U, 0, 1, 2],
        [0, 3, 0, 1, U, U, U, U],
        [0, 3, 0, 0, 0, U, U, U],
        [0, 200, U, U, U, U, U, U],
        [3, 3, U, U, U, U, U, U],
        [U; 8],
    ] {
        assert_eq!(fault(&bad), (0, Fault::Malformed), "{bad:?}");
    }
    // One byte of an edge is not an edge.
    let mut half = adjacency.clone();
    half[adjacency::place(2, 0)] = 0;
    let answer = play(&[1, 2, 0, 1, 2, U, U, U], &mut half);
    assert_eq!(answer, Err((0, Fault::Missing(0, 2))));
}
