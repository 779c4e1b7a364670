//! The graphs that small tables have, found in two ways, and the graphs on the way to them, held
//! against the rules of a valid state.

use reference::graphs::{self, from_bits, pairs, Graph};
use reference::random::Random;
use reference::search::{partial_graphs, realizations_by_table, tables_of_all_graphs};
use reference::{lay_out, take_block, validity, Table, ADJACENCY_BYTES, JOURNAL_BYTES};

/// The journal of a table that is laid out.
fn laid(table: &Table) -> Vec<u8> {
    let mut journal = vec![0; JOURNAL_BYTES];
    let adjacency = vec![0; ADJACENCY_BYTES];
    for (number, block) in (0..).zip(table.records().chunks(64)) {
        take_block(&mut journal, &adjacency, number, block).unwrap();
    }
    lay_out(&mut journal, &adjacency).unwrap();
    journal
}

/// Every graph is numbered as its table is laid out, and the search pair by pair finds the same ones.
#[test]
fn realizations_found_in_two_ways() {
    for (vertices, tables, all) in [
        (0, 1, 1),
        (3, 4, 4),
        (4, 11, 16),
        (5, 34, 84),
        (6, 142, 936),
    ] {
        let by_table = realizations_by_table(vertices);
        assert!(by_table.keys().eq(&tables_of_all_graphs(vertices)));
        let mut found = 0;
        for (table, realizations) in &by_table {
            let degrees = table.degrees();
            assert!(realizations.iter().all(|graph| graph.degrees() == degrees));
            let edges = table.matrix.edge_count();
            let mut partial = partial_graphs(table);
            partial.retain(|bits| u64::from(bits.count_ones()) == edges);
            let searched: Vec<Graph> = partial
                .iter()
                .map(|&bits| from_bits(vertices, bits))
                .collect();
            assert!(searched.iter().all(|graph| realizations.contains(graph)));
            assert_eq!(searched.len(), realizations.len());
            found += realizations.len();
        }
        assert_eq!((by_table.len(), found), (tables, all));
    }
}

/// The partial graphs are exactly those that leave the state valid.
#[test]
fn partial_graphs_are_the_valid_states() {
    for vertices in 0..=4 {
        for table in realizations_by_table(vertices).keys() {
            let journal = laid(table);
            let valid = |bits: &u64| {
                let adjacency = from_bits(vertices, *bits).adjacency();
                validity::valid(&journal, &adjacency)
            };
            let expected: Vec<u64> = (0..1 << pairs(vertices)).filter(valid).collect();
            let mut partial = partial_graphs(table);
            partial.sort_unstable();
            assert_eq!(partial, expected, "{:?}", table.records());
        }
    }
}

/// Rewiring keeps degrees and matrix, and mostly gives another graph; exchanging two vertices keeps
/// the matrix and exchanges their degrees.
#[test]
fn rewired_and_exchanged() {
    let mut others = 0;
    for seed in 0..40 {
        let mut random = Random::new(seed);
        let graph = graphs::any(60, &mut random);
        let rewired = graph.rewired(200, &mut random);
        assert_eq!(rewired.degrees(), graph.degrees());
        assert_eq!(rewired.table(), graph.table());
        others += usize::from(rewired != graph);
        let mut degrees = graph.degrees();
        let last = degrees.len() - 1;
        degrees.swap(0, last);
        let exchanged = graph.exchanged(0, last);
        assert_eq!(exchanged.table(), graph.table());
        assert_eq!(exchanged.degrees(), degrees);
    }
    assert!(others > 20, "{others} of 40");
    let lone = Graph::new(3);
    assert_eq!(lone.rewired(5, &mut Random::new(1)), lone);
}
