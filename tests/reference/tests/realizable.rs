//! Tests 9 to 11 pass exactly when some simple graph has the matrix: held against all graphs on up
//! to 6 vertices and against the second builder.

use reference::graphs::{self, from_bits};
use reference::program::{lay, Laid};
use reference::random::Random;
use reference::search::{find_graph, matrices_of_all_graphs, tables_of_all_graphs};
use reference::{adjacency, Matrix, Table, MAX_DEGREE};
use std::collections::BTreeSet;

const VERTICES: usize = 6;

/// Calls `visit` with every symmetric matrix on degrees 1 to 5 whose row k sums to k × counts[k].
fn with_row_sums(counts: &[u64; VERTICES], visit: &mut impl FnMut(&Matrix)) {
    let mut left = [0; VERTICES];
    for k in 1..VERTICES {
        left[k] = k as u64 * counts[k];
    }
    fill(1, 1, &mut left, &Matrix::new(), visit);
}

fn fill(
    k: usize,
    l: usize,
    left: &mut [u64; VERTICES],
    matrix: &Matrix,
    visit: &mut impl FnMut(&Matrix),
) {
    if k == VERTICES {
        visit(matrix);
        return;
    }
    if l == VERTICES {
        if left[k] == 0 {
            fill(k + 1, k + 1, left, matrix, visit);
        }
        return;
    }
    for count in 0..=left[k].min(left[l]) {
        let mut with_count = matrix.clone();
        with_count.add(k, l, count);
        let mut still_left = *left;
        still_left[k] -= count;
        if l != k {
            still_left[l] -= count;
        }
        fill(k, l + 1, &mut still_left, &with_count, visit);
    }
}

/// Every choice of how many vertices have degrees 1 to 5, at most 6 in all.
fn degree_counts() -> Vec<[u64; VERTICES]> {
    let mut all = vec![[0; VERTICES]];
    for k in 1..VERTICES {
        let mut longer = Vec::new();
        for counts in all {
            let used: u64 = counts.iter().sum();
            for count in 0..=VERTICES as u64 - used {
                let mut next: [u64; VERTICES] = counts;
                next[k] = count;
                longer.push(next);
            }
        }
        all = longer;
    }
    all
}

/// A row k that is not zero needs a vertex with k neighbours, so 6 vertices use degrees up to 5.
#[test]
fn tests_pass_exactly_when_a_graph_exists() {
    let real = matrices_of_all_graphs(VERTICES);
    let mut passed = BTreeSet::new();
    let mut tried = 0;
    for counts in degree_counts() {
        with_row_sums(&counts, &mut |matrix| {
            tried += 1;
            let passes = matrix.check_realizable().is_ok();
            assert_eq!(
                passes,
                real.contains(matrix),
                "{:?}",
                matrix.nonzero_cells()
            );
            if passes {
                passed.insert(matrix.clone());
            }
        });
    }
    assert_eq!(passed, real);
    println!("{tried} matrices tried, {} have a graph", real.len());
}

/// All matrices on degrees 1 to 3 with small cells, whether their rows divide or not. The search is
/// asked up to 8 vertices; it would take too long to say no beyond.
#[test]
fn the_search_agrees_on_small_cells() {
    let (mut found, mut none) = (0, 0);
    let most = 5u64;
    for number in 0..most.pow(6) {
        let digit = |place: u32| number / most.pow(place) % most;
        let matrix = Matrix::of(&[
            (1, 1, digit(0)),
            (1, 2, digit(1)),
            (1, 3, digit(2)),
            (2, 2, digit(3)),
            (2, 3, digit(4)),
            (3, 3, digit(5)),
        ]);
        // Isolated vertices hinder no graph and help to none.
        let table = Table::new(matrix, number % 3);
        if table.vertex_count() - table.isolated > 8 {
            continue;
        }
        match find_graph(&table) {
            Some(graph) => {
                assert_eq!(graph.table(), table);
                assert_eq!(table.check(), Ok(graph.vertices() as u64));
                found += 1;
            }
            None => {
                assert!(table.matrix.check_realizable().is_err());
                none += 1;
            }
        }
    }
    println!("{found} have a graph, {none} have none");
}

#[test]
fn every_small_graph_is_completed() {
    for table in tables_of_all_graphs(VERTICES) {
        let laid = lay(&table.records(), &[]).unwrap();
        assert_eq!(laid.vertices, VERTICES as u64);
        assert_eq!(own_table(&laid), table);
        assert_eq!(laid.joins, table.matrix.edge_count());
    }
}

/// Equation (1) at the degrees the graph itself has, and its vertices without an edge.
fn own_table(laid: &Laid) -> Table {
    let edges_at = |v| adjacency::edges_at(&laid.adjacency, v as usize);
    let degrees: Vec<usize> = (0..laid.vertices).map(edges_at).collect();
    let mut matrix = Matrix::new();
    for (v, w) in adjacency::edges(&laid.adjacency) {
        matrix.add_edge(degrees[v], degrees[w]);
    }
    let isolated = degrees.iter().filter(|&&degree| degree == 0).count();
    Table::new(matrix, isolated as u64)
}

#[test]
fn random_graphs_pass_and_are_completed() {
    let mut random = Random::new(1);
    for round in 0..60 {
        let graph = graphs::any(if round < 50 { 40 } else { 200 }, &mut random);
        let table = graph.table();
        assert!(graph.degrees().iter().all(|&degree| degree <= MAX_DEGREE));
        assert_eq!(table.check(), Ok(graph.vertices() as u64));
        let laid = lay(&table.records(), &[]).unwrap();
        assert_eq!(own_table(&laid), table);
        assert_eq!(laid.joins, graph.edges().len() as u64);
    }
}

#[test]
fn a_graph_numbered_by_rising_degree_is_a_laid_state() {
    let mut random = Random::new(2);
    for _ in 0..20 {
        let graph = graphs::any(60, &mut random);
        let laid = graph.by_rising_degree();
        assert_eq!(laid.table(), graph.table());
        assert_eq!(laid.degrees(), graph.table().degrees());
        let linked = graph.without_isolated();
        assert_eq!(linked.table(), Table::new(graph.matrix(), 0));
    }
}

#[test]
fn graphs_from_bits() {
    assert_eq!(from_bits(3, 0b111).edges().len(), 3);
    assert_eq!(from_bits(4, 0).edges().len(), 0);
    assert_eq!(from_bits(4, 0b100000).edges().len(), 1);
}
