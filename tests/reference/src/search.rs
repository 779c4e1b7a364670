//! A second builder that knows no switching: it tries pair after pair, with the edge and without.
//! It answers for small tables whether any graph has them, which ones, and which graphs are part of
//! the way to one.

use crate::graphs::{all_pairs, from_bits, pairs, Graph};
use crate::{Matrix, Table, MAX_DEGREE};
use std::collections::{BTreeMap, BTreeSet};

/// The tables of all graphs on exactly `vertices` vertices.
pub fn tables_of_all_graphs(vertices: usize) -> BTreeSet<Table> {
    (0..1u64 << pairs(vertices))
        .map(|bits| from_bits(vertices, bits).table())
        .collect()
}

/// The matrices of all graphs on up to `vertices` vertices. Isolated vertices do not show in a
/// matrix, so the graphs on exactly `vertices` vertices have them all.
pub fn matrices_of_all_graphs(vertices: usize) -> BTreeSet<Matrix> {
    let tables = tables_of_all_graphs(vertices).into_iter();
    tables.map(|table| table.matrix).collect()
}

/// For each table of a graph on exactly `vertices` vertices, all graphs that have it and, vertex by
/// vertex, the degrees laid out for it: those of all graphs that are numbered by rising degree.
pub fn realizations_by_table(vertices: usize) -> BTreeMap<Table, Vec<Graph>> {
    let mut by_table: BTreeMap<Table, Vec<Graph>> = BTreeMap::new();
    for bits in 0..1u64 << pairs(vertices) {
        let graph = from_bits(vertices, bits);
        if graph.degrees().is_sorted() {
            by_table.entry(graph.table()).or_default().push(graph);
        }
    }
    by_table
}

/// All graphs that a state laid out for this table can hold: no vertex above its degree, no cell above
/// the table. They are bits, one a pair, as [`from_bits`] takes them. For a few vertices only.
pub fn partial_graphs(table: &Table) -> Vec<u64> {
    let degrees = table.degrees();
    let mut search = Partial {
        pairs: all_pairs(degrees.len()),
        missing: table.matrix.clone(),
        free: degrees.clone(),
        degrees,
        found: Vec::new(),
    };
    search.decide(0, 0);
    search.found
}

struct Partial {
    degrees: Vec<usize>,
    pairs: Vec<(usize, usize)>,
    missing: Matrix,
    free: Vec<usize>,
    found: Vec<u64>,
}

impl Partial {
    /// Decides this pair and all pairs after it; the bits are those of the pairs before it.
    fn decide(&mut self, pair: usize, bits: u64) {
        let Some(&(v, w)) = self.pairs.get(pair) else {
            self.found.push(bits);
            return;
        };
        self.decide(pair + 1, bits);
        let (k, l) = (self.degrees[v], self.degrees[w]);
        let cost = if k == l { 2 } else { 1 };
        if self.free[v] > 0 && self.free[w] > 0 && self.missing.cell(k, l) >= cost {
            self.missing.take_edge(k, l);
            self.free[v] -= 1;
            self.free[w] -= 1;
            self.decide(pair + 1, bits | 1 << pair);
            self.missing.add_edge(k, l);
            self.free[v] += 1;
            self.free[w] += 1;
        }
    }
}

/// A graph with this table, or none. For a few vertices only.
///
/// The ends of edges at vertices of degree k number S(k) in any graph that has the matrix, so it
/// has exactly S(k) / k of them; nothing else of the tests 9 to 11 is used.
pub fn find_graph(wanted: &Table) -> Option<Graph> {
    if (1..=MAX_DEGREE).any(|k| wanted.matrix.row_sum(k) % k as u64 != 0) {
        return None;
    }
    let degrees = wanted.degrees();
    let mut graph = Graph::new(degrees.len());
    let mut missing = wanted.matrix.clone();
    let mut free = degrees.clone();
    try_pair(&degrees, 0, 1, &mut missing, &mut free, &mut graph).then_some(graph)
}

/// Decides pair (v, w) and all pairs after it.
fn try_pair(
    degrees: &[usize],
    v: usize,
    w: usize,
    missing: &mut Matrix,
    free: &mut [usize],
    graph: &mut Graph,
) -> bool {
    if v + 1 >= degrees.len() {
        return missing.nonzero_cells().is_empty() && free.iter().all(|&left| left == 0);
    }
    if w == degrees.len() {
        // All pairs of v are decided: its degree must be reached by now.
        return free[v] == 0 && try_pair(degrees, v + 1, v + 2, missing, free, graph);
    }
    let (k, l) = (degrees[v], degrees[w]);
    let cost = if k == l { 2 } else { 1 };
    if free[v] > 0 && free[w] > 0 && missing.cell(k, l) >= cost {
        missing.take_edge(k, l);
        free[v] -= 1;
        free[w] -= 1;
        let mut with_edge = graph.clone();
        with_edge.join(v, w);
        if try_pair(degrees, v, w + 1, missing, free, &mut with_edge) {
            *graph = with_edge;
            return true;
        }
        missing.add_edge(k, l);
        free[v] += 1;
        free[w] += 1;
    }
    try_pair(degrees, v, w + 1, missing, free, graph)
}
