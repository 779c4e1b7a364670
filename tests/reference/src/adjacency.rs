//! The adjacency matrix (document 01: the grid): byte v × 200 + w is 1 if v and w are joined.

use crate::{Matrix, MAX_VERTICES};

pub fn place(v: usize, w: usize) -> usize {
    v * MAX_VERTICES + w
}

pub fn joined(adjacency: &[u8], v: usize, w: usize) -> bool {
    adjacency[place(v, w)] == 1
}

pub fn insert(adjacency: &mut [u8], v: usize, w: usize) {
    adjacency[place(v, w)] = 1;
    adjacency[place(w, v)] = 1;
}

pub fn remove(adjacency: &mut [u8], v: usize, w: usize) {
    adjacency[place(v, w)] = 0;
    adjacency[place(w, v)] = 0;
}

/// How many edges v has now.
pub fn edges_at(adjacency: &[u8], v: usize) -> usize {
    (0..MAX_VERTICES)
        .filter(|&w| joined(adjacency, v, w))
        .count()
}

/// All edges (v, w) with v below w, ascending.
pub fn edges(adjacency: &[u8]) -> Vec<(usize, usize)> {
    let mut edges = Vec::new();
    for v in 0..MAX_VERTICES {
        for w in v + 1..MAX_VERTICES {
            if joined(adjacency, v, w) {
                edges.push((v, w));
            }
        }
    }
    edges
}

/// Equation (1), but at the given degrees instead of the degrees the graph has now.
pub fn counted_at(adjacency: &[u8], degrees: &[usize]) -> Matrix {
    let mut matrix = Matrix::new();
    for v in 0..degrees.len() {
        for w in v + 1..degrees.len() {
            if joined(adjacency, v, w) {
                matrix.add_edge(degrees[v], degrees[w]);
            }
        }
    }
    matrix
}

/// Symmetric, 0 or 1, with a zero diagonal, and zero outside the first `vertices` rows and columns.
pub fn well_formed(adjacency: &[u8], vertices: usize) -> bool {
    for v in 0..MAX_VERTICES {
        for w in 0..MAX_VERTICES {
            let byte = adjacency[place(v, w)];
            if byte > 1 || byte != adjacency[place(w, v)] {
                return false;
            }
            if byte == 1 && (v == w || v >= vertices || w >= vertices) {
                return false;
            }
        }
    }
    true
}
