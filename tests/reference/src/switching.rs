//! The neighbour switch, adding one edge, and completing, on a valid laid state.

use crate::{adjacency, Matrix, Table, MAX_DEGREE};

/// A neighbour switch that was made: edge a-t was removed and edge b-t added.
#[derive(Clone, Copy, Debug, PartialEq, Eq)]
pub struct Switch {
    pub a: usize,
    pub b: usize,
    pub t: usize,
}

/// An edge that was added, and the switches made for it, in the order made.
#[derive(Clone, Debug, PartialEq, Eq)]
pub struct Join {
    pub v: usize,
    pub w: usize,
    pub switches: Vec<Switch>,
}

/// Whether v has as many edges as its degree (document 01: full).
fn saturated(adjacency: &[u8], degrees: &[usize], v: usize) -> bool {
    adjacency::edges_at(adjacency, v) == degrees[v]
}

/// Frees one edge place of `a`, which is about to be joined to `other`.
fn neighbor_switch(adjacency: &mut [u8], degrees: &[usize], a: usize, other: usize) -> Switch {
    let b = (0..degrees.len())
        .find(|&b| degrees[b] == degrees[a] && b != other && !saturated(adjacency, degrees, b))
        .unwrap_or(other);
    let t = (0..degrees.len())
        .find(|&t| {
            t != b && adjacency::joined(adjacency, a, t) && !adjacency::joined(adjacency, b, t)
        })
        .expect("a saturated vertex has a neighbour that an unsaturated one of its degree lacks");
    adjacency::remove(adjacency, a, t);
    adjacency::insert(adjacency, b, t);
    Switch { a, b, t }
}

/// Joins two vertices that are not joined and whose cell is short.
pub fn join(adjacency: &mut [u8], degrees: &[usize], v: usize, w: usize) -> Join {
    let mut switches = Vec::new();
    for (a, other) in [(v, w), (w, v)] {
        if saturated(adjacency, degrees, a) {
            switches.push(neighbor_switch(adjacency, degrees, a, other));
        }
    }
    adjacency::insert(adjacency, v, w);
    Join { v, w, switches }
}

/// The lowest cell (k, l), k at most l, that counts fewer edges than wanted.
pub fn lowest_short_cell(counted: &Matrix, wanted: &Matrix) -> Option<(usize, usize)> {
    for k in 1..=MAX_DEGREE {
        for l in k..=MAX_DEGREE {
            if counted.cell(k, l) < wanted.cell(k, l) {
                return Some((k, l));
            }
        }
    }
    None
}

/// The lowest pair of degrees k and l that is not joined, by v and then w.
fn lowest_open_pair(
    adjacency: &[u8],
    degrees: &[usize],
    k: usize,
    l: usize,
) -> Option<(usize, usize)> {
    for v in (0..degrees.len()).filter(|&v| degrees[v] == k) {
        for w in (0..degrees.len()).filter(|&w| degrees[w] == l) {
            // For k = l the pair is named once, lower vertex first; else v < w anyway.
            if v < w && !adjacency::joined(adjacency, v, w) {
                return Some((v, w));
            }
        }
    }
    None
}

/// Joins the pair chosen on what the matrix counts, until none is chosen. Returns the joins in the
/// order made.
pub fn join_chosen(
    adjacency: &mut [u8],
    degrees: &[usize],
    mut choose: impl FnMut(&[u8], &Matrix) -> Option<(usize, usize)>,
) -> Vec<Join> {
    let mut joins = Vec::new();
    loop {
        // Recounted before every join: a switch must not change any cell, so it is not trusted to.
        let counted = adjacency::counted_at(adjacency, degrees);
        let Some((v, w)) = choose(adjacency, &counted) else {
            return joins;
        };
        joins.push(join(adjacency, degrees, v, w));
    }
}

/// Joins the lowest open pair of the lowest short cell until no cell is short. Returns the joins in
/// the order made.
pub fn complete(adjacency: &mut [u8], wanted: &Table) -> Vec<Join> {
    let degrees = wanted.degrees();
    join_chosen(adjacency, &degrees, |adjacency, counted| {
        let (k, l) = lowest_short_cell(counted, &wanted.matrix)?;
        let lowest = lowest_open_pair(adjacency, &degrees, k, l);
        Some(lowest.expect("a short cell of a realizable matrix has a pair that is not joined"))
    })
}
