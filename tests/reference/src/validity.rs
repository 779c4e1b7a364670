//! When journal and adjacency together are a valid state (document 01: a sound bench), and when the
//! log that is lent with them is valid too.

use crate::{adjacency, journal, log, swapping, Matrix, Table, MAX_DEGREE};

/// For a journal and an adjacency matrix of the right lengths.
pub fn valid(journal: &[u8], adjacency: &[u8]) -> bool {
    if !journal::well_formed(journal) {
        return false;
    }
    if journal::phase(journal) == journal::TAKING {
        return adjacency.iter().all(|&byte| byte == 0);
    }
    let wanted = journal::summed_table(journal);
    wanted.check().is_ok() && valid_when_laid(&wanted, adjacency)
}

/// For a log of the right length, beside a valid state: an empty one is always valid, and in phase
/// 0 no other; once laid, its swaps can be undone.
pub fn log_valid(journal: &[u8], adjacency: &[u8], log: &[u8]) -> bool {
    if journal::phase(journal) == journal::TAKING {
        return log.iter().all(|&byte| byte == 0);
    }
    let degrees = journal::summed_table(journal).degrees();
    log::well_formed(log) && swapping::all_undone(adjacency, &degrees, log).is_some()
}

fn valid_when_laid(wanted: &Table, adjacency: &[u8]) -> bool {
    let degrees = wanted.degrees();
    adjacency::well_formed(adjacency, degrees.len())
        && no_vertex_above_its_degree(&degrees, adjacency)
        && no_cell_above(&adjacency::counted_at(adjacency, &degrees), &wanted.matrix)
}

fn no_vertex_above_its_degree(degrees: &[usize], adjacency: &[u8]) -> bool {
    (0..degrees.len()).all(|v| adjacency::edges_at(adjacency, v) <= degrees[v])
}

fn no_cell_above(counted: &Matrix, wanted: &Matrix) -> bool {
    (0..=MAX_DEGREE).all(|k| (0..=MAX_DEGREE).all(|l| counted.cell(k, l) <= wanted.cell(k, l)))
}
