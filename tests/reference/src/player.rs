//! Plays records of joins and of swaps onto an adjacency matrix. It knows nothing of degrees, cells
//! or switching: it takes edges out and puts edges in as the bytes say, and stops where that cannot
//! be done.

use crate::adjacency::place;
use crate::join_record::{LENGTH, UNUSED};
use crate::{log, MAX_VERTICES};

/// What is wrong with a record.
#[derive(Clone, Copy, Debug, PartialEq, Eq)]
pub enum Fault {
    /// A part of a record, a number that is no vertex, an edge from a vertex to itself, or a triple
    /// behind an unused one.
    Malformed,
    /// This edge is to be taken out and is not there.
    Missing(u8, u8),
    /// This edge is to be put in and is there already.
    Present(u8, u8),
}

/// Plays all records in their order. A fault comes with the index of its record; the records before
/// it are played then.
pub fn play(records: &[u8], adjacency: &mut [u8]) -> Result<(), (usize, Fault)> {
    for (index, record) in records.chunks(LENGTH).enumerate() {
        play_record(record, adjacency).map_err(|fault| (index, fault))?;
    }
    Ok(())
}

/// Plays the records of a log in the same way.
pub fn play_swaps(records: &[u8], adjacency: &mut [u8]) -> Result<(), (usize, Fault)> {
    for (index, record) in records.chunks(log::RECORD_BYTES).enumerate() {
        play_swap(record, adjacency).map_err(|fault| (index, fault))?;
    }
    Ok(())
}

/// Edges a-b and c-d are taken out, and then a-d and b-c put in.
fn play_swap(record: &[u8], adjacency: &mut [u8]) -> Result<(), Fault> {
    let &[a, b, c, d] = record else {
        return Err(Fault::Malformed);
    };
    take_out(adjacency, a, b)?;
    take_out(adjacency, c, d)?;
    put_in(adjacency, a, d)?;
    put_in(adjacency, b, c)
}

/// The triples a, b, t first, each taking out a-t and putting in b-t; then the edge v-w is put in.
fn play_record(record: &[u8], adjacency: &mut [u8]) -> Result<(), Fault> {
    let &[v, w, ref triples @ ..] = record else {
        return Err(Fault::Malformed);
    };
    if triples.len() != LENGTH - 2 {
        return Err(Fault::Malformed);
    }
    let is_used = |triple: &&[u8]| triple.iter().any(|&byte| byte != UNUSED);
    let used = triples.chunks(3).filter(is_used).count();
    for triple in triples.chunks(3).take(used) {
        let (a, b, t) = (triple[0], triple[1], triple[2]);
        take_out(adjacency, a, t)?;
        put_in(adjacency, b, t)?;
    }
    put_in(adjacency, v, w)
}

fn take_out(adjacency: &mut [u8], v: u8, w: u8) -> Result<(), Fault> {
    match turn(adjacency, v, w, 1, 0)? {
        true => Ok(()),
        false => Err(Fault::Missing(v, w)),
    }
}

fn put_in(adjacency: &mut [u8], v: u8, w: u8) -> Result<(), Fault> {
    match turn(adjacency, v, w, 0, 1)? {
        true => Ok(()),
        false => Err(Fault::Present(v, w)),
    }
}

/// Turns both bytes of a pair from one value to another. False where one of them has not the first.
fn turn(adjacency: &mut [u8], v: u8, w: u8, from: u8, to: u8) -> Result<bool, Fault> {
    let (v, w) = (v as usize, w as usize);
    if v == w || v >= MAX_VERTICES || w >= MAX_VERTICES {
        return Err(Fault::Malformed);
    }
    let places = [place(v, w), place(w, v)];
    if places.iter().any(|&place| adjacency[place] != from) {
        return Ok(false);
    }
    for place in places {
        adjacency[place] = to;
    }
    Ok(true)
}
