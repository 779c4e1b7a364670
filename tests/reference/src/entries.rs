//! The fifteen entries. Each runs its checks in the order of document 01's table and writes only
//! when all of them have passed, so that a refusal leaves every byte as it was.

use crate::graphs::Graph;
use crate::swapping::{self, Swap};
use crate::switching::{self, Join, Switch};
use crate::{
    adjacency, graph6, join_record, journal, log, refused, refused_at, shuffling, validity, Matrix,
    Refused, Table, ADJACENCY_BYTES, JOURNAL_BYTES, LOG_BYTES, MAX_BLOCKS, MAX_DEGREE, MAX_SWAPS,
    MAX_VERTICES,
};

/// What taking a block answers when it is not refused.
#[derive(Clone, Copy, Debug, PartialEq, Eq)]
pub enum Take {
    /// The block is new; the number is the block count afterwards.
    Taken(u64),
    /// The same block was taken before.
    Held,
}

/// What completing did.
#[derive(Clone, Copy, Debug, PartialEq, Eq)]
pub struct Completion {
    pub joins: u64,
    pub switches: u64,
    /// Bytes of the output written.
    pub written: u64,
}

/// Phase, blocks, N, edges wanted, edges laid.
#[derive(Clone, Copy, Debug, PartialEq, Eq)]
pub struct Figures {
    pub phase: u64,
    pub blocks: u64,
    pub vertices: u64,
    pub edges_wanted: u64,
    pub edges_laid: u64,
}

/// Check 1: both lengths, before any byte is looked at.
fn check_lengths(journal: &[u8], adjacency: &[u8]) -> Result<(), Refused> {
    if journal.len() != JOURNAL_BYTES || adjacency.len() != ADJACENCY_BYTES {
        return Err(refused(1));
    }
    Ok(())
}

/// Checks 1 and 2.
fn check_state(journal: &[u8], adjacency: &[u8]) -> Result<(), Refused> {
    check_lengths(journal, adjacency)?;
    if !validity::valid(journal, adjacency) {
        return Err(refused(2));
    }
    Ok(())
}

/// Check 3 for the entries that need vertices.
fn check_phase(journal: &[u8]) -> Result<(), Refused> {
    if journal::phase(journal) != journal::LAID {
        return Err(refused(3));
    }
    Ok(())
}

/// Check 1 for the entries that are lent the log.
fn check_lengths_with_log(journal: &[u8], adjacency: &[u8], log: &[u8]) -> Result<(), Refused> {
    check_lengths(journal, adjacency)?;
    if log.len() != LOG_BYTES {
        return Err(refused(1));
    }
    Ok(())
}

/// Checks 1, 2 and 3 for those of them that need vertices.
fn check_laid_with_log(journal: &[u8], adjacency: &[u8], log: &[u8]) -> Result<(), Refused> {
    check_lengths_with_log(journal, adjacency, log)?;
    check_state(journal, adjacency)?;
    if !validity::log_valid(journal, adjacency, log) {
        return Err(refused(2));
    }
    check_phase(journal)
}

/// Check 13.
fn check_vertices<const N: usize>(named: [u64; N], vertices: usize) -> Result<[usize; N], Refused> {
    if named.iter().any(|&v| v >= vertices as u64) {
        return Err(refused(13));
    }
    Ok(named.map(|v| v as usize))
}

/// Checks 13 and 14.
fn check_pair(v: u64, w: u64, vertices: usize) -> Result<(usize, usize), Refused> {
    let [v, w] = check_vertices([v, w], vertices)?;
    if v == w {
        return Err(refused(14));
    }
    Ok((v, w))
}

/// Makes the change, and empties the log if the matrix is another one then.
fn emptying<T>(adjacency: &mut [u8], log: &mut [u8], change: impl FnOnce(&mut [u8]) -> T) -> T {
    let before = adjacency.to_vec();
    let made = change(adjacency);
    if adjacency != before {
        log.fill(0);
    }
    made
}

/// Check 18, and the writing. Returns the written length.
fn write(bytes: &[u8], output: &mut [u8]) -> Result<u64, Refused> {
    if output.len() < bytes.len() {
        return Err(refused(18));
    }
    output[..bytes.len()].copy_from_slice(bytes);
    Ok(bytes.len() as u64)
}

/// Sets every byte to zero.
pub fn clear(journal: &mut [u8], adjacency: &mut [u8], log: &mut [u8]) -> Result<(), Refused> {
    check_lengths_with_log(journal, adjacency, log)?;
    journal.fill(0);
    adjacency.fill(0);
    log.fill(0);
    Ok(())
}

/// Takes a new block, or finds it held already.
pub fn take_block(
    journal: &mut [u8],
    adjacency: &[u8],
    number: u64,
    block: &[u8],
) -> Result<Take, Refused> {
    check_state(journal, adjacency)?;
    journal::check_block(block)?;
    let blocks = journal::block_count(journal);
    if number > blocks as u64 {
        return Err(refused(6));
    }
    if number < blocks as u64 {
        if journal::block(journal, number as usize) != block {
            return Err(refused(7));
        }
        return Ok(Take::Held);
    }
    if journal::phase(journal) == journal::LAID {
        return Err(refused(3));
    }
    if blocks == MAX_BLOCKS {
        return Err(refused(8));
    }
    let start = journal::slot_start(blocks);
    journal[start] = block.len() as u8;
    journal[start + 1..start + 1 + block.len()].copy_from_slice(block);
    journal[1] += 1;
    Ok(Take::Taken(blocks as u64 + 1))
}

/// Where a held block lies in the journal: offset and length.
pub fn held_block(journal: &[u8], adjacency: &[u8], number: u64) -> Result<(u64, u64), Refused> {
    check_state(journal, adjacency)?;
    if number >= journal::block_count(journal) as u64 {
        return Err(refused(6));
    }
    let start = journal::slot_start(number as usize);
    Ok((start as u64 + 1, journal[start] as u64))
}

/// Lays out the vertices. Returns their number.
pub fn lay_out(journal: &mut [u8], adjacency: &[u8]) -> Result<u64, Refused> {
    check_state(journal, adjacency)?;
    if journal::phase(journal) == journal::LAID {
        return Err(refused(3));
    }
    let vertices = journal::summed_table(journal).check()?;
    journal[0] = journal::LAID;
    Ok(vertices)
}

/// Joins v and w. Returns the switches made, in the order made.
pub fn add_edge(
    journal: &[u8],
    adjacency: &mut [u8],
    log: &mut [u8],
    v: u64,
    w: u64,
) -> Result<Vec<Switch>, Refused> {
    check_laid_with_log(journal, adjacency, log)?;
    let wanted = journal::summed_table(journal);
    let degrees = wanted.degrees();
    let (v, w) = check_pair(v, w, degrees.len())?;
    if adjacency::joined(adjacency, v, w) {
        return Err(refused(15));
    }
    // No cell of degree 0 is ever short.
    let (k, l) = (degrees[v].min(degrees[w]), degrees[v].max(degrees[w]));
    if adjacency::counted_at(adjacency, &degrees).cell(k, l) >= wanted.matrix.cell(k, l) {
        return Err(refused_at(16, k as u64, l as u64));
    }
    let join = emptying(adjacency, log, |adjacency| {
        switching::join(adjacency, &degrees, v, w)
    });
    Ok(join.switches)
}

/// Removes the edge between v and w.
pub fn remove_edge(
    journal: &[u8],
    adjacency: &mut [u8],
    log: &mut [u8],
    v: u64,
    w: u64,
) -> Result<(), Refused> {
    check_laid_with_log(journal, adjacency, log)?;
    let vertices = journal::summed_table(journal).vertex_count() as usize;
    let (v, w) = check_pair(v, w, vertices)?;
    if !adjacency::joined(adjacency, v, w) {
        return Err(refused(17));
    }
    emptying(adjacency, log, |adjacency| {
        adjacency::remove(adjacency, v, w)
    });
    Ok(())
}

/// Swaps the edges a-b and c-d for a-d and b-c, and writes that into the log.
pub fn swap_edges(
    journal: &[u8],
    adjacency: &mut [u8],
    log: &mut [u8],
    named: [u64; 4],
) -> Result<(), Refused> {
    check_laid_with_log(journal, adjacency, log)?;
    let degrees = journal::summed_table(journal).degrees();
    let [a, b, c, d] = check_vertices(named, degrees.len())?;
    let swap = Swap::new(a, b, c, d);
    if !swapping::allowed(adjacency, &degrees, swap) {
        return Err(refused(23));
    }
    if log::count(log) == MAX_SWAPS {
        return Err(refused(24));
    }
    swapping::make(adjacency, swap);
    log::push(log, swap);
    Ok(())
}

/// Undoes the last swap of the log, and takes it out of there.
pub fn undo_swap(journal: &[u8], adjacency: &mut [u8], log: &mut [u8]) -> Result<(), Refused> {
    check_laid_with_log(journal, adjacency, log)?;
    let Some(last) = log::swaps(log).pop() else {
        return Err(refused(25));
    };
    swapping::make(adjacency, last.back());
    log::pop(log);
    Ok(())
}

/// Checks 1, 2, 3 and 18: the output needs room for a record of each missing edge, those wanted less
/// those laid. Returns the table.
fn check_room(
    journal: &[u8],
    adjacency: &[u8],
    log: &[u8],
    output: &[u8],
) -> Result<Table, Refused> {
    check_laid_with_log(journal, adjacency, log)?;
    let wanted = journal::summed_table(journal);
    let missing = wanted.matrix.edge_count() as usize - adjacency::edges(adjacency).len();
    if output.len() < join_record::LENGTH * missing {
        return Err(refused(18));
    }
    Ok(wanted)
}

/// Writes a record of each join, for which there is room.
fn write_records(joins: &[Join], output: &mut [u8]) -> Completion {
    let records: Vec<u8> = joins.iter().flat_map(join_record::of).collect();
    Completion {
        joins: joins.len() as u64,
        switches: joins.iter().map(|join| join.switches.len() as u64).sum(),
        written: write(&records, output).expect("no more joins than edges were missing"),
    }
}

/// Joins until no cell is short, and writes a record of each join.
pub fn complete(
    journal: &[u8],
    adjacency: &mut [u8],
    log: &mut [u8],
    output: &mut [u8],
) -> Result<Completion, Refused> {
    let wanted = check_room(journal, adjacency, log, output)?;
    let joins = emptying(adjacency, log, |adjacency| {
        switching::complete(adjacency, &wanted)
    });
    Ok(write_records(&joins, output))
}

/// The same with pairs chosen by numbers from x on. Returns the last number too.
pub fn complete_shuffled(
    journal: &[u8],
    adjacency: &mut [u8],
    log: &mut [u8],
    x: u32,
    output: &mut [u8],
) -> Result<(Completion, u32), Refused> {
    let wanted = check_room(journal, adjacency, log, output)?;
    let (joins, last) = emptying(adjacency, log, |adjacency| {
        shuffling::complete(adjacency, &wanted, x)
    });
    Ok((write_records(&joins, output), last))
}

/// Writes the edges, 2 bytes each. Returns the written length.
pub fn edge_list(journal: &[u8], adjacency: &[u8], output: &mut [u8]) -> Result<u64, Refused> {
    check_state(journal, adjacency)?;
    check_phase(journal)?;
    let mut bytes = Vec::new();
    for (v, w) in adjacency::edges(adjacency) {
        bytes.push(v as u8);
        bytes.push(w as u8);
    }
    write(&bytes, output)
}

/// Writes the degree table of a list of edges among `total` vertices as records. Returns the written
/// length.
pub fn jdm_of_edges(edges: &[u8], total: u64, output: &mut [u8]) -> Result<u64, Refused> {
    let pairs = check_edges(edges, total)?;
    let degree_of = |vertex: usize| {
        let at = |&&(v, w): &&(usize, usize)| v == vertex || w == vertex;
        pairs.iter().filter(at).count()
    };
    let degrees: Vec<usize> = (0..total as usize).map(degree_of).collect();
    if let Some(vertex) = degrees.iter().position(|&degree| degree > MAX_DEGREE) {
        return Err(refused_at(20, vertex as u64, 0));
    }
    let mut matrix = Matrix::new();
    for &(v, w) in &pairs {
        matrix.add_edge(degrees[v], degrees[w]);
    }
    let isolated = degrees.iter().filter(|&&degree| degree == 0).count();
    write(&Table::new(matrix, isolated as u64).records(), output)
}

/// Check 19: a total of at most 200, then a whole number of edges, each with v below w below the total
/// and above the edge before it.
fn check_edges(edges: &[u8], total: u64) -> Result<Vec<(usize, usize)>, Refused> {
    if total > MAX_VERTICES as u64 {
        return Err(refused(19));
    }
    if edges.len() % 2 != 0 {
        return Err(refused_at(19, edges.len() as u64 / 2, 0));
    }
    let pairs: Vec<(usize, usize)> = edges
        .chunks(2)
        .map(|pair| (pair[0] as usize, pair[1] as usize))
        .collect();
    for (index, &(v, w)) in pairs.iter().enumerate() {
        let not_above = index > 0 && (v, w) <= pairs[index - 1];
        if v >= w || w as u64 >= total || not_above {
            return Err(refused_at(19, index as u64, 0));
        }
    }
    Ok(pairs)
}

/// Writes a list of edges among `total` vertices as graph6, whatever their degrees. Returns the written
/// length.
pub fn graph6_write(edges: &[u8], total: u64, output: &mut [u8]) -> Result<u64, Refused> {
    let pairs = check_edges(edges, total)?;
    let mut graph = Graph::new(total as usize);
    for (v, w) in pairs {
        graph.join(v, w);
    }
    write(&graph6::text(&graph), output)
}

/// Reads a graph6 text and writes its edges, 2 bytes each. Returns the written length and the total of
/// vertices.
pub fn graph6_read(text: &[u8], output: &mut [u8]) -> Result<(u64, u64), Refused> {
    let graph = graph6::graph(text)?;
    let written = write(&graph.edge_list(), output)?;
    Ok((written, graph.vertices() as u64))
}

/// Phase, blocks, N, edges wanted and edges laid; the last three are 0 while blocks are taken.
pub fn figures(journal: &[u8], adjacency: &[u8]) -> Result<Figures, Refused> {
    check_state(journal, adjacency)?;
    let mut figures = Figures {
        phase: journal::phase(journal) as u64,
        blocks: journal::block_count(journal) as u64,
        vertices: 0,
        edges_wanted: 0,
        edges_laid: 0,
    };
    if journal::phase(journal) == journal::LAID {
        let wanted = journal::summed_table(journal);
        figures.vertices = wanted.vertex_count();
        figures.edges_wanted = wanted.matrix.edge_count();
        figures.edges_laid = adjacency::edges(adjacency).len() as u64;
    }
    Ok(figures)
}
