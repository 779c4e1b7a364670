//! Tables cut into blocks, whole and spoiled.

use reference::graphs::{self, Graph};
use reference::journal::record;
use reference::random::Random;
use reference::{Table, MAX_BLOCK_BYTES, MAX_BLOCKS, MAX_DEGREE, MAX_VERTICES};

/// The records of a table cut into blocks, now and then with empty ones among them, all of which a
/// journal has room for.
pub fn cut(table: &Table, random: &mut Random) -> Vec<Vec<u8>> {
    let blocks = blocks_of(table, random);
    with_empty(blocks, random)
}

/// The same blocks, and now and then empty ones at any place, the first and the last among them:
/// three at most, or as many as there is room for in a journal.
fn with_empty(mut blocks: Vec<Vec<u8>>, random: &mut Random) -> Vec<Vec<u8>> {
    let room = MAX_BLOCKS.saturating_sub(blocks.len());
    let more = match random.below(60) {
        0 => room,
        1..=15 => random.between(1, 3).min(room),
        _ => 0,
    };
    for _ in 0..more {
        let place = random.below(blocks.len() + 1);
        blocks.insert(place, Vec::new());
    }
    blocks
}

/// The records of a table cut into blocks: some counts split over several records, some records
/// of count 0 among them, all in random order.
fn blocks_of(table: &Table, random: &mut Random) -> Vec<Vec<u8>> {
    let mut counts = table.matrix.nonzero_cells();
    if table.isolated > 0 {
        counts.push((0, 0, table.isolated));
    }
    // A journal has room for 1,024 records; a table has at most 820 cells.
    let mut spare = 1024 - counts.len();
    let mut records = Vec::new();
    for (k, l, count) in counts {
        let mut left = count;
        while spare > 0 && left > 1 && (left > 65_535 || random.chance(20)) {
            let part = match left {
                65_536.. => 65_535,
                _ => 1 + random.below(left as usize - 1) as u64,
            };
            records.push(record(k, l, part));
            left -= part;
            spare -= 1;
        }
        records.push(record(k, l, left));
    }
    while spare > 0 && random.chance(20) {
        let (k, l) = any_pair(MAX_DEGREE, random);
        records.push(record(k, l, 0));
        spare -= 1;
    }
    random.shuffle(&mut records);
    let each = random
        .between(1, 16)
        .max(records.len().div_ceil(MAX_BLOCKS));
    records.chunks(each).map(|block| block.concat()).collect()
}

/// Two degrees up to `most`, the lower first.
fn degrees(most: usize, random: &mut Random) -> (usize, usize) {
    let (k, l) = (random.between(1, most), random.between(1, most));
    (k.min(l), k.max(l))
}

/// The two degrees of a well-formed record, now and then those of isolated vertices.
fn any_pair(most: usize, random: &mut Random) -> (usize, usize) {
    if random.chance(15) {
        return (0, 0);
    }
    degrees(most, random)
}

/// A well-formed block of records with degrees and counts up to the given ones, now and then empty.
pub fn any_block(most_degree: usize, most_count: usize, random: &mut Random) -> Vec<u8> {
    let mut block = Vec::new();
    if random.chance(15) {
        return block;
    }
    for _ in 0..random.between(1, 16) {
        let (k, l) = any_pair(most_degree, random);
        block.extend(record(k, l, random.below(most_count + 1) as u64));
    }
    block
}

/// A block with one thing changed. It may be malformed, or well-formed but another one.
pub fn spoil(block: &[u8], random: &mut Random) -> Vec<u8> {
    let mut spoiled = block.to_vec();
    let records = block.len() / 4;
    if records == 0 {
        return instead_of_none(random);
    }
    let start = 4 * random.below(records);
    match random.below(11) {
        // Another well-formed block.
        0 => spoiled.clear(),
        1 => spoiled.truncate(block.len() - random.between(1, 4)),
        2 => spoiled.push(0),
        3 => spoiled.extend(record(1, 2, 1)),
        4 => {
            let more = 4 * random.between(1, 4);
            spoiled = random.bytes(MAX_BLOCK_BYTES + more);
        }
        5 => spoiled[start] = *random.pick(&[0, 41, 255]),
        6 => spoiled[start + 1] = *random.pick(&[0, 41, 255]),
        7 => spoiled.swap(start, start + 1),
        8 => spoiled[start + 2] ^= 1 << random.below(8),
        // Another well-formed block, where it was a cell.
        9 => spoiled[start..start + 2].fill(0),
        _ => {
            let place = random.below(spoiled.len());
            spoiled[place] = random.byte();
        }
    }
    spoiled
}

/// What comes in place of no record: one, or bytes that are none. A record of nothing leaves only the
/// length to tell it from an empty block.
fn instead_of_none(random: &mut Random) -> Vec<u8> {
    match random.below(3) {
        0 => record(1, 2, 1).to_vec(),
        1 => record(0, 0, 0).to_vec(),
        _ => random.bytes(3),
    }
}

/// How large the tables of a call list may be.
#[derive(Clone, Copy, Debug)]
pub enum Size {
    Small,
    Medium,
    Large,
}

impl Size {
    pub fn most_vertices(self) -> usize {
        match self {
            Size::Small => 9,
            Size::Medium => 50,
            Size::Large => 200,
        }
    }
}

/// The blocks a call list sends: of a table with a graph, of one nearly so, or of any table, and
/// empty ones at any place.
pub fn plan(size: Size, random: &mut Random) -> Vec<Vec<u8>> {
    let graph = graphs::any(size.most_vertices(), random);
    let blocks = match random.below(16) {
        0 | 5 => nearly(&graph, random),
        1 => (0..random.between(1, 3))
            .map(|_| any_block(4, 6, random))
            .collect(),
        2 => many_vertices(&graph, random),
        3 => full_journal(random),
        4 => (0..random.between(1, 20))
            .map(|_| any_block(MAX_DEGREE, 65_535, random))
            .collect(),
        6 => only_isolated(random),
        7 => only_empty(random),
        _ => blocks_of(&graph.table(), random),
    };
    with_empty(blocks, random)
}

/// A table with a graph, and one record more: it may have none any more.
fn nearly(graph: &Graph, random: &mut Random) -> Vec<Vec<u8>> {
    let mut blocks = blocks_of(&graph.table(), random);
    blocks.truncate(MAX_BLOCKS - 1);
    let used = graph.degrees().into_iter().max().unwrap_or(0);
    let (k, l) = degrees((used + 1).min(MAX_DEGREE), random);
    let count = if random.chance(50) {
        random.between(1, 2 * k)
    } else {
        // Rows stay divisible and diagonals even, so that only the size of a cell can be wrong.
        even_multiple(k, l) * random.between(1, 3)
    };
    blocks.push(record(k, l, count as u64).to_vec());
    blocks
}

/// The least count that two rows can share: divisible by both degrees, and even on the diagonal.
fn even_multiple(k: usize, l: usize) -> usize {
    let fits = |count: &usize| count % k == 0 && count % l == 0 && (k != l || count % 2 == 0);
    (1..=2 * k * l).find(fits).expect("2kl fits")
}

/// A table with a graph, and as many vertices more, by single edges or isolated, as bring their
/// number near its bound.
fn many_vertices(graph: &Graph, random: &mut Random) -> Vec<Vec<u8>> {
    let mut blocks = blocks_of(&graph.table(), random);
    blocks.truncate(MAX_BLOCKS - 1);
    let room = MAX_VERTICES - graph.vertices();
    let count = (room + random.below(5)).saturating_sub(2);
    let degree = random.below(2);
    blocks.push(record(degree, degree, count as u64).to_vec());
    blocks
}

/// Isolated vertices and nothing else: a few, about 200, or far more.
fn only_isolated(random: &mut Random) -> Vec<Vec<u8>> {
    let around = MAX_VERTICES as u64;
    let count = match random.below(5) {
        0 => random.below(10) as u64,
        1 => around + random.below(5) as u64 - 2,
        2 => 65_536 + random.below(2 * MAX_VERTICES) as u64,
        3 => random.below(67_000_000) as u64,
        _ => *random.pick(&[around - 1, around, around + 1]),
    };
    blocks_of(&Table::of(&[], count), random)
}

/// Empty blocks and nothing else: a few, or as many as a journal holds and one more.
fn only_empty(random: &mut Random) -> Vec<Vec<u8>> {
    let count = match random.below(3) {
        0 => MAX_BLOCKS + 1,
        _ => random.between(1, 5),
    };
    vec![Vec::new(); count]
}

/// As many blocks as a journal holds and one more, nearly all of them adding nothing.
fn full_journal(random: &mut Random) -> Vec<Vec<u8>> {
    let mut blocks: Vec<Vec<u8>> = (0..MAX_BLOCKS + 1)
        .map(|_| any_block(MAX_DEGREE, 0, random))
        .collect();
    let place = random.below(MAX_BLOCKS);
    blocks[place] = record(2, 2, 6).to_vec();
    blocks
}
