//! The journal (document 01: the book): phase, block count, and the blocks in their slots.

use crate::{refused, refused_at, Refused, Table, MAX_BLOCK_BYTES, MAX_BLOCKS, MAX_DEGREE};

/// Bytes of a record: k, l, and a 16-bit count, low byte first.
pub const RECORD_BYTES: usize = 4;
/// Bytes of a slot: one length byte and the block's bytes.
pub const SLOT_BYTES: usize = 1 + MAX_BLOCK_BYTES;

/// Phase 0: blocks are being taken.
pub const TAKING: u8 = 0;
/// Phase 1: the vertices are laid out.
pub const LAID: u8 = 1;

/// One record. The count must fit in 16 bits.
pub fn record(k: usize, l: usize, count: u64) -> [u8; RECORD_BYTES] {
    assert!(count <= 65_535);
    [k as u8, l as u8, (count % 256) as u8, (count / 256) as u8]
}

/// Checks 4 and 5: whether these bytes are a block at all. No bytes are one too (document 02, P4: a
/// collector with nothing to report).
pub fn check_block(block: &[u8]) -> Result<(), Refused> {
    if block.len() > MAX_BLOCK_BYTES || block.len() % RECORD_BYTES != 0 {
        return Err(refused(4));
    }
    for (index, record) in block.chunks(RECORD_BYTES).enumerate() {
        let (k, l) = (record[0] as usize, record[1] as usize);
        if !is_isolated(k, l) && !is_cell(k, l) {
            return Err(refused_at(5, index as u64, 0));
        }
    }
    Ok(())
}

/// A record 0, 0, count adds isolated vertices.
fn is_isolated(k: usize, l: usize) -> bool {
    k == 0 && l == 0
}

/// Any other record adds to a cell: its degrees are 1 to 40, the lower first.
fn is_cell(k: usize, l: usize) -> bool {
    1 <= k && k <= l && l <= MAX_DEGREE
}

/// Adds the records of a well-formed block to a table.
pub fn add_block(table: &mut Table, block: &[u8]) {
    for record in block.chunks(RECORD_BYTES) {
        let (k, l) = (record[0] as usize, record[1] as usize);
        let count = record[2] as u64 + 256 * record[3] as u64;
        if is_isolated(k, l) {
            table.isolated += count;
        } else {
            table.matrix.add(k, l, count);
        }
    }
}

pub fn phase(journal: &[u8]) -> u8 {
    journal[0]
}

/// The number of blocks in the journal.
pub fn block_count(journal: &[u8]) -> usize {
    journal[1] as usize
}

/// Where slot i starts.
pub fn slot_start(i: usize) -> usize {
    2 + SLOT_BYTES * i
}

/// All 65 bytes of slot i.
pub fn slot(journal: &[u8], i: usize) -> &[u8] {
    &journal[slot_start(i)..slot_start(i) + SLOT_BYTES]
}

/// The bytes of block i of a valid journal.
pub fn block(journal: &[u8], i: usize) -> &[u8] {
    let slot = slot(journal, i);
    let length = slot[0] as usize;
    &slot[1..1 + length]
}

/// The sum of all blocks of a valid journal.
pub fn summed_table(journal: &[u8]) -> Table {
    let mut table = Table::default();
    for i in 0..block_count(journal) {
        add_block(&mut table, block(journal, i));
    }
    table
}

/// Whether a journal of the right length is as document 01 describes it, whatever its table. A used
/// slot may be all zero, as an unused one is: only the count of blocks tells them apart.
pub fn well_formed(journal: &[u8]) -> bool {
    if phase(journal) != TAKING && phase(journal) != LAID {
        return false;
    }
    if block_count(journal) > MAX_BLOCKS {
        return false;
    }
    (0..MAX_BLOCKS).all(|i| {
        if i < block_count(journal) {
            used_slot_well_formed(slot(journal, i))
        } else {
            slot(journal, i).iter().all(|&byte| byte == 0)
        }
    })
}

fn used_slot_well_formed(slot: &[u8]) -> bool {
    let length = slot[0] as usize;
    if length > MAX_BLOCK_BYTES {
        return false;
    }
    let (block, rest) = slot[1..].split_at(length);
    check_block(block).is_ok() && rest.iter().all(|&byte| byte == 0)
}
