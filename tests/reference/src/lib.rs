//! A second implementation of document 01 and of document 02's P1, P2, P4, P5, P7 and P8, written
//! from the documents alone.
//!
//! It is meant to be read and believed, not to be fast: every call recounts everything from the
//! bytes it is lent. It shares nothing with the library it is compared with.
//!
//! * [`matrix`]: the joint degree matrix and tests 9 to 11
//! * [`table`]: the matrix and the isolated vertices beside it, N, test 12, the numbering
//! * [`journal`]: blocks, records and slots
//! * [`adjacency`]: the adjacency matrix and its counts
//! * [`log`]: the log of swaps
//! * [`validity`]: when journal and adjacency together are a valid state, and when the log lent
//!   with them is valid
//! * [`switching`]: the neighbour switch, adding one edge, completing
//! * [`shuffling`]: completing by pairs that a number chooses
//! * [`swapping`]: the swap, and undoing all of a log
//! * [`join_record`]: the record that completing writes of a join
//! * [`player`]: plays such records, and those of a log, onto an adjacency matrix, knowing nothing
//!   of switching
//! * [`graph6`]: graphs as McKay's graph6, and back
//! * [`entries`]: the fifteen entries, in document 01's order of checks
//! * [`numbers`]: the same fifteen entries, answering with the numbers of the C interface
//! * [`program`]: what the program prints for an input
//! * [`search`]: a second builder, by exhaustive search instead of switching; all graphs of a small
//!   table
//! * [`graphs`], [`random`]: graphs whose matrix is known, and reproducible random numbers

pub mod adjacency;
pub mod entries;
pub mod graph6;
pub mod graphs;
pub mod join_record;
pub mod journal;
pub mod log;
pub mod matrix;
pub mod numbers;
pub mod player;
pub mod program;
pub mod random;
pub mod search;
pub mod shuffling;
pub mod swapping;
pub mod switching;
pub mod table;
pub mod validity;

pub use entries::*;
pub use matrix::Matrix;
pub use swapping::Swap;
pub use switching::Switch;
pub use table::Table;

/// Bytes of a journal: phase, block count, and 64 slots of one length byte and 64 bytes.
pub const JOURNAL_BYTES: usize = 4162;
/// Bytes of an adjacency matrix: 200 rows of 200 bytes.
pub const ADJACENCY_BYTES: usize = 40_000;
/// Bytes of a log: the count, and 1,024 records of 4 bytes.
pub const LOG_BYTES: usize = 4098;
/// Most swaps in a log.
pub const MAX_SWAPS: usize = 1_024;
/// Most blocks in a journal.
pub const MAX_BLOCKS: usize = 64;
/// Most bytes in a block.
pub const MAX_BLOCK_BYTES: usize = 64;
/// Most vertices in a state, and the width of an adjacency row.
pub const MAX_VERTICES: usize = 200;
/// Highest degree.
pub const MAX_DEGREE: usize = 40;
/// Most edges in a state: 200 vertices of degree 40.
pub const MAX_EDGES: usize = MAX_VERTICES * MAX_DEGREE / 2;

/// A refusal: its number in document 01 and its two places, 0 where none is named.
#[derive(Clone, Copy, Debug, PartialEq, Eq)]
pub struct Refused {
    pub number: u64,
    pub first: u64,
    pub second: u64,
}

/// A refusal that names no place.
pub fn refused(number: u64) -> Refused {
    refused_at(number, 0, 0)
}

/// A refusal that names one or two places.
pub fn refused_at(number: u64, first: u64, second: u64) -> Refused {
    Refused {
        number,
        first,
        second,
    }
}
