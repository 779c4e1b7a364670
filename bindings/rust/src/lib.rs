//! Safe Rust over the proved replica library.
//!
//! The library builds a simple graph with a given joint degree matrix: cell (k, l) says how many
//! edges join vertices of degree k to vertices of degree l, and cell (k, k) counts each of its
//! edges twice. Vertices without any edge are in no cell; records of their own tell how many there
//! are ([`Record::isolated`]). The matrix arrives in numbered blocks of records; the same block sent
//! again is recognised and not added twice.
//!
//! A [`State`] owns the three buffers the library works on. Its methods do their work or return one
//! numbered [`Refusal`] and then leave every byte as it was.
//!
//! ```
//! use replica::{Record, State, Take};
//!
//! # fn main() -> Result<(), replica::Refusal> {
//! // One edge between degrees 1 and 3, one within degree 2 (counted twice), two between 2 and 3.
//! let block = replica::block(&[Record::new(1, 3, 1), Record::new(2, 2, 2), Record::new(2, 3, 2)]);
//!
//! let mut state = State::new();
//! assert_eq!(state.take_block(0, &block)?, Take::Taken(1));
//! assert_eq!(state.take_block(0, &block)?, Take::Held); // sent again: nothing is added
//! assert_eq!(state.lay_out()?, 4);
//!
//! state.add_edge(0, 3)?; // by hand
//! let done = state.complete()?; // the rest by the library
//! assert_eq!(done.joins, 3);
//!
//! let edges: Vec<(u8, u8)> = state.edges()?.collect();
//! assert_eq!(edges, [(0, 3), (1, 2), (1, 3), (2, 3)]);
//! # Ok(())
//! # }
//! ```
//!
//! Joining two vertices that have all their edges moves others: a [`Switch`] says which. Adding an
//! edge hands its switches back, and completing gives a record of each join, so that a copy of the
//! graph can follow by playing them ([`Completion`]).
//!
//! Where one graph of the table is not enough, [`State::complete_shuffled`] gives others, each of
//! which its number gives again. [`State::swap_edges`] rewires two edges, every cell and degree as
//! it was, and [`State::undo_swap`] takes the last swap back.
//!
//! Whoever has a graph of the table already, a drawing, brings a laid state to it: [`State::draw`].
//!
//! Single graphs go out and come in as McKay's graph6 ([`State::graph6`], [`graph6_write`],
//! [`graph6_read`]).
//!
//! [`raw`] has the same entries over slices of any length, answering with the plain numbers of the
//! C interface.

mod completion;
mod drawing;
mod graph6;
mod iterators;
mod joins;
pub mod raw;
mod refusal;
mod state;
mod swaps;

pub use completion::Completion;
pub use drawing::{Drawn, NotDrawn};
pub use graph6::{graph6_read, graph6_write};
pub use iterators::{block, Cell, Cells, Edges, Record, Records};
pub use joins::{Join, Joins, Switch, Switches};
pub use refusal::{Cause, Refusal};
pub use state::{jdm_of_edges, Figures, Phase, State, Take};
pub use swaps::{Swap, Swaps};

/// Bytes of a journal.
pub const JOURNAL_BYTES: usize = 4162;
/// Bytes of an adjacency matrix.
pub const ADJACENCY_BYTES: usize = 40_000;
/// Bytes of a log: the count, and a record for each swap.
pub const LOG_BYTES: usize = 2 + SWAP_RECORD_BYTES * MAX_SWAPS;
/// Most swaps in a log.
pub const MAX_SWAPS: usize = 1024;
/// Bytes of a swap's record in a log.
pub const SWAP_RECORD_BYTES: usize = 4;
/// Most bytes in a block.
pub const MAX_BLOCK_BYTES: usize = 64;
/// Most blocks in a journal.
pub const MAX_BLOCKS: usize = 64;
/// Bytes of a record.
pub const RECORD_BYTES: usize = 4;
/// Bytes of a join record, which completing writes for each edge it adds.
pub const JOIN_RECORD_BYTES: usize = 8;
/// In the bytes and numbers of a switch that was not needed. No vertex has this number.
pub const UNUSED: u8 = 255;
/// Highest degree.
pub const MAX_DEGREE: usize = 40;
/// Most vertices in a state.
pub const MAX_VERTICES: usize = 200;
/// Most edges in a state: 200 vertices of degree 40.
pub const MAX_EDGES: usize = MAX_VERTICES * MAX_DEGREE / 2;
/// Most pairs of vertices, and so most edges of a graph6 text: those of 200 vertices.
pub const MAX_PAIRS: usize = MAX_VERTICES * (MAX_VERTICES - 1) / 2;
/// Most bytes of a graph6 text: the size in its longer form, and six pairs a byte.
pub const MAX_GRAPH6_BYTES: usize = 4 + MAX_PAIRS.div_ceil(6);
/// Most cells with k at most l.
pub const MAX_CELLS: usize = MAX_DEGREE * (MAX_DEGREE + 1) / 2;
/// Most records that [`jdm_of_edges`] writes: the isolated vertices, and all cells.
pub const MAX_RECORDS: usize = 1 + MAX_CELLS;
