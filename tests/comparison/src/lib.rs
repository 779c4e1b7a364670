//! Tests of the proved library from outside: the same calls go to the library and to the reference,
//! and every answer number and every lent byte must be the same afterwards.
//!
//! * [`call`]: one call of an entry, with all it is given
//! * [`lent`]: slices lent between guard bytes
//! * [`both`]: makes a call on both sides and compares
//! * [`moves`]: what joins and completions say has moved, played
//! * [`swaps`]: swaps and takings-back replayed, what becomes of a log, swaps that are allowed
//! * [`texts`]: what goes out as graph6 comes in again, and the other way round
//! * [`count`]: how many calls, tables and refusals were tried
//! * `named`: counts with names
//! * [`blocks`]: tables cut into blocks, whole and spoiled
//! * [`edge_lists`]: edge lists with high degrees, and spoiled ones
//! * [`lists`]: long random call lists
//! * [`tables`]: tables laid out and completed, checked by a count of their own
//! * [`joins`]: which pairs can be joined, over small states
//! * [`reach`]: laid states brought to given graphs, edge by edge
//! * [`steps`]: the same in every order, over small states
//! * [`exchange`]: graphs of any density as graph6, whole and spoiled
//! * [`program`]: the program as a child process
//! * [`jobs`]: independent pieces of work, run on all cores

#[macro_use]
mod named;

pub mod blocks;
pub mod both;
pub mod call;
pub mod count;
pub mod edge_lists;
pub mod exchange;
pub mod jobs;
pub mod joins;
pub mod lent;
pub mod lists;
pub mod moves;
pub mod program;
pub mod reach;
pub mod steps;
pub mod swaps;
pub mod tables;
pub mod texts;
