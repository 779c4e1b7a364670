//! Refusals: why a call did nothing.

use crate::raw::ReplicaAnswer;
use std::fmt;

/// Why a call was refused. The discriminants are document 01's numbers.
///
/// ```
/// use replica::Cause;
///
/// assert_eq!(Cause::OddDiagonal.number(), 9);
/// assert_eq!(Cause::from_number(9), Some(Cause::OddDiagonal));
/// assert_eq!(Cause::from_number(26), None);
/// assert_eq!(Cause::SameVertex.to_string(), "both ends are the same vertex");
/// ```
#[derive(Clone, Copy, Debug, PartialEq, Eq, PartialOrd, Ord, Hash)]
pub enum Cause {
    /// Journal, adjacency matrix or log of another length.
    WrongLength = 1,
    /// Journal and adjacency matrix are not a valid state, or the log is not a valid log of theirs.
    InvalidState = 2,
    /// Not in this phase.
    WrongPhase = 3,
    /// A block of over 64 bytes, or not a multiple of 4.
    BlockLength = 4,
    /// A record with a degree outside 1 to 40, or with the higher degree first. Of the pairs with a
    /// zero only 0, 0 is good: isolated vertices.
    BadRecord = 5,
    /// A block number too high, or not held.
    BlockNumber = 6,
    /// Another block is held under this number.
    BlockDiffers = 7,
    /// 64 blocks are held already.
    JournalFull = 8,
    /// A cell (k, k) is odd.
    OddDiagonal = 9,
    /// A row k is not divisible by k.
    RowNotDivisible = 10,
    /// A cell is larger than its vertices allow.
    CellTooLarge = 11,
    /// More than 200 vertices, the isolated ones included.
    TooManyVertices = 12,
    /// A vertex number that is not laid out.
    NoSuchVertex = 13,
    /// Both ends are the same vertex.
    SameVertex = 14,
    /// The two vertices are joined already.
    EdgePresent = 15,
    /// The cell of the two vertices has all its edges, or one of them is isolated.
    CellNotShort = 16,
    /// The two vertices are not joined.
    EdgeAbsent = 17,
    /// The output is too short.
    OutputTooShort = 18,
    /// A total over 200, an edge list of odd length, or an edge out of order or out of range.
    BadEdgeList = 19,
    /// A vertex of the edge list has a degree over 40.
    DegreeTooHigh = 20,
    /// A text that is not graph6: empty, a byte outside 63 to 126, another length than its number
    /// of vertices asks for, a bit behind the last pair that is not 0, or a size in its longer form
    /// without need.
    Graph6Text = 21,
    /// A graph6 text that begins with a size above 200.
    Graph6Size = 22,
    /// A swap of edges that are not there, of vertices that are not distinct or whose degrees
    /// differ, or for edges that are there already.
    SwapNotAllowed = 23,
    /// 1,024 swaps are in the log already.
    LogFull = 24,
    /// No swap is in the log.
    LogEmpty = 25,
}

impl Cause {
    /// All causes, in the order of their numbers.
    pub const ALL: [Cause; 25] = [
        Cause::WrongLength,
        Cause::InvalidState,
        Cause::WrongPhase,
        Cause::BlockLength,
        Cause::BadRecord,
        Cause::BlockNumber,
        Cause::BlockDiffers,
        Cause::JournalFull,
        Cause::OddDiagonal,
        Cause::RowNotDivisible,
        Cause::CellTooLarge,
        Cause::TooManyVertices,
        Cause::NoSuchVertex,
        Cause::SameVertex,
        Cause::EdgePresent,
        Cause::CellNotShort,
        Cause::EdgeAbsent,
        Cause::OutputTooShort,
        Cause::BadEdgeList,
        Cause::DegreeTooHigh,
        Cause::Graph6Text,
        Cause::Graph6Size,
        Cause::SwapNotAllowed,
        Cause::LogFull,
        Cause::LogEmpty,
    ];

    /// Document 01's number.
    pub fn number(self) -> u64 {
        self as u64
    }

    /// The cause with this number, if there is one.
    pub fn from_number(number: u64) -> Option<Cause> {
        Cause::ALL
            .into_iter()
            .find(|cause| cause.number() == number)
    }
}

impl fmt::Display for Cause {
    fn fmt(&self, f: &mut fmt::Formatter<'_>) -> fmt::Result {
        f.write_str(match self {
            Cause::WrongLength => "the journal, the adjacency matrix or the log has another length",
            Cause::InvalidState => "journal, adjacency matrix and log are not a valid state",
            Cause::WrongPhase => "the call does not fit the phase",
            Cause::BlockLength => "a block has at most 64 bytes, a multiple of 4",
            Cause::BadRecord => "a record needs degrees from 1 to 40, the lower first, or 0 and 0",
            Cause::BlockNumber => "no block with this number is held or can come next",
            Cause::BlockDiffers => "another block is held under this number",
            Cause::JournalFull => "the journal holds 64 blocks already",
            Cause::OddDiagonal => "a cell within one degree is odd",
            Cause::RowNotDivisible => "the sum of a row is not divisible by its degree",
            Cause::CellTooLarge => "a cell is larger than any simple graph allows",
            Cause::TooManyVertices => "the table needs more than 200 vertices",
            Cause::NoSuchVertex => "no vertex has this number",
            Cause::SameVertex => "both ends are the same vertex",
            Cause::EdgePresent => "the two vertices are joined already",
            Cause::CellNotShort => "the cell of the two vertices takes no more edges",
            Cause::EdgeAbsent => "the two vertices are not joined",
            Cause::OutputTooShort => "the output is too short",
            Cause::BadEdgeList => {
                "the total is over 200, or the edge list has an odd length or a bad edge"
            }
            Cause::DegreeTooHigh => "a vertex of the edge list has a degree over 40",
            Cause::Graph6Text => "the text is not well-formed graph6",
            Cause::Graph6Size => "the graph6 text has more than 200 vertices",
            Cause::SwapNotAllowed => "the two edges cannot be swapped",
            Cause::LogFull => "the log holds 1,024 swaps already",
            Cause::LogEmpty => "the log holds no swap to take back",
        })
    }
}

/// A refusal: its cause and two places, 0 where none is named, as for a total over 200. Which places
/// a cause names:
///
/// | cause | places |
/// |---|---|
/// | `BadRecord` | index of the first bad record, 0 |
/// | `OddDiagonal` | the degree, twice |
/// | `RowNotDivisible` | the degree, 0 |
/// | `CellTooLarge`, `CellNotShort` | the two degrees, lower first; 0 for an isolated vertex |
/// | `BadEdgeList` | index of the first bad edge, or the number of whole edges for an odd length, 0 |
/// | `DegreeTooHigh` | lowest such vertex, 0 |
///
/// ```
/// use replica::{Cause, State};
///
/// let mut state = State::new();
/// state.take_block(0, &[2, 2, 4, 0]).unwrap();
/// let refusal = state.lay_out().unwrap_err();
/// assert_eq!(refusal.cause, Cause::CellTooLarge);
/// assert_eq!(refusal.places, (2, 2));
/// assert_eq!(
///     refusal.to_string(),
///     "a cell is larger than any simple graph allows: cell (2, 2) (refusal 11)"
/// );
/// ```
#[derive(Clone, Copy, Debug, PartialEq, Eq)]
pub struct Refusal {
    pub cause: Cause,
    pub places: (u64, u64),
}

impl Refusal {
    /// The refusal in an answer, or the answer itself when the call did its work.
    pub(crate) fn unless_done(answer: ReplicaAnswer) -> Result<ReplicaAnswer, Refusal> {
        Refusal::unless_zero(answer.number, answer.first, answer.second)?;
        Ok(answer)
    }

    /// The refusal with this number and these places; 0 is none.
    pub(crate) fn unless_zero(number: u64, first: u64, second: u64) -> Result<(), Refusal> {
        if number == 0 {
            return Ok(());
        }
        let cause = Cause::from_number(number)
            .unwrap_or_else(|| panic!("the library has no refusal number {number}"));
        Err(Refusal {
            cause,
            places: (first, second),
        })
    }

    /// What the places point at, for the causes that name one.
    fn place(&self) -> Option<String> {
        let (first, second) = self.places;
        match self.cause {
            Cause::BadRecord => Some(format!("record {first}")),
            Cause::OddDiagonal | Cause::CellTooLarge | Cause::CellNotShort => {
                Some(format!("cell ({first}, {second})"))
            }
            Cause::RowNotDivisible => Some(format!("row {first}")),
            Cause::BadEdgeList => Some(format!("edge {first}")),
            Cause::DegreeTooHigh => Some(format!("vertex {first}")),
            _ => None,
        }
    }
}

impl fmt::Display for Refusal {
    fn fmt(&self, f: &mut fmt::Formatter<'_>) -> fmt::Result {
        write!(f, "{}", self.cause)?;
        if let Some(place) = self.place() {
            write!(f, ": {place}")?;
        }
        write!(f, " (refusal {})", self.cause.number())
    }
}

impl std::error::Error for Refusal {}
