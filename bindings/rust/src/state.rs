//! A state that owns its three buffers.

use crate::raw::{self, ReplicaAnswer};
use crate::{
    Cause, Cells, Edges, Records, Refusal, Switches, ADJACENCY_BYTES, JOURNAL_BYTES, LOG_BYTES,
    MAX_EDGES, MAX_VERTICES,
};
use std::fmt;

/// What [`State::take_block`] answers when it is not refused.
#[derive(Clone, Copy, Debug, PartialEq, Eq)]
pub enum Take {
    /// The block is new and is in the journal now; the number of the next block.
    Taken(u64),
    /// The same block was taken before; nothing changed.
    Held,
}

/// The two phases of a state.
#[derive(Clone, Copy, Debug, PartialEq, Eq)]
pub enum Phase {
    /// Blocks are taken.
    Taking,
    /// The vertices are laid out.
    Laid,
}

/// What [`State::figures`] reports. The last three are 0 while blocks are taken.
#[derive(Clone, Copy, Debug, PartialEq, Eq)]
pub struct Figures {
    pub phase: Phase,
    pub blocks: u64,
    pub vertices: u64,
    pub edges_wanted: u64,
    pub edges_laid: u64,
}

/// A journal, an adjacency matrix and a log of swaps. States are equal when all their bytes are:
/// the same blocks, the same edges, and the same swaps to take back.
///
/// It starts in the phase of taking blocks. [`lay_out`](State::lay_out) fixes the vertices; then
/// edges can be added and removed by hand, and [`complete`](State::complete) or
/// [`complete_shuffled`](State::complete_shuffled) adds what is missing. Edges that are there can
/// be swapped, and swaps taken back: [`swap_edges`](State::swap_edges),
/// [`undo_swap`](State::undo_swap). A refused call changes nothing.
///
/// ```
/// use replica::{Cause, State, Switch, Take};
///
/// let mut state = State::new();
/// assert_eq!(state.take_block(0, &[2, 2, 8, 0]), Ok(Take::Taken(1))); // four vertices in a ring
/// assert_eq!(state.add_edge(0, 1).unwrap_err().cause, Cause::WrongPhase);
/// assert_eq!(state.lay_out(), Ok(4));
///
/// // A triangle by hand leaves vertex 3 alone; joining 0 and 3 moves one edge away from 0.
/// for (v, w) in [(0, 1), (0, 2), (1, 2)] {
///     assert!(state.add_edge(v, w).unwrap().is_empty());
/// }
/// let switches = state.add_edge(0, 3).unwrap();
/// assert_eq!(*switches, [Switch { a: 0, b: 3, t: 1 }]); // 0-1 became 3-1
/// let edges: Vec<_> = state.edges().unwrap().collect();
/// assert_eq!(edges, [(0, 2), (0, 3), (1, 2), (1, 3)]);
/// ```
#[derive(Clone, PartialEq, Eq)]
pub struct State {
    pub(crate) journal: Vec<u8>,
    pub(crate) adjacency: Vec<u8>,
    pub(crate) log: Vec<u8>,
}

impl Default for State {
    fn default() -> State {
        State::new()
    }
}

impl fmt::Debug for State {
    fn fmt(&self, f: &mut fmt::Formatter<'_>) -> fmt::Result {
        f.debug_struct("State")
            .field("figures", &self.figures())
            .field("swaps", &self.swaps().len())
            .finish_non_exhaustive()
    }
}

impl State {
    /// A cleared state.
    pub fn new() -> State {
        State {
            journal: vec![0; JOURNAL_BYTES],
            adjacency: vec![0; ADJACENCY_BYTES],
            log: vec![0; LOG_BYTES],
        }
    }

    /// A state from bytes kept earlier, those of its log too. Refused when they are not a valid
    /// state; a log is valid if all its swaps can be taken back from that matrix.
    ///
    /// ```
    /// use replica::{Cause, State};
    ///
    /// let mut state = State::new();
    /// state.take_block(0, &[1, 1, 2, 0]).unwrap();
    /// let again = State::from_bytes(state.journal(), state.adjacency(), state.log()).unwrap();
    /// assert_eq!(again, state);
    ///
    /// let refusal = State::from_bytes(&[], state.adjacency(), state.log()).unwrap_err();
    /// assert_eq!(refusal.cause, Cause::WrongLength);
    ///
    /// let mut log = state.log().to_vec();
    /// log[0] = 1; // a swap of edges that are not there
    /// let refusal = State::from_bytes(state.journal(), state.adjacency(), &log).unwrap_err();
    /// assert_eq!(refusal.cause, Cause::InvalidState);
    /// ```
    pub fn from_bytes(journal: &[u8], adjacency: &[u8], log: &[u8]) -> Result<State, Refusal> {
        let mut state = State {
            journal: journal.to_vec(),
            adjacency: adjacency.to_vec(),
            log: log.to_vec(),
        };
        // Without room for a record completing changes nothing, and it looks at all three.
        match state.complete_into(&mut []) {
            Err(refusal) if refusal.cause <= Cause::InvalidState => Err(refusal),
            _ => Ok(state),
        }
    }

    /// The bytes of the journal.
    pub fn journal(&self) -> &[u8] {
        &self.journal
    }

    /// The bytes of the adjacency matrix, 200 rows of 200.
    pub fn adjacency(&self) -> &[u8] {
        &self.adjacency
    }

    /// The bytes of the log: the count of its swaps, low byte first, a record of 4 bytes for each,
    /// and zeros behind them. [`swaps`](State::swaps) reads them.
    pub fn log(&self) -> &[u8] {
        &self.log
    }

    /// Back to no blocks, no edges and no swaps.
    ///
    /// ```
    /// # use replica::State;
    /// let mut state = State::new();
    /// state.take_block(0, &[1, 1, 2, 0]).unwrap();
    /// state.clear().unwrap();
    /// assert_eq!(state, State::new());
    /// ```
    pub fn clear(&mut self) -> Result<(), Refusal> {
        let (journal, adjacency) = (&mut self.journal, &mut self.adjacency);
        Refusal::unless_done(raw::clear(journal, adjacency, &mut self.log))?;
        Ok(())
    }

    /// Takes a block of up to 16 records, of cells or of isolated vertices. Its number must be that of
    /// the next block, or that of a held block with the same bytes. One without records is a block
    /// too, from whoever has nothing to report: it takes a number and adds nothing.
    ///
    /// ```
    /// # use replica::{Cause, State, Take};
    /// let mut state = State::new();
    /// assert_eq!(state.take_block(0, &[1, 1, 2, 0]), Ok(Take::Taken(1)));
    /// assert_eq!(state.take_block(0, &[1, 1, 2, 0]), Ok(Take::Held));
    /// let refusal = state.take_block(0, &[1, 1, 4, 0]).unwrap_err();
    /// assert_eq!(refusal.cause, Cause::BlockDiffers);
    /// let refusal = state.take_block(1, &[1, 1, 2, 0, 3, 2, 1, 0]).unwrap_err();
    /// assert_eq!((refusal.cause, refusal.places), (Cause::BadRecord, (1, 0)));
    /// assert_eq!(state.take_block(1, &[]), Ok(Take::Taken(2))); // nothing to report
    /// assert_eq!(state.take_block(1, &[]), Ok(Take::Held));
    /// ```
    pub fn take_block(&mut self, number: u64, block: &[u8]) -> Result<Take, Refusal> {
        let answer = raw::take_block(&mut self.journal, &self.adjacency, number, block);
        let answer = Refusal::unless_done(answer)?;
        Ok(match answer.first {
            0 => Take::Taken(answer.second),
            _ => Take::Held,
        })
    }

    /// The bytes of a held block, lying in the journal; a block without records has none.
    ///
    /// ```
    /// # use replica::{Cause, State};
    /// let mut state = State::new();
    /// state.take_block(0, &[1, 1, 2, 0]).unwrap();
    /// state.take_block(1, &[]).unwrap();
    /// assert_eq!(state.held_block(0), Ok(&[1, 1, 2, 0][..]));
    /// assert_eq!(state.held_block(1), Ok(&[][..]));
    /// assert_eq!(state.held_block(2).unwrap_err().cause, Cause::BlockNumber);
    /// ```
    pub fn held_block(&self, number: u64) -> Result<&[u8], Refusal> {
        let answer = raw::held_block(&self.journal, &self.adjacency, number);
        let answer = Refusal::unless_done(answer)?;
        let (offset, length) = (answer.first as usize, answer.second as usize);
        Ok(&self.journal[offset..offset + length])
    }

    /// The records of a held block.
    ///
    /// ```
    /// # use replica::{Record, State};
    /// let mut state = State::new();
    /// state.take_block(0, &[1, 1, 2, 0]).unwrap();
    /// let records: Vec<Record> = state.records(0).unwrap().collect();
    /// assert_eq!(records, [Record::new(1, 1, 2)]);
    /// ```
    pub fn records(&self, number: u64) -> Result<Records<'_>, Refusal> {
        Ok(Records::new(self.held_block(number)?))
    }

    /// The non-zero cells of the sum of all held blocks, and its isolated vertices.
    ///
    /// ```
    /// # use replica::{Cell, State};
    /// let mut state = State::new();
    /// state.take_block(0, &[2, 2, 3, 0, 0, 0, 1, 0]).unwrap();
    /// state.take_block(1, &[2, 2, 5, 0, 0, 0, 1, 0]).unwrap();
    /// let cells = state.cells().unwrap();
    /// assert_eq!(cells.isolated(), 2);
    /// assert_eq!(cells.collect::<Vec<Cell>>(), [Cell { k: 2, l: 2, count: 8 }]);
    /// ```
    pub fn cells(&self) -> Result<Cells, Refusal> {
        let mut records = Vec::new();
        for number in 0..self.figures()?.blocks {
            records.extend(self.records(number)?);
        }
        Ok(Cells::of(records))
    }

    /// Lays out the vertices, numbered by rising degree, the isolated ones first, and ends the taking
    /// of blocks. Returns the number of vertices.
    ///
    /// ```
    /// # use replica::{Cause, State};
    /// let mut state = State::new();
    /// state.take_block(0, &[2, 2, 3, 0]).unwrap();
    /// let refusal = state.lay_out().unwrap_err();
    /// assert_eq!((refusal.cause, refusal.places), (Cause::OddDiagonal, (2, 2)));
    /// state.take_block(1, &[2, 2, 3, 0]).unwrap(); // a triangle now
    /// state.take_block(2, &[0, 0, 2, 0]).unwrap(); // and two isolated vertices: 0 and 1
    /// assert_eq!(state.lay_out(), Ok(5));
    /// ```
    pub fn lay_out(&mut self) -> Result<u64, Refusal> {
        let answer = raw::lay_out(&mut self.journal, &self.adjacency);
        Ok(Refusal::unless_done(answer)?.first)
    }

    /// Joins v and w. A vertex that has all its edges already gives one to another vertex of its
    /// degree first; returns these switches in the order made, 0 to 2. Naming the pair the other
    /// way round may move other edges. An isolated vertex takes no edge. The swaps made so far
    /// cannot be taken back afterwards.
    ///
    /// ```
    /// # use replica::{Cause, State, Switch};
    /// let mut state = State::new();
    /// state.take_block(0, &[1, 1, 4, 0]).unwrap(); // four vertices, two edges
    /// state.lay_out().unwrap();
    /// assert_eq!(state.add_edge(0, 1).unwrap().len(), 0);
    /// let switches = state.add_edge(0, 2).unwrap();
    /// assert_eq!(*switches, [Switch { a: 0, b: 3, t: 1 }]); // 0-1 became 3-1
    /// let edges: Vec<_> = state.edges().unwrap().collect();
    /// assert_eq!(edges, [(0, 2), (1, 3)]);
    /// assert_eq!(state.add_edge(0, 1).unwrap_err().cause, Cause::CellNotShort);
    ///
    /// let mut state = State::new();
    /// state.take_block(0, &[0, 0, 1, 0, 1, 1, 2, 0]).unwrap(); // vertex 0 is isolated
    /// state.lay_out().unwrap();
    /// let refusal = state.add_edge(2, 0).unwrap_err();
    /// assert_eq!((refusal.cause, refusal.places), (Cause::CellNotShort, (0, 1)));
    /// ```
    pub fn add_edge(&mut self, v: u64, w: u64) -> Result<Switches, Refusal> {
        let (adjacency, log) = (&mut self.adjacency, &mut self.log);
        let join = raw::add_edge(&self.journal, adjacency, log, v, w);
        Refusal::unless_zero(join.number, join.first, join.second)?;
        Ok(Switches::of(join))
    }

    /// Removes the edge between v and w. The swaps made so far cannot be taken back afterwards.
    ///
    /// ```
    /// # use replica::{Cause, State};
    /// let mut state = State::new();
    /// state.take_block(0, &[1, 1, 2, 0]).unwrap();
    /// state.lay_out().unwrap();
    /// state.add_edge(0, 1).unwrap();
    /// assert_eq!(state.remove_edge(1, 0), Ok(()));
    /// assert_eq!(state.remove_edge(1, 0).unwrap_err().cause, Cause::EdgeAbsent);
    /// ```
    pub fn remove_edge(&mut self, v: u64, w: u64) -> Result<(), Refusal> {
        let (adjacency, log) = (&mut self.adjacency, &mut self.log);
        Refusal::unless_done(raw::remove_edge(&self.journal, adjacency, log, v, w))?;
        Ok(())
    }

    /// The edges (v, w), v below w, ascending.
    ///
    /// ```
    /// # use replica::State;
    /// let mut state = State::new();
    /// state.take_block(0, &[2, 2, 6, 0]).unwrap();
    /// state.lay_out().unwrap();
    /// state.complete().unwrap();
    /// assert_eq!(state.edges().unwrap().collect::<Vec<_>>(), [(0, 1), (0, 2), (1, 2)]);
    /// ```
    pub fn edges(&self) -> Result<Edges, Refusal> {
        let mut bytes = vec![0; 2 * MAX_EDGES];
        let length = self.edge_list(&mut bytes)?;
        bytes.truncate(length);
        Ok(Edges::new(bytes))
    }

    /// Writes the edges, 2 bytes each, and returns the written length. 8,000 bytes always do.
    ///
    /// ```
    /// # use replica::{Cause, State};
    /// let mut state = State::new();
    /// state.take_block(0, &[1, 1, 2, 0]).unwrap();
    /// state.lay_out().unwrap();
    /// state.complete().unwrap();
    /// let mut output = [9; 4];
    /// assert_eq!(state.edge_list(&mut output), Ok(2));
    /// assert_eq!(output, [0, 1, 9, 9]);
    /// let refusal = state.edge_list(&mut output[..1]).unwrap_err();
    /// assert_eq!(refusal.cause, Cause::OutputTooShort);
    /// ```
    pub fn edge_list(&self, output: &mut [u8]) -> Result<usize, Refusal> {
        let answer = raw::edge_list(&self.journal, &self.adjacency, output);
        Ok(Refusal::unless_done(answer)?.first as usize)
    }

    /// Phase, blocks, vertices, edges wanted and edges laid.
    ///
    /// ```
    /// # use replica::{Phase, State};
    /// let mut state = State::new();
    /// state.take_block(0, &[2, 2, 8, 0]).unwrap();
    /// state.lay_out().unwrap();
    /// state.add_edge(0, 1).unwrap();
    /// let figures = state.figures().unwrap();
    /// assert_eq!((figures.phase, figures.blocks, figures.vertices), (Phase::Laid, 1, 4));
    /// assert_eq!((figures.edges_wanted, figures.edges_laid), (4, 1));
    /// ```
    pub fn figures(&self) -> Result<Figures, Refusal> {
        let answer = Refusal::unless_done(raw::figures(&self.journal, &self.adjacency))?;
        Ok(figures_of(answer))
    }

    /// Whether two vertices are joined; false for numbers that are no vertices.
    ///
    /// ```
    /// # use replica::State;
    /// let mut state = State::new();
    /// state.take_block(0, &[1, 1, 2, 0]).unwrap();
    /// state.lay_out().unwrap();
    /// state.add_edge(0, 1).unwrap();
    /// assert!(state.joined(1, 0));
    /// assert!(!state.joined(1, 200));
    /// ```
    pub fn joined(&self, v: usize, w: usize) -> bool {
        v < MAX_VERTICES && w < MAX_VERTICES && self.adjacency[v * MAX_VERTICES + w] == 1
    }
}

fn figures_of(answer: ReplicaAnswer) -> Figures {
    Figures {
        phase: match answer.first {
            0 => Phase::Taking,
            _ => Phase::Laid,
        },
        blocks: answer.second,
        vertices: answer.third,
        edges_wanted: answer.fourth,
        edges_laid: answer.fifth,
    }
}

/// Writes the joint degree matrix of an edge list among `total` vertices as records, ascending, and
/// returns the written length. The record of the isolated vertices, those below the total that are
/// in no edge, comes first if there are some. The list has 2 bytes an edge, v below w below the
/// total, ascending; the total is 200 at most; [`MAX_RECORDS`](crate::MAX_RECORDS) records of
/// output, 3,284 bytes, always do.
///
/// ```
/// use replica::{jdm_of_edges, Cause, Record, Records};
///
/// let mut output = [0; 64];
/// let edges = [0, 3, 1, 2, 1, 3, 2, 3];
/// let length = jdm_of_edges(&edges, 4, &mut output).unwrap();
/// let records: Vec<Record> = Records::new(&output[..length]).collect();
/// assert_eq!(records, [Record::new(1, 3, 1), Record::new(2, 2, 2), Record::new(2, 3, 2)]);
///
/// // Among 10 vertices, six are in none of the four edges.
/// let length = jdm_of_edges(&edges, 10, &mut output).unwrap();
/// assert_eq!(Records::new(&output[..length]).next(), Some(Record::isolated(6)));
///
/// let refusal = jdm_of_edges(&edges, 3, &mut output).unwrap_err(); // there is no vertex 3
/// assert_eq!((refusal.cause, refusal.places), (Cause::BadEdgeList, (0, 0)));
/// let refusal = jdm_of_edges(&[0, 3, 2, 1], 4, &mut output).unwrap_err();
/// assert_eq!((refusal.cause, refusal.places), (Cause::BadEdgeList, (1, 0)));
/// ```
pub fn jdm_of_edges(edges: &[u8], total: u64, output: &mut [u8]) -> Result<usize, Refusal> {
    let answer = raw::jdm_of_edges(edges, total, output);
    Ok(Refusal::unless_done(answer)?.first as usize)
}
