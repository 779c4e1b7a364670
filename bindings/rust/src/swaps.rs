//! Swaps of two edges, and the log from which they are taken back.

use crate::{raw, Refusal, State, LOG_BYTES, MAX_SWAPS, SWAP_RECORD_BYTES};
use std::iter::FusedIterator;
use std::slice::ChunksExact;

/// Two edges rewired: a-b and c-d went, a-d and b-c came. The vertices a and c are of the same
/// degree, so no cell changes, and no vertex has more edges or fewer.
#[derive(Clone, Copy, Debug, PartialEq, Eq, PartialOrd, Ord, Hash)]
pub struct Swap {
    pub a: u8,
    pub b: u8,
    pub c: u8,
    pub d: u8,
}

impl Swap {
    /// The swap that takes this one back: a-d and c-b went, a-b and d-c came.
    ///
    /// ```
    /// use replica::Swap;
    ///
    /// let swap = Swap { a: 0, b: 1, c: 2, d: 3 };
    /// assert_eq!(swap.back(), Swap { a: 0, b: 3, c: 2, d: 1 });
    /// assert_eq!(swap.back().back(), swap);
    /// ```
    pub fn back(self) -> Swap {
        Swap {
            b: self.d,
            d: self.b,
            ..self
        }
    }

    /// The swap of a record in the log: a, b, c, d.
    pub fn from_bytes([a, b, c, d]: [u8; SWAP_RECORD_BYTES]) -> Swap {
        Swap { a, b, c, d }
    }

    /// Its record.
    ///
    /// ```
    /// use replica::Swap;
    ///
    /// let swap = Swap { a: 0, b: 1, c: 2, d: 3 };
    /// assert_eq!(swap.to_bytes(), [0, 1, 2, 3]);
    /// assert_eq!(Swap::from_bytes(swap.to_bytes()), swap);
    /// ```
    pub fn to_bytes(self) -> [u8; SWAP_RECORD_BYTES] {
        [self.a, self.b, self.c, self.d]
    }
}

/// The swaps in a log, in the order made; from the back, in the order they can be taken back.
///
/// ```
/// use replica::{Swap, Swaps, LOG_BYTES};
///
/// let mut log = [0; LOG_BYTES];
/// log[..10].copy_from_slice(&[2, 0, 0, 1, 2, 3, 0, 3, 4, 5]);
/// let mut swaps = Swaps::new(&log);
/// assert_eq!(swaps.len(), 2);
/// assert_eq!(swaps.next_back(), Some(Swap { a: 0, b: 3, c: 4, d: 5 }));
/// assert_eq!(swaps.next(), Some(Swap { a: 0, b: 1, c: 2, d: 3 }));
/// assert_eq!(swaps.next(), None);
/// ```
#[derive(Clone, Debug)]
pub struct Swaps<'a> {
    records: ChunksExact<'a, u8>,
}

impl<'a> Swaps<'a> {
    /// The swaps in the bytes of a log. A count that is higher than there is room for means all
    /// records there are; whether they can be taken back is for the library to say.
    ///
    /// # Panics
    ///
    /// If there are not [`LOG_BYTES`] of them.
    pub fn new(log: &'a [u8]) -> Swaps<'a> {
        assert_eq!(log.len(), LOG_BYTES, "bytes of a log");
        let count = u16::from_le_bytes([log[0], log[1]]);
        let length = SWAP_RECORD_BYTES * MAX_SWAPS.min(count.into());
        Swaps {
            records: log[2..2 + length].chunks_exact(SWAP_RECORD_BYTES),
        }
    }
}

fn swap_of(record: &[u8]) -> Swap {
    Swap::from_bytes(record.try_into().expect("4 bytes"))
}

impl Iterator for Swaps<'_> {
    type Item = Swap;

    fn next(&mut self) -> Option<Swap> {
        self.records.next().map(swap_of)
    }

    fn size_hint(&self) -> (usize, Option<usize>) {
        self.records.size_hint()
    }
}

impl DoubleEndedIterator for Swaps<'_> {
    fn next_back(&mut self) -> Option<Swap> {
        self.records.next_back().map(swap_of)
    }
}

impl ExactSizeIterator for Swaps<'_> {}
impl FusedIterator for Swaps<'_> {}

impl State {
    /// Swaps two edges: a-b and c-d become a-d and b-c. Both must be there and the two new ones
    /// not, the four vertices distinct, and a and c of the same degree. So every cell keeps its
    /// edges and every vertex its degree; the state need not be complete. The swap is written into
    /// the log, which has room for [`MAX_SWAPS`].
    ///
    /// ```
    /// # use replica::{Cause, State, Swap};
    /// let mut state = State::new();
    /// state.take_block(0, &[1, 1, 4, 0]).unwrap(); // four vertices, two edges
    /// state.lay_out().unwrap();
    /// state.add_edge(0, 1).unwrap();
    /// state.add_edge(2, 3).unwrap();
    ///
    /// assert_eq!(state.swap_edges(0, 1, 2, 3), Ok(()));
    /// let edges: Vec<_> = state.edges().unwrap().collect();
    /// assert_eq!(edges, [(0, 3), (1, 2)]);
    /// assert!(state.swaps().eq([Swap { a: 0, b: 1, c: 2, d: 3 }]));
    ///
    /// // Edge 0-1 is not there any more, and a vertex cannot be named twice.
    /// let refusal = state.swap_edges(0, 1, 2, 3).unwrap_err();
    /// assert_eq!(refusal.cause, Cause::SwapNotAllowed);
    /// assert_eq!(state.swap_edges(0, 3, 3, 0).unwrap_err().cause, Cause::SwapNotAllowed);
    /// assert_eq!(state.swap_edges(0, 3, 2, 4).unwrap_err().cause, Cause::NoSuchVertex);
    /// ```
    pub fn swap_edges(&mut self, a: u64, b: u64, c: u64, d: u64) -> Result<(), Refusal> {
        let (adjacency, log) = (&mut self.adjacency, &mut self.log);
        Refusal::unless_done(raw::swap_edges(&self.journal, adjacency, log, a, b, c, d))?;
        Ok(())
    }

    /// Takes the last swap back and returns it: a-d and b-c are a-b and c-d again, and the state is
    /// as it was before that swap, its log too.
    ///
    /// ```
    /// # use replica::{Cause, State, Swap};
    /// let mut state = State::new();
    /// state.take_block(0, &[2, 2, 16, 0]).unwrap(); // eight vertices, each with two edges
    /// state.lay_out().unwrap();
    /// state.complete_shuffled(1).unwrap();
    /// let before = state.clone();
    ///
    /// let edges: Vec<_> = state.edges().unwrap().collect();
    /// let mut made = Vec::new();
    /// for &(a, b) in &edges {
    ///     for &(c, d) in &edges {
    ///         if state.swap_edges(a.into(), b.into(), c.into(), d.into()).is_ok() {
    ///             made.push(Swap { a, b, c, d });
    ///         }
    ///     }
    /// }
    /// assert!(!made.is_empty() && state.swaps().eq(made.iter().copied()));
    /// while let Some(swap) = made.pop() {
    ///     assert_eq!(state.undo_swap(), Ok(swap));
    /// }
    /// assert_eq!(state, before);
    /// assert_eq!(state.undo_swap().unwrap_err().cause, Cause::LogEmpty);
    /// ```
    pub fn undo_swap(&mut self) -> Result<Swap, Refusal> {
        let last = self.swaps().next_back();
        let (adjacency, log) = (&mut self.adjacency, &mut self.log);
        Refusal::unless_done(raw::undo_swap(&self.journal, adjacency, log))?;
        Ok(last.expect("the library refuses an empty log"))
    }

    /// The swaps that can be taken back, in the order made: those since the graph was changed in
    /// another way. Adding and removing an edge, completing that adds one, and clearing leave none.
    ///
    /// ```
    /// # use replica::State;
    /// let mut state = State::new();
    /// state.take_block(0, &[1, 1, 4, 0]).unwrap();
    /// state.lay_out().unwrap();
    /// state.complete().unwrap(); // 0-2, 1-3
    /// state.swap_edges(0, 2, 1, 3).unwrap();
    /// assert_eq!(state.swaps().len(), 1);
    /// state.complete().unwrap(); // nothing is missing, and nothing changes
    /// assert_eq!(state.swaps().len(), 1);
    /// state.remove_edge(0, 3).unwrap();
    /// assert_eq!(state.swaps().len(), 0);
    /// ```
    pub fn swaps(&self) -> Swaps<'_> {
        Swaps::new(&self.log)
    }
}
