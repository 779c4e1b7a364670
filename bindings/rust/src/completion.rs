//! Completing a laid state, and what it did.

use crate::raw::{self, ReplicaAnswer};
use crate::{Joins, Refusal, State, JOIN_RECORD_BYTES, MAX_EDGES};

/// What completing did: the edges it added, the switches made for them, and a record of each join.
/// The bytes of the records are its own, from [`State::complete`] and [`State::complete_shuffled`], or
/// lent to it, from [`State::complete_into`] and [`State::complete_shuffled_into`].
///
/// Played onto the graph of before, the records give the graph of after:
///
/// ```
/// use replica::{State, Switch};
/// use std::collections::BTreeSet;
///
/// let mut state = State::new();
/// state.take_block(0, &[2, 2, 8, 0]).unwrap(); // four vertices in a ring
/// state.lay_out().unwrap();
/// state.add_edge(0, 1).unwrap();
///
/// let mut copy: BTreeSet<(u8, u8)> = state.edges().unwrap().collect();
/// let pair = |v: u8, w: u8| (v.min(w), v.max(w));
/// let done = state.complete().unwrap();
/// assert_eq!((done.joins, done.switches), (3, 2));
/// for join in done.records() {
///     for Switch { a, b, t } in join.switches {
///         assert!(copy.remove(&pair(a, t)));
///         assert!(copy.insert(pair(b, t)));
///     }
///     assert!(copy.insert((join.v, join.w)));
/// }
/// assert!(copy.into_iter().eq(state.edges().unwrap()));
/// ```
#[derive(Clone, Copy, Debug, PartialEq, Eq)]
pub struct Completion<Bytes = Vec<u8>> {
    pub joins: u64,
    pub switches: u64,
    bytes: Bytes,
}

impl<Bytes: AsRef<[u8]>> Completion<Bytes> {
    /// The joins with their switches, in the order made; v is below w in each.
    pub fn records(&self) -> Joins<'_> {
        Joins::new(self.as_bytes())
    }

    /// The bytes of the records, 8 for each join: v, w, then a, b, t of each switch in the order
    /// made, unused ones 255.
    pub fn as_bytes(&self) -> &[u8] {
        self.bytes.as_ref()
    }
}

impl<'a> Completion<&'a [u8]> {
    /// That of an answer that is no refusal, and the output it wrote.
    fn of(answer: ReplicaAnswer, output: &'a [u8]) -> Completion<&'a [u8]> {
        Completion {
            joins: answer.first,
            switches: answer.second,
            bytes: &output[..answer.third as usize],
        }
    }

    fn owned(self) -> Completion {
        Completion {
            joins: self.joins,
            switches: self.switches,
            bytes: self.bytes.to_vec(),
        }
    }
}

impl State {
    /// Adds edges until every cell has its count. From any start it makes exactly as many joins as
    /// edges are missing. Returns how many, the switches made for them, and a record of each join.
    /// If an edge was added, the swaps made so far cannot be taken back afterwards.
    ///
    /// ```
    /// # use replica::{State, Switch};
    /// let mut state = State::new();
    /// state.take_block(0, &[2, 2, 8, 0]).unwrap();
    /// state.lay_out().unwrap();
    /// let done = state.complete().unwrap();
    /// assert_eq!((done.joins, done.switches), (4, 2));
    /// let pairs: Vec<_> = done.records().map(|join| (join.v, join.w)).collect();
    /// assert_eq!(pairs, [(0, 1), (0, 2), (0, 3), (0, 2)]); // a switch took 0-2 away in between
    /// let last = done.records().last().unwrap();
    /// assert_eq!(*last.switches, [Switch { a: 0, b: 3, t: 1 }]);
    ///
    /// assert_eq!(state.complete().unwrap().joins, 0); // nothing is missing any more
    /// ```
    pub fn complete(&mut self) -> Result<Completion, Refusal> {
        Ok(self.complete_into(&mut room_for_any())?.owned())
    }

    /// The same, writing the records into an output, 8 bytes for each edge that is missing. 32,000
    /// bytes always do; on a complete state none are needed. Refused when it is shorter, and then
    /// nothing is added either.
    ///
    /// ```
    /// # use replica::{Cause, State};
    /// let mut state = State::new();
    /// state.take_block(0, &[1, 1, 4, 0]).unwrap();
    /// state.lay_out().unwrap();
    /// let mut output = [9; 20];
    /// let refusal = state.complete_into(&mut output[..15]).unwrap_err();
    /// assert_eq!(refusal.cause, Cause::OutputTooShort);
    ///
    /// let done = state.complete_into(&mut output).unwrap();
    /// assert_eq!((done.joins, done.switches, done.as_bytes().len()), (2, 1, 16));
    /// assert_eq!(output[..8], [0, 1, 255, 255, 255, 255, 255, 255]);
    /// assert_eq!(output[8..], [0, 2, 0, 3, 1, 255, 255, 255, 9, 9, 9, 9]);
    ///
    /// assert_eq!(state.complete_into(&mut []).unwrap().joins, 0);
    /// ```
    pub fn complete_into<'a>(
        &mut self,
        output: &'a mut [u8],
    ) -> Result<Completion<&'a [u8]>, Refusal> {
        let (adjacency, log) = (&mut self.adjacency, &mut self.log);
        let answer = raw::complete(&self.journal, adjacency, log, output);
        Ok(Completion::of(Refusal::unless_done(answer)?, output))
    }

    /// The same as [`complete`](State::complete), but the number x, any of 32 bits, chooses which edge
    /// is added next: another x mostly gives another graph of the same table, and the same x from the
    /// same start always the same graph. Returns the last number too, which can be the x of the next
    /// replica; on a complete state it is x itself.
    ///
    /// Before each join x steps to the low 32 bits of 1,664,525 x + 1,013,904,223. Of the m pairs
    /// v < w that are not joined and whose cell is short, ascending and counted from 0, the one at
    /// position x / 65,536 mod m is joined as [`add_edge`](State::add_edge) does it.
    ///
    /// ```
    /// # use replica::{State, Switch};
    /// let mut state = State::new();
    /// state.take_block(0, &[2, 2, 8, 0]).unwrap();
    /// state.lay_out().unwrap();
    /// let empty = state.clone();
    ///
    /// let (done, last) = state.complete_shuffled(0).unwrap();
    /// assert_eq!((done.joins, done.switches, last), (4, 1, 2_868_466_484));
    /// let pairs: Vec<_> = done.records().map(|join| (join.v, join.w)).collect();
    /// assert_eq!(pairs, [(0, 3), (0, 2), (0, 1), (1, 3)]);
    /// let third = done.records().nth(2).unwrap();
    /// assert_eq!(*third.switches, [Switch { a: 0, b: 2, t: 3 }]); // 0-3 became 2-3
    ///
    /// let mut again = empty.clone(); // the same number, the same replica
    /// assert_eq!(again.complete_shuffled(0).unwrap(), (done, last));
    /// assert_eq!(again, state);
    ///
    /// let mut other = empty.clone(); // another number, another replica
    /// other.complete_shuffled(1).unwrap();
    /// assert_ne!(other, state);
    ///
    /// let (done, last) = state.complete_shuffled(7).unwrap(); // nothing is missing any more
    /// assert_eq!((done.joins, last), (0, 7));
    /// ```
    pub fn complete_shuffled(&mut self, x: u32) -> Result<(Completion, u32), Refusal> {
        let mut output = room_for_any();
        let (done, last) = self.complete_shuffled_into(x, &mut output)?;
        Ok((done.owned(), last))
    }

    /// The same, writing the records into an output, as [`complete_into`](State::complete_into) does.
    ///
    /// ```
    /// # use replica::{Cause, State};
    /// let mut state = State::new();
    /// state.take_block(0, &[2, 2, 8, 0]).unwrap();
    /// state.lay_out().unwrap();
    /// let mut output = [9; 34];
    /// let refusal = state.complete_shuffled_into(0, &mut output[..31]).unwrap_err();
    /// assert_eq!(refusal.cause, Cause::OutputTooShort);
    ///
    /// let (done, last) = state.complete_shuffled_into(0, &mut output).unwrap();
    /// assert_eq!((done.joins, done.as_bytes().len(), last), (4, 32, 2_868_466_484));
    /// assert_eq!(output[16..24], [0, 1, 0, 2, 3, 255, 255, 255]);
    /// assert_eq!(output[32..], [9, 9]);
    ///
    /// assert_eq!(state.complete_shuffled_into(7, &mut []).unwrap().1, 7);
    /// ```
    pub fn complete_shuffled_into<'a>(
        &mut self,
        x: u32,
        output: &'a mut [u8],
    ) -> Result<(Completion<&'a [u8]>, u32), Refusal> {
        let (adjacency, log) = (&mut self.adjacency, &mut self.log);
        let answer = raw::complete_shuffled(&self.journal, adjacency, log, x, output);
        let answer = Refusal::unless_done(answer)?;
        // A number of 32 bits, as x is.
        Ok((Completion::of(answer, output), answer.fourth as u32))
    }
}

/// An output that is never too short.
fn room_for_any() -> Vec<u8> {
    vec![0; JOIN_RECORD_BYTES * MAX_EDGES]
}
