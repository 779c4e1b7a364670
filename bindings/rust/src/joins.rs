//! What moved: the switches of a join, and the records of completing.

use crate::raw::ReplicaJoin;
use crate::{JOIN_RECORD_BYTES, UNUSED};
use std::iter::{FusedIterator, Take};
use std::ops::Deref;
use std::slice::ChunksExact;
use std::{array, fmt, slice};

/// An edge that moved: a-t went and b-t came. The vertices a and b are of the same degree, so no cell
/// changes.
#[derive(Clone, Copy, Debug, PartialEq, Eq, PartialOrd, Ord, Hash)]
pub struct Switch {
    pub a: u8,
    pub b: u8,
    pub t: u8,
}

impl Switch {
    const NONE: Switch = Switch {
        a: UNUSED,
        b: UNUSED,
        t: UNUSED,
    };
}

/// The switches made for one edge, in the order made: none, one or two. It is a slice of them and
/// can be iterated over.
///
/// ```
/// # use replica::{State, Switch};
/// let mut state = State::new();
/// state.take_block(0, &[1, 1, 6, 0]).unwrap(); // six vertices, three edges
/// state.lay_out().unwrap();
/// assert!(state.add_edge(0, 2).unwrap().is_empty());
/// assert!(state.add_edge(1, 3).unwrap().is_empty());
///
/// let switches = state.add_edge(0, 1).unwrap(); // both have their edge already
/// assert_eq!(switches.len(), 2);
/// assert_eq!(switches[0], Switch { a: 0, b: 4, t: 2 }); // 0-2 became 4-2
/// for Switch { a, b, t } in switches {
///     println!("{a}-{t} went, {b}-{t} came");
///     assert!(!state.joined(a.into(), t.into()) && state.joined(b.into(), t.into()));
/// }
/// ```
#[derive(Clone, Copy, PartialEq, Eq, Hash)]
pub struct Switches {
    /// Behind those made: [`Switch::NONE`].
    places: [Switch; 2],
    length: usize,
}

impl Switches {
    /// Those of a join that was not refused.
    pub(crate) fn of(join: ReplicaJoin) -> Switches {
        let [_, _, _, triples @ ..] = join.numbers();
        // Numbers of vertices, or 255.
        Switches::from_bytes(triples.map(|number| number as u8))
    }

    fn from_bytes(triples: [u8; 6]) -> Switches {
        let [a1, b1, t1, a2, b2, t2] = triples;
        let switch = |a, b, t| Switch { a, b, t };
        let places = [switch(a1, b1, t1), switch(a2, b2, t2)];
        let used = places.iter().take_while(|&&place| place != Switch::NONE);
        Switches {
            places,
            length: used.count(),
        }
    }
}

impl Deref for Switches {
    type Target = [Switch];

    fn deref(&self) -> &[Switch] {
        &self.places[..self.length]
    }
}

impl IntoIterator for Switches {
    type Item = Switch;
    type IntoIter = Take<array::IntoIter<Switch, 2>>;

    fn into_iter(self) -> Self::IntoIter {
        self.places.into_iter().take(self.length)
    }
}

impl<'a> IntoIterator for &'a Switches {
    type Item = &'a Switch;
    type IntoIter = slice::Iter<'a, Switch>;

    fn into_iter(self) -> Self::IntoIter {
        self.iter()
    }
}

impl fmt::Debug for Switches {
    fn fmt(&self, f: &mut fmt::Formatter<'_>) -> fmt::Result {
        f.debug_list().entries(self).finish()
    }
}

/// An edge that was added, and what moved for it. To play it onto a graph, do its switches in their
/// order, each removing a-t and adding b-t, and then add v-w.
#[derive(Clone, Copy, Debug, PartialEq, Eq, Hash)]
pub struct Join {
    pub v: u8,
    pub w: u8,
    pub switches: Switches,
}

impl Join {
    /// The join of a record: v, w, then a, b, t of each switch, 255 where there is none.
    ///
    /// ```
    /// use replica::{Join, Switch};
    ///
    /// let join = Join::from_bytes([0, 3, 0, 1, 2, 255, 255, 255]);
    /// assert_eq!((join.v, join.w), (0, 3));
    /// assert_eq!(*join.switches, [Switch { a: 0, b: 1, t: 2 }]);
    /// ```
    pub fn from_bytes(record: [u8; JOIN_RECORD_BYTES]) -> Join {
        let [v, w, triples @ ..] = record;
        Join {
            v,
            w,
            switches: Switches::from_bytes(triples),
        }
    }

    /// Its record. Joins made by hand can so be kept beside those of completing.
    ///
    /// ```
    /// # use replica::{Join, State};
    /// let mut state = State::new();
    /// state.take_block(0, &[1, 1, 4, 0]).unwrap();
    /// state.lay_out().unwrap();
    /// state.add_edge(0, 1).unwrap();
    /// let switches = state.add_edge(0, 2).unwrap(); // 0-1 becomes 3-1
    /// let join = Join { v: 0, w: 2, switches };
    /// assert_eq!(join.to_bytes(), [0, 2, 0, 3, 1, 255, 255, 255]);
    /// assert_eq!(Join::from_bytes(join.to_bytes()), join);
    /// ```
    pub fn to_bytes(self) -> [u8; JOIN_RECORD_BYTES] {
        let [first, second] = self.switches.places;
        [
            self.v, self.w, first.a, first.b, first.t, second.a, second.b, second.t,
        ]
    }
}

/// The joins of the records that completing wrote, in the order made. Bytes after the last whole
/// record are left out.
///
/// ```
/// use replica::Joins;
///
/// let bytes = [0, 1, 255, 255, 255, 255, 255, 255, 0, 2, 0, 3, 1, 255, 255, 255];
/// let mut joins = Joins::new(&bytes);
/// assert_eq!(joins.len(), 2);
/// let join = joins.next().unwrap();
/// assert_eq!((join.v, join.w, join.switches.len()), (0, 1, 0));
/// assert_eq!(joins.next().unwrap().switches.len(), 1);
/// ```
#[derive(Clone, Debug)]
pub struct Joins<'a> {
    chunks: ChunksExact<'a, u8>,
}

impl<'a> Joins<'a> {
    pub fn new(bytes: &'a [u8]) -> Joins<'a> {
        Joins {
            chunks: bytes.chunks_exact(JOIN_RECORD_BYTES),
        }
    }
}

impl Iterator for Joins<'_> {
    type Item = Join;

    fn next(&mut self) -> Option<Join> {
        let record = self.chunks.next()?;
        Some(Join::from_bytes(record.try_into().expect("8 bytes")))
    }

    fn size_hint(&self) -> (usize, Option<usize>) {
        self.chunks.size_hint()
    }
}

impl ExactSizeIterator for Joins<'_> {}
impl FusedIterator for Joins<'_> {}
