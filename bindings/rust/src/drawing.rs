//! A laid state brought to a graph whose edges are given.

use crate::{Refusal, State, Switches};
use std::collections::BTreeSet;
use std::error::Error;
use std::fmt;

/// What [`State::draw`] did: first the removed edges went, then the added ones came. No other edge
/// moved, so whatever follows the graph has to do just that.
#[derive(Clone, Debug, Default, PartialEq, Eq)]
pub struct Drawn {
    /// The edges that are not in the drawing, v below w, ascending.
    pub removed: Vec<(u64, u64)>,
    /// The edges that the drawing has besides, as it names them and in its order.
    pub added: Vec<(u64, u64)>,
}

/// Why [`State::draw`] did nothing.
///
/// ```
/// use replica::{Cause, NotDrawn, State};
///
/// let mut state = State::new();
/// state.take_block(0, &[2, 2, 8, 0]).unwrap(); // four vertices, each with two edges
/// state.lay_out().unwrap();
///
/// let not_drawn = state.draw(&[(0, 1), (1, 2), (1, 0)]).unwrap_err();
/// assert_eq!(not_drawn.to_string(), "edge 1-0: the two vertices are joined already (refusal 15)");
/// let NotDrawn::Refused { refusal, edge } = not_drawn else { panic!() };
/// assert_eq!((refusal.cause, edge), (Cause::EdgePresent, Some((1, 0))));
///
/// let not_drawn = state.draw(&[(0, 1), (0, 2), (0, 3), (1, 2)]).unwrap_err();
/// assert!(matches!(not_drawn, NotDrawn::Moved { edge: (0, 3), .. })); // a third one at vertex 0
///
/// let not_drawn = state.draw(&[(0, 1), (1, 2), (2, 3)]).unwrap_err();
/// assert_eq!(not_drawn, NotDrawn::Incomplete { missing: 1 });
/// ```
#[derive(Clone, Copy, Debug, PartialEq, Eq)]
pub enum NotDrawn {
    /// A call was refused, at this edge of the drawing: it is named twice, joins a vertex to itself or
    /// names one that is not laid out, or its cell has all its edges. No edge is named where the state
    /// is not laid.
    Refused {
        refusal: Refusal,
        edge: Option<(u64, u64)>,
    },
    /// This edge of the drawing would have moved others: one of its two vertices has more edges in the
    /// drawing than its degree.
    Moved {
        edge: (u64, u64),
        switches: Switches,
    },
    /// The drawing has fewer edges than the table, by so many.
    Incomplete { missing: u64 },
}

impl NotDrawn {
    fn refused_at(refusal: Refusal, edge: (u64, u64)) -> NotDrawn {
        NotDrawn::Refused {
            refusal,
            edge: Some(edge),
        }
    }
}

impl From<Refusal> for NotDrawn {
    fn from(refusal: Refusal) -> NotDrawn {
        NotDrawn::Refused {
            refusal,
            edge: None,
        }
    }
}

impl fmt::Display for NotDrawn {
    fn fmt(&self, f: &mut fmt::Formatter<'_>) -> fmt::Result {
        match self {
            NotDrawn::Refused { refusal, edge } => {
                if let Some((v, w)) = edge {
                    write!(f, "edge {v}-{w}: ")?;
                }
                refusal.fmt(f)
            }
            NotDrawn::Moved { edge: (v, w), .. } => write!(
                f,
                "edge {v}-{w}: a vertex has more edges in the drawing than its degree"
            ),
            NotDrawn::Incomplete { missing } => {
                write!(
                    f,
                    "the drawing has fewer edges than the table: {missing} missing"
                )
            }
        }
    }
}

impl Error for NotDrawn {
    fn source(&self) -> Option<&(dyn Error + 'static)> {
        match self {
            NotDrawn::Refused { refusal, .. } => Some(refusal),
            _ => None,
        }
    }
}

impl State {
    /// Brings a laid state to exactly the graph with these edges: removes those that are not in the
    /// drawing, adds those that are missing, and says which. If it cannot, the state is as it was.
    ///
    /// A drawing in which every vertex has the degree laid out for it, and whose joint degree matrix is
    /// the table, is always reached, from every laid state, in any order of its edges, each named
    /// either way round, without a switch: theorem `EveryReplicaWithinReach`, clause `differences`, in
    /// `crates/demands/specs/WithinReach.antt`. Any other drawing gives a [`NotDrawn`].
    ///
    /// ```
    /// # use replica::State;
    /// let mut state = State::new();
    /// state.take_block(0, &[2, 2, 8, 0]).unwrap(); // four vertices, each with two edges
    /// state.lay_out().unwrap();
    /// state.complete().unwrap(); // 0-2, 0-3, 1-2, 1-3
    ///
    /// let drawn = state.draw(&[(0, 1), (1, 2), (2, 3), (3, 0)]).unwrap();
    /// assert_eq!(drawn.removed, [(0, 2), (1, 3)]);
    /// assert_eq!(drawn.added, [(0, 1), (2, 3)]);
    /// let edges: Vec<_> = state.edges().unwrap().collect();
    /// assert_eq!(edges, [(0, 1), (0, 3), (1, 2), (2, 3)]);
    ///
    /// // Vertex 0 cannot have three edges: nothing changes.
    /// assert!(state.draw(&[(0, 1), (0, 2), (0, 3), (1, 2)]).is_err());
    /// assert!(state.edges().unwrap().eq(edges));
    /// ```
    pub fn draw(&mut self, edges: &[(u64, u64)]) -> Result<Drawn, NotDrawn> {
        let mut copy = self.clone();
        let drawn = copy.draw_in_place(edges)?;
        *self = copy;
        Ok(drawn)
    }

    /// The same, but the state has changed where it says why not.
    fn draw_in_place(&mut self, edges: &[(u64, u64)]) -> Result<Drawn, NotDrawn> {
        let drawing: BTreeSet<_> = edges.iter().map(|&edge| ascending(edge)).collect();
        let laid = self.edge_set()?;
        let removed: Vec<_> = laid.difference(&drawing).copied().collect();
        for &(v, w) in &removed {
            let done = self.remove_edge(v, w);
            done.map_err(|refusal| NotDrawn::refused_at(refusal, (v, w)))?;
        }
        let mut kept: BTreeSet<_> = laid.intersection(&drawing).collect();
        let mut added = Vec::new();
        for &edge in edges {
            // The first naming of an edge that is there; at a second one adding is refused.
            if !kept.remove(&ascending(edge)) {
                self.add_without_switch(edge)?;
                added.push(edge);
            }
        }
        let figures = self.figures()?;
        let missing = figures.edges_wanted - figures.edges_laid;
        if missing > 0 {
            return Err(NotDrawn::Incomplete { missing });
        }
        assert_eq!(self.edge_set()?, drawing, "the library moved an edge");
        Ok(Drawn { removed, added })
    }

    fn add_without_switch(&mut self, edge: (u64, u64)) -> Result<(), NotDrawn> {
        let added = self.add_edge(edge.0, edge.1);
        let switches = added.map_err(|refusal| NotDrawn::refused_at(refusal, edge))?;
        if switches.is_empty() {
            Ok(())
        } else {
            Err(NotDrawn::Moved { edge, switches })
        }
    }

    fn edge_set(&self) -> Result<BTreeSet<(u64, u64)>, Refusal> {
        let edges = self.edges()?;
        Ok(edges.map(|(v, w)| (v.into(), w.into())).collect())
    }
}

fn ascending((v, w): (u64, u64)) -> (u64, u64) {
    (v.min(w), v.max(w))
}
