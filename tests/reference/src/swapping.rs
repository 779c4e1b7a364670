//! The swap of document 003 (document 02, P8): edges a-b and c-d become a-d and b-c.

use crate::{adjacency, log};

/// A swap by its four vertices, as they were named.
#[derive(Clone, Copy, Debug, PartialEq, Eq, PartialOrd, Ord)]
pub struct Swap {
    pub a: usize,
    pub b: usize,
    pub c: usize,
    pub d: usize,
}

impl Swap {
    pub fn new(a: usize, b: usize, c: usize, d: usize) -> Swap {
        Swap { a, b, c, d }
    }

    /// The swap of a record's 4 bytes.
    pub fn of(record: &[u8]) -> Swap {
        let vertex = |i: usize| record[i] as usize;
        Swap::new(vertex(0), vertex(1), vertex(2), vertex(3))
    }

    /// Its record. The vertices must be below 256.
    pub fn record(self) -> [u8; log::RECORD_BYTES] {
        self.vertices().map(|vertex| vertex as u8)
    }

    pub fn vertices(self) -> [usize; 4] {
        [self.a, self.b, self.c, self.d]
    }

    /// The swap that takes this one back: a-d and c-b become a-b and d-c.
    pub fn back(self) -> Swap {
        Swap::new(self.a, self.d, self.c, self.b)
    }
}

/// Whether the four are vertices, distinct, both old edges are there, a and c have the same degree,
/// and neither new edge is there.
pub fn allowed(adjacency: &[u8], degrees: &[usize], swap: Swap) -> bool {
    let vertices = swap.vertices();
    let Swap { a, b, c, d } = swap;
    vertices.iter().all(|&v| v < degrees.len())
        && (0..4).all(|i| (0..i).all(|j| vertices[i] != vertices[j]))
        && adjacency::joined(adjacency, a, b)
        && adjacency::joined(adjacency, c, d)
        && degrees[a] == degrees[c]
        && !adjacency::joined(adjacency, a, d)
        && !adjacency::joined(adjacency, b, c)
}

/// Makes a swap that is allowed.
pub fn make(adjacency: &mut [u8], swap: Swap) {
    let Swap { a, b, c, d } = swap;
    adjacency::remove(adjacency, a, b);
    adjacency::remove(adjacency, c, d);
    adjacency::insert(adjacency, a, d);
    adjacency::insert(adjacency, b, c);
}

/// The matrix before all swaps of a well-formed log, undone from the last to the first. None where
/// one of these steps is not allowed.
pub fn all_undone(adjacency: &[u8], degrees: &[usize], log: &[u8]) -> Option<Vec<u8>> {
    let mut undone = adjacency.to_vec();
    for swap in log::swaps(log).into_iter().rev() {
        if !allowed(&undone, degrees, swap.back()) {
            return None;
        }
        make(&mut undone, swap.back());
    }
    Some(undone)
}
