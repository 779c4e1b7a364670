//! The fifteen exports of the C interface, over slices of any length.
//!
//! These functions are safe: a slice is passed as its pointer and its length, and the library
//! checks lengths itself. They answer with the numbers of the C interface as they are.
//!
//! ```
//! use replica::raw;
//!
//! let mut journal = vec![7; replica::JOURNAL_BYTES];
//! let mut adjacency = vec![7; replica::ADJACENCY_BYTES];
//! let mut log = vec![7; replica::LOG_BYTES];
//! assert_eq!(raw::figures(&journal, &adjacency).number, 2); // not a valid state
//! assert_eq!(raw::clear(&mut journal, &mut adjacency, &mut log).number, 0);
//! assert_eq!(raw::figures(&journal, &adjacency).number, 0);
//! assert_eq!(raw::figures(&journal[1..], &adjacency).number, 1); // another length
//! ```

/// What every export but that of [`add_edge`] returns: `number` is 0 when the call did its work, else
/// the number of the refusal, with its two places in `first` and `second`. What is not named is 0.
#[repr(C)]
#[derive(Clone, Copy, Debug, Default, PartialEq, Eq)]
pub struct ReplicaAnswer {
    pub number: u64,
    pub first: u64,
    pub second: u64,
    pub third: u64,
    pub fourth: u64,
    pub fifth: u64,
}

impl ReplicaAnswer {
    /// The six numbers in their order.
    pub fn numbers(self) -> [u64; 6] {
        [
            self.number,
            self.first,
            self.second,
            self.third,
            self.fourth,
            self.fifth,
        ]
    }
}

/// What [`add_edge`] returns. When the call did its work, `number` and `second` are 0, `first` is the
/// switches made, and each switch is a triple: edge a-t went, edge b-t came; one that was not needed
/// has 255 in its numbers. Refused, `number` says why, `first` and `second` are its places, and all
/// others are 0.
#[repr(C)]
#[derive(Clone, Copy, Debug, Default, PartialEq, Eq)]
pub struct ReplicaJoin {
    pub number: u64,
    pub first: u64,
    pub second: u64,
    pub a1: u64,
    pub b1: u64,
    pub t1: u64,
    pub a2: u64,
    pub b2: u64,
    pub t2: u64,
}

impl ReplicaJoin {
    /// The nine numbers in their order.
    pub fn numbers(self) -> [u64; 9] {
        [
            self.number,
            self.first,
            self.second,
            self.a1,
            self.b1,
            self.t1,
            self.a2,
            self.b2,
            self.t2,
        ]
    }
}

mod exports {
    use super::{ReplicaAnswer, ReplicaJoin};

    extern "C" {
        pub fn replica_clear(
            journal: *mut u8,
            journal_length: usize,
            adjacency: *mut u8,
            adjacency_length: usize,
            log: *mut u8,
            log_length: usize,
        ) -> ReplicaAnswer;

        pub fn replica_take_block(
            journal: *mut u8,
            journal_length: usize,
            adjacency: *const u8,
            adjacency_length: usize,
            number: u64,
            block: *const u8,
            block_length: usize,
        ) -> ReplicaAnswer;

        pub fn replica_held_block(
            journal: *const u8,
            journal_length: usize,
            adjacency: *const u8,
            adjacency_length: usize,
            number: u64,
        ) -> ReplicaAnswer;

        pub fn replica_lay_out(
            journal: *mut u8,
            journal_length: usize,
            adjacency: *const u8,
            adjacency_length: usize,
        ) -> ReplicaAnswer;

        pub fn replica_add_edge(
            journal: *const u8,
            journal_length: usize,
            adjacency: *mut u8,
            adjacency_length: usize,
            log: *mut u8,
            log_length: usize,
            v: u64,
            w: u64,
        ) -> ReplicaJoin;

        pub fn replica_remove_edge(
            journal: *const u8,
            journal_length: usize,
            adjacency: *mut u8,
            adjacency_length: usize,
            log: *mut u8,
            log_length: usize,
            v: u64,
            w: u64,
        ) -> ReplicaAnswer;

        pub fn replica_swap_edges(
            journal: *const u8,
            journal_length: usize,
            adjacency: *mut u8,
            adjacency_length: usize,
            log: *mut u8,
            log_length: usize,
            a: u64,
            b: u64,
            c: u64,
            d: u64,
        ) -> ReplicaAnswer;

        pub fn replica_undo_swap(
            journal: *const u8,
            journal_length: usize,
            adjacency: *mut u8,
            adjacency_length: usize,
            log: *mut u8,
            log_length: usize,
        ) -> ReplicaAnswer;

        pub fn replica_complete(
            journal: *const u8,
            journal_length: usize,
            adjacency: *mut u8,
            adjacency_length: usize,
            log: *mut u8,
            log_length: usize,
            output: *mut u8,
            output_length: usize,
        ) -> ReplicaAnswer;

        pub fn replica_complete_shuffled(
            journal: *const u8,
            journal_length: usize,
            adjacency: *mut u8,
            adjacency_length: usize,
            log: *mut u8,
            log_length: usize,
            x: u32,
            output: *mut u8,
            output_length: usize,
        ) -> ReplicaAnswer;

        pub fn replica_edge_list(
            journal: *const u8,
            journal_length: usize,
            adjacency: *const u8,
            adjacency_length: usize,
            output: *mut u8,
            output_length: usize,
        ) -> ReplicaAnswer;

        pub fn replica_jdm_of_edges(
            edges: *const u8,
            edges_length: usize,
            total: u64,
            output: *mut u8,
            output_length: usize,
        ) -> ReplicaAnswer;

        pub fn replica_graph6_write(
            edges: *const u8,
            edges_length: usize,
            total: u64,
            output: *mut u8,
            output_length: usize,
        ) -> ReplicaAnswer;

        pub fn replica_graph6_read(
            text: *const u8,
            text_length: usize,
            output: *mut u8,
            output_length: usize,
        ) -> ReplicaAnswer;

        pub fn replica_figures(
            journal: *const u8,
            journal_length: usize,
            adjacency: *const u8,
            adjacency_length: usize,
        ) -> ReplicaAnswer;
    }
}

// Every call below passes pointers and lengths of live slices; the borrows make sure that a slice
// the library may write overlaps no other.

/// Sets every byte of all three buffers to 0. Refused: 1.
pub fn clear(journal: &mut [u8], adjacency: &mut [u8], log: &mut [u8]) -> ReplicaAnswer {
    unsafe {
        exports::replica_clear(
            journal.as_mut_ptr(),
            journal.len(),
            adjacency.as_mut_ptr(),
            adjacency.len(),
            log.as_mut_ptr(),
            log.len(),
        )
    }
}

/// Takes a block: `first` is 0 when it was new, and `second` the next number, or 1 when it was
/// held. Refused: 1, 2, 4, 5, 6, 7, 3, 8.
pub fn take_block(
    journal: &mut [u8],
    adjacency: &[u8],
    number: u64,
    block: &[u8],
) -> ReplicaAnswer {
    unsafe {
        exports::replica_take_block(
            journal.as_mut_ptr(),
            journal.len(),
            adjacency.as_ptr(),
            adjacency.len(),
            number,
            block.as_ptr(),
            block.len(),
        )
    }
}

/// Finds a held block: `first` is its offset in the journal, `second` its length.
/// Refused: 1, 2, 6.
pub fn held_block(journal: &[u8], adjacency: &[u8], number: u64) -> ReplicaAnswer {
    unsafe {
        exports::replica_held_block(
            journal.as_ptr(),
            journal.len(),
            adjacency.as_ptr(),
            adjacency.len(),
            number,
        )
    }
}

/// Lays out the vertices: `first` is their number, the isolated ones included.
/// Refused: 1, 2, 3, 9, 10, 11, 12.
pub fn lay_out(journal: &mut [u8], adjacency: &[u8]) -> ReplicaAnswer {
    unsafe {
        exports::replica_lay_out(
            journal.as_mut_ptr(),
            journal.len(),
            adjacency.as_ptr(),
            adjacency.len(),
        )
    }
}

/// Joins two vertices and empties the log: `first` is the switches made, and then they follow.
/// Refused: 1, 2, 3, 13, 14, 15, 16.
pub fn add_edge(
    journal: &[u8],
    adjacency: &mut [u8],
    log: &mut [u8],
    v: u64,
    w: u64,
) -> ReplicaJoin {
    unsafe {
        exports::replica_add_edge(
            journal.as_ptr(),
            journal.len(),
            adjacency.as_mut_ptr(),
            adjacency.len(),
            log.as_mut_ptr(),
            log.len(),
            v,
            w,
        )
    }
}

/// Removes one edge and empties the log. Refused: 1, 2, 3, 13, 14, 17.
pub fn remove_edge(
    journal: &[u8],
    adjacency: &mut [u8],
    log: &mut [u8],
    v: u64,
    w: u64,
) -> ReplicaAnswer {
    unsafe {
        exports::replica_remove_edge(
            journal.as_ptr(),
            journal.len(),
            adjacency.as_mut_ptr(),
            adjacency.len(),
            log.as_mut_ptr(),
            log.len(),
            v,
            w,
        )
    }
}

/// Swaps the edges a-b and c-d for a-d and b-c and writes that into the log.
/// Refused: 1, 2, 3, 13, 23, 24.
pub fn swap_edges(
    journal: &[u8],
    adjacency: &mut [u8],
    log: &mut [u8],
    a: u64,
    b: u64,
    c: u64,
    d: u64,
) -> ReplicaAnswer {
    unsafe {
        exports::replica_swap_edges(
            journal.as_ptr(),
            journal.len(),
            adjacency.as_mut_ptr(),
            adjacency.len(),
            log.as_mut_ptr(),
            log.len(),
            a,
            b,
            c,
            d,
        )
    }
}

/// Takes the last swap of the log back. Refused: 1, 2, 3, 25.
pub fn undo_swap(journal: &[u8], adjacency: &mut [u8], log: &mut [u8]) -> ReplicaAnswer {
    unsafe {
        exports::replica_undo_swap(
            journal.as_ptr(),
            journal.len(),
            adjacency.as_mut_ptr(),
            adjacency.len(),
            log.as_mut_ptr(),
            log.len(),
        )
    }
}

/// Joins until no cell is short and writes a record of 8 bytes for each join: `first` is the joins
/// made, `second` the switches, `third` the written length. Where there was one, the log is
/// emptied. Refused: 1, 2, 3, 18.
pub fn complete(
    journal: &[u8],
    adjacency: &mut [u8],
    log: &mut [u8],
    output: &mut [u8],
) -> ReplicaAnswer {
    unsafe {
        exports::replica_complete(
            journal.as_ptr(),
            journal.len(),
            adjacency.as_mut_ptr(),
            adjacency.len(),
            log.as_mut_ptr(),
            log.len(),
            output.as_mut_ptr(),
            output.len(),
        )
    }
}

/// The same with edges chosen by numbers from x on: `fourth` is the last of them.
/// Refused: 1, 2, 3, 18.
pub fn complete_shuffled(
    journal: &[u8],
    adjacency: &mut [u8],
    log: &mut [u8],
    x: u32,
    output: &mut [u8],
) -> ReplicaAnswer {
    unsafe {
        exports::replica_complete_shuffled(
            journal.as_ptr(),
            journal.len(),
            adjacency.as_mut_ptr(),
            adjacency.len(),
            log.as_mut_ptr(),
            log.len(),
            x,
            output.as_mut_ptr(),
            output.len(),
        )
    }
}

/// Writes the edges, 2 bytes each: `first` is the written length. Refused: 1, 2, 3, 18.
pub fn edge_list(journal: &[u8], adjacency: &[u8], output: &mut [u8]) -> ReplicaAnswer {
    unsafe {
        exports::replica_edge_list(
            journal.as_ptr(),
            journal.len(),
            adjacency.as_ptr(),
            adjacency.len(),
            output.as_mut_ptr(),
            output.len(),
        )
    }
}

/// Writes the records of an edge list among `total` vertices, the isolated ones first: `first` is
/// the written length. Refused: 19, 20, 18.
pub fn jdm_of_edges(edges: &[u8], total: u64, output: &mut [u8]) -> ReplicaAnswer {
    unsafe {
        exports::replica_jdm_of_edges(
            edges.as_ptr(),
            edges.len(),
            total,
            output.as_mut_ptr(),
            output.len(),
        )
    }
}

/// Writes an edge list among `total` vertices as graph6: `first` is the written length.
/// Refused: 19, 18.
pub fn graph6_write(edges: &[u8], total: u64, output: &mut [u8]) -> ReplicaAnswer {
    unsafe {
        exports::replica_graph6_write(
            edges.as_ptr(),
            edges.len(),
            total,
            output.as_mut_ptr(),
            output.len(),
        )
    }
}

/// Reads a graph6 text and writes its edges, 2 bytes each: `first` is the written length, `second`
/// the number of vertices. Refused: 22, 21, 18.
pub fn graph6_read(text: &[u8], output: &mut [u8]) -> ReplicaAnswer {
    unsafe {
        exports::replica_graph6_read(text.as_ptr(), text.len(), output.as_mut_ptr(), output.len())
    }
}

/// Phase, blocks, vertices, edges wanted and edges laid, in `first` to `fifth`. Refused: 1, 2.
pub fn figures(journal: &[u8], adjacency: &[u8]) -> ReplicaAnswer {
    unsafe {
        exports::replica_figures(
            journal.as_ptr(),
            journal.len(),
            adjacency.as_ptr(),
            adjacency.len(),
        )
    }
}
