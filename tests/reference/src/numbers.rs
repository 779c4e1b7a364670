//! The fifteen entries answering as the C interface does: in numbers, the first 0 when the call did
//! its work, else the refusal's number with its places in the second and third. Adding an edge answers
//! with nine, all others with six.

use crate::switching::Switch;
use crate::{join_record, Figures, Refused, Take};
use std::fmt;
use std::ops::Deref;

/// number, first, second, third, fourth, fifth
pub type Six = [u64; 6];

/// number, first, second, a1, b1, t1, a2, b2, t2
pub type Nine = [u64; 9];

/// The numbers of any answer, read as a slice.
#[derive(Clone, Copy, PartialEq, Eq)]
pub enum Numbers {
    Six(Six),
    Nine(Nine),
}

impl Deref for Numbers {
    type Target = [u64];

    fn deref(&self) -> &[u64] {
        match self {
            Numbers::Six(numbers) => numbers,
            Numbers::Nine(numbers) => numbers,
        }
    }
}

impl<const N: usize> PartialEq<[u64; N]> for Numbers {
    fn eq(&self, other: &[u64; N]) -> bool {
        self[..] == other[..]
    }
}

/// A refusal: its number and its places, and 0 in all others.
impl PartialEq<Refused> for Numbers {
    fn eq(&self, refused: &Refused) -> bool {
        match self {
            Numbers::Six(numbers) => *numbers == refusal(*refused),
            Numbers::Nine(numbers) => *numbers == refusal(*refused),
        }
    }
}

impl fmt::Debug for Numbers {
    fn fmt(&self, f: &mut fmt::Formatter<'_>) -> fmt::Result {
        self[..].fmt(f)
    }
}

/// The refusal's number and its two places; 0 in all others.
pub fn refusal<const N: usize>(refused: Refused) -> [u64; N] {
    let mut numbers = [0; N];
    numbers[..3].copy_from_slice(&[refused.number, refused.first, refused.second]);
    numbers
}

fn six(answer: Result<[u64; 5], Refused>) -> Six {
    match answer {
        Ok([first, second, third, fourth, fifth]) => [0, first, second, third, fourth, fifth],
        Err(refused) => refusal(refused),
    }
}

/// How many switches there are, then their triples; 255 for one that was not needed, as in the
/// records.
fn nine(answer: Result<Vec<Switch>, Refused>) -> Nine {
    let switches = match answer {
        Ok(switches) => switches,
        Err(refused) => return refusal(refused),
    };
    let mut numbers = [u64::from(join_record::UNUSED); 9];
    numbers[..3].copy_from_slice(&[0, switches.len() as u64, 0]);
    for (triple, switch) in numbers[3..].chunks_mut(3).zip(switches) {
        triple.copy_from_slice(&[switch.a, switch.b, switch.t].map(|vertex| vertex as u64));
    }
    numbers
}

pub fn clear(journal: &mut [u8], adjacency: &mut [u8], log: &mut [u8]) -> Six {
    six(crate::clear(journal, adjacency, log).map(|()| [0; 5]))
}

pub fn take_block(journal: &mut [u8], adjacency: &[u8], number: u64, block: &[u8]) -> Six {
    six(
        crate::take_block(journal, adjacency, number, block).map(|take| match take {
            Take::Taken(next) => [0, next, 0, 0, 0],
            Take::Held => [1, 0, 0, 0, 0],
        }),
    )
}

pub fn held_block(journal: &[u8], adjacency: &[u8], number: u64) -> Six {
    six(crate::held_block(journal, adjacency, number)
        .map(|(offset, length)| [offset, length, 0, 0, 0]))
}

pub fn lay_out(journal: &mut [u8], adjacency: &[u8]) -> Six {
    six(crate::lay_out(journal, adjacency).map(|vertices| [vertices, 0, 0, 0, 0]))
}

pub fn add_edge(journal: &[u8], adjacency: &mut [u8], log: &mut [u8], v: u64, w: u64) -> Nine {
    nine(crate::add_edge(journal, adjacency, log, v, w))
}

pub fn remove_edge(journal: &[u8], adjacency: &mut [u8], log: &mut [u8], v: u64, w: u64) -> Six {
    six(crate::remove_edge(journal, adjacency, log, v, w).map(|()| [0; 5]))
}

pub fn swap_edges(journal: &[u8], adjacency: &mut [u8], log: &mut [u8], named: [u64; 4]) -> Six {
    six(crate::swap_edges(journal, adjacency, log, named).map(|()| [0; 5]))
}

pub fn undo_swap(journal: &[u8], adjacency: &mut [u8], log: &mut [u8]) -> Six {
    six(crate::undo_swap(journal, adjacency, log).map(|()| [0; 5]))
}

pub fn complete(journal: &[u8], adjacency: &mut [u8], log: &mut [u8], output: &mut [u8]) -> Six {
    six(crate::complete(journal, adjacency, log, output)
        .map(|done| [done.joins, done.switches, done.written, 0, 0]))
}

pub fn complete_shuffled(
    journal: &[u8],
    adjacency: &mut [u8],
    log: &mut [u8],
    x: u32,
    output: &mut [u8],
) -> Six {
    let answer = crate::complete_shuffled(journal, adjacency, log, x, output);
    six(answer.map(|(done, last)| {
        let last = u64::from(last);
        [done.joins, done.switches, done.written, last, 0]
    }))
}

pub fn edge_list(journal: &[u8], adjacency: &[u8], output: &mut [u8]) -> Six {
    six(crate::edge_list(journal, adjacency, output).map(|length| [length, 0, 0, 0, 0]))
}

pub fn jdm_of_edges(edges: &[u8], total: u64, output: &mut [u8]) -> Six {
    six(crate::jdm_of_edges(edges, total, output).map(|length| [length, 0, 0, 0, 0]))
}

pub fn graph6_write(edges: &[u8], total: u64, output: &mut [u8]) -> Six {
    six(crate::graph6_write(edges, total, output).map(|length| [length, 0, 0, 0, 0]))
}

pub fn graph6_read(text: &[u8], output: &mut [u8]) -> Six {
    six(crate::graph6_read(text, output).map(|(length, total)| [length, total, 0, 0, 0]))
}

pub fn figures(journal: &[u8], adjacency: &[u8]) -> Six {
    let numbers = |f: Figures| [f.phase, f.blocks, f.vertices, f.edges_wanted, f.edges_laid];
    six(crate::figures(journal, adjacency).map(numbers))
}
