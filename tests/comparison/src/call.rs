//! One call of an entry, with all it is given besides journal, adjacency and log.

use reference::join_record;
use reference::numbers::{self, Numbers};
use reference::random::Random;
use reference::shuffling::stepped;
use std::fmt;

/// The fifteen entries.
#[derive(Clone, Copy, Debug, PartialEq, Eq)]
pub enum Entry {
    Clear,
    TakeBlock,
    HeldBlock,
    LayOut,
    AddEdge,
    RemoveEdge,
    SwapEdges,
    UndoSwap,
    Complete,
    CompleteShuffled,
    EdgeList,
    JdmOfEdges,
    Graph6Write,
    Graph6Read,
    Figures,
}

impl Entry {
    pub const ALL: [Entry; 15] = [
        Entry::Clear,
        Entry::TakeBlock,
        Entry::HeldBlock,
        Entry::LayOut,
        Entry::AddEdge,
        Entry::RemoveEdge,
        Entry::SwapEdges,
        Entry::UndoSwap,
        Entry::Complete,
        Entry::CompleteShuffled,
        Entry::EdgeList,
        Entry::JdmOfEdges,
        Entry::Graph6Write,
        Entry::Graph6Read,
        Entry::Figures,
    ];

    pub fn name(self) -> &'static str {
        match self {
            Entry::Clear => "clear",
            Entry::TakeBlock => "take_block",
            Entry::HeldBlock => "held_block",
            Entry::LayOut => "lay_out",
            Entry::AddEdge => "add_edge",
            Entry::RemoveEdge => "remove_edge",
            Entry::SwapEdges => "swap_edges",
            Entry::UndoSwap => "undo_swap",
            Entry::Complete => "complete",
            Entry::CompleteShuffled => "complete_shuffled",
            Entry::EdgeList => "edge_list",
            Entry::JdmOfEdges => "jdm_of_edges",
            Entry::Graph6Write => "graph6_write",
            Entry::Graph6Read => "graph6_read",
            Entry::Figures => "figures",
        }
    }

    /// The refusals that concern the entry, in the order of its checks.
    pub fn refusals(self) -> &'static [usize] {
        match self {
            Entry::Clear => &[1],
            Entry::TakeBlock => &[1, 2, 4, 5, 6, 7, 3, 8],
            Entry::HeldBlock => &[1, 2, 6],
            Entry::LayOut => &[1, 2, 3, 9, 10, 11, 12],
            Entry::AddEdge => &[1, 2, 3, 13, 14, 15, 16],
            Entry::RemoveEdge => &[1, 2, 3, 13, 14, 17],
            Entry::SwapEdges => &[1, 2, 3, 13, 23, 24],
            Entry::UndoSwap => &[1, 2, 3, 25],
            Entry::Complete | Entry::CompleteShuffled => &[1, 2, 3, 18],
            Entry::EdgeList => &[1, 2, 3, 18],
            Entry::JdmOfEdges => &[19, 20, 18],
            Entry::Graph6Write => &[19, 18],
            Entry::Graph6Read => &[22, 21, 18],
            Entry::Figures => &[1, 2],
        }
    }

    /// Whether it is lent the log, and so the matrix to write.
    pub fn is_lent_log(self) -> bool {
        matches!(
            self,
            Entry::Clear
                | Entry::AddEdge
                | Entry::RemoveEdge
                | Entry::SwapEdges
                | Entry::UndoSwap
                | Entry::Complete
                | Entry::CompleteShuffled
        )
    }
}

/// One call. Outputs are given with the bytes they hold beforehand.
#[derive(Clone, PartialEq, Eq)]
pub enum Call {
    Clear,
    TakeBlock {
        number: u64,
        block: Vec<u8>,
    },
    HeldBlock {
        number: u64,
    },
    LayOut,
    AddEdge {
        v: u64,
        w: u64,
    },
    RemoveEdge {
        v: u64,
        w: u64,
    },
    /// The vertices a, b, c, d.
    SwapEdges([u64; 4]),
    UndoSwap,
    Complete {
        output: Vec<u8>,
    },
    CompleteShuffled {
        x: u32,
        output: Vec<u8>,
    },
    EdgeList {
        output: Vec<u8>,
    },
    JdmOfEdges {
        edges: Vec<u8>,
        total: u64,
        output: Vec<u8>,
    },
    Graph6Write {
        edges: Vec<u8>,
        total: u64,
        output: Vec<u8>,
    },
    Graph6Read {
        text: Vec<u8>,
        output: Vec<u8>,
    },
    Figures,
}

impl Call {
    pub fn entry(&self) -> Entry {
        match self {
            Call::Clear => Entry::Clear,
            Call::TakeBlock { .. } => Entry::TakeBlock,
            Call::HeldBlock { .. } => Entry::HeldBlock,
            Call::LayOut => Entry::LayOut,
            Call::AddEdge { .. } => Entry::AddEdge,
            Call::RemoveEdge { .. } => Entry::RemoveEdge,
            Call::SwapEdges(_) => Entry::SwapEdges,
            Call::UndoSwap => Entry::UndoSwap,
            Call::Complete { .. } => Entry::Complete,
            Call::CompleteShuffled { .. } => Entry::CompleteShuffled,
            Call::EdgeList { .. } => Entry::EdgeList,
            Call::JdmOfEdges { .. } => Entry::JdmOfEdges,
            Call::Graph6Write { .. } => Entry::Graph6Write,
            Call::Graph6Read { .. } => Entry::Graph6Read,
            Call::Figures => Entry::Figures,
        }
    }

    /// The bytes the call reads besides journal, adjacency and log.
    pub fn input(&self) -> &[u8] {
        match self {
            Call::TakeBlock { block, .. } => block,
            Call::JdmOfEdges { edges, .. } | Call::Graph6Write { edges, .. } => edges,
            Call::Graph6Read { text, .. } => text,
            _ => &[],
        }
    }

    /// The bytes of its output before the call.
    pub fn output(&self) -> &[u8] {
        match self {
            Call::Complete { output }
            | Call::CompleteShuffled { output, .. }
            | Call::EdgeList { output }
            | Call::JdmOfEdges { output, .. }
            | Call::Graph6Write { output, .. }
            | Call::Graph6Read { output, .. } => output,
            _ => &[],
        }
    }
}

impl fmt::Debug for Call {
    fn fmt(&self, f: &mut fmt::Formatter<'_>) -> fmt::Result {
        write!(f, "{}", self.entry().name())?;
        match self {
            Call::TakeBlock { number, block } => write!(f, "({number}, {block:?})"),
            Call::HeldBlock { number } => write!(f, "({number})"),
            Call::AddEdge { v, w } | Call::RemoveEdge { v, w } => write!(f, "({v}, {w})"),
            Call::SwapEdges(named) => write!(f, "{named:?}"),
            Call::Complete { output } | Call::EdgeList { output } => {
                write!(f, "({} bytes)", output.len())
            }
            Call::CompleteShuffled { x, output } => write!(f, "({x}, {} bytes)", output.len()),
            Call::JdmOfEdges {
                edges,
                total,
                output,
            }
            | Call::Graph6Write {
                edges,
                total,
                output,
            } => write!(f, "({edges:?}, total {total}, {} bytes)", output.len()),
            Call::Graph6Read { text, output } => {
                write!(f, "(b\"{}\", {} bytes)", text.escape_ascii(), output.len())
            }
            _ => Ok(()),
        }
    }
}

/// The two ways to complete a state: by the lowest open pair, or by open pairs that numbers choose,
/// from this one on.
#[derive(Clone, Copy, Debug, PartialEq, Eq)]
pub enum Completing {
    Lowest,
    Shuffled(u32),
}

impl Completing {
    /// Either of them.
    pub fn any(random: &mut Random) -> Completing {
        if random.chance(50) {
            Completing::Lowest
        } else {
            Completing::any_shuffled(random)
        }
    }

    /// From any number, the least and the most among them.
    pub fn any_shuffled(random: &mut Random) -> Completing {
        Completing::Shuffled(match random.below(10) {
            0 => 0,
            1 => u32::MAX,
            _ => random.any() as u32,
        })
    }

    pub fn call(self, output: Vec<u8>) -> Call {
        match self {
            Completing::Lowest => Call::Complete { output },
            Completing::Shuffled(x) => Call::CompleteShuffled { x, output },
        }
    }

    /// The answer to so many joins with so many switches: of numbers that choose, the last one is in it.
    pub fn answer(self, joins: u64, switches: u64) -> [u64; 6] {
        let last = match self {
            Completing::Lowest => 0,
            Completing::Shuffled(x) => stepped(x, joins as usize),
        };
        let written = join_record::LENGTH as u64 * joins;
        [0, joins, switches, written, last.into(), 0]
    }
}

/// The bytes that completing needs for its records: 8 for each edge wanted and not laid. None where
/// the bytes are no valid state.
pub fn room(journal: &[u8], adjacency: &[u8]) -> usize {
    match reference::figures(journal, adjacency) {
        Ok(figures) => join_record::LENGTH * (figures.edges_wanted - figures.edges_laid) as usize,
        Err(_) => 0,
    }
}

/// An output about as long as needed, filled with any bytes.
pub fn any_output(needed: usize, random: &mut Random) -> Vec<u8> {
    let length = match random.below(8) {
        0 => 0,
        1 => needed.saturating_sub(1),
        2 => needed.saturating_sub(4),
        3 => random.below(needed + 1),
        4 => needed + random.between(1, 70),
        _ => needed,
    };
    random.bytes(length)
}

/// All bytes lent to a call.
#[derive(Clone, Debug, PartialEq, Eq)]
pub struct Memory {
    pub journal: Vec<u8>,
    pub adjacency: Vec<u8>,
    pub log: Vec<u8>,
    pub input: Vec<u8>,
    pub output: Vec<u8>,
}

impl Memory {
    /// Copies, as they are before the call.
    pub fn of(journal: &[u8], adjacency: &[u8], log: &[u8], call: &Call) -> Memory {
        Memory {
            journal: journal.to_vec(),
            adjacency: adjacency.to_vec(),
            log: log.to_vec(),
            input: call.input().to_vec(),
            output: call.output().to_vec(),
        }
    }

    pub fn slices(&mut self) -> Slices<'_> {
        Slices {
            journal: &mut self.journal,
            adjacency: &mut self.adjacency,
            log: &mut self.log,
            input: &self.input,
            output: &mut self.output,
        }
    }
}

/// What a call is lent, each call only the part that concerns it.
pub struct Slices<'a> {
    pub journal: &'a mut [u8],
    pub adjacency: &'a mut [u8],
    pub log: &'a mut [u8],
    pub input: &'a [u8],
    pub output: &'a mut [u8],
}

/// Makes the call on the library.
pub fn on_library(call: &Call, lent: Slices) -> Numbers {
    use replica::raw;
    let Slices {
        journal,
        adjacency,
        log,
        input,
        output,
    } = lent;
    let answer = match *call {
        Call::Clear => raw::clear(journal, adjacency, log),
        Call::TakeBlock { number, .. } => raw::take_block(journal, adjacency, number, input),
        Call::HeldBlock { number } => raw::held_block(journal, adjacency, number),
        Call::LayOut => raw::lay_out(journal, adjacency),
        Call::AddEdge { v, w } => {
            return Numbers::Nine(raw::add_edge(journal, adjacency, log, v, w).numbers());
        }
        Call::RemoveEdge { v, w } => raw::remove_edge(journal, adjacency, log, v, w),
        Call::SwapEdges([a, b, c, d]) => raw::swap_edges(journal, adjacency, log, a, b, c, d),
        Call::UndoSwap => raw::undo_swap(journal, adjacency, log),
        Call::Complete { .. } => raw::complete(journal, adjacency, log, output),
        Call::CompleteShuffled { x, .. } => {
            raw::complete_shuffled(journal, adjacency, log, x, output)
        }
        Call::EdgeList { .. } => raw::edge_list(journal, adjacency, output),
        Call::JdmOfEdges { total, .. } => raw::jdm_of_edges(input, total, output),
        Call::Graph6Write { total, .. } => raw::graph6_write(input, total, output),
        Call::Graph6Read { .. } => raw::graph6_read(input, output),
        Call::Figures => raw::figures(journal, adjacency),
    };
    Numbers::Six(answer.numbers())
}

/// Makes the call on the reference.
pub fn on_reference(call: &Call, lent: Slices) -> Numbers {
    let Slices {
        journal,
        adjacency,
        log,
        input,
        output,
    } = lent;
    Numbers::Six(match *call {
        Call::Clear => numbers::clear(journal, adjacency, log),
        Call::TakeBlock { number, .. } => numbers::take_block(journal, adjacency, number, input),
        Call::HeldBlock { number } => numbers::held_block(journal, adjacency, number),
        Call::LayOut => numbers::lay_out(journal, adjacency),
        Call::AddEdge { v, w } => {
            return Numbers::Nine(numbers::add_edge(journal, adjacency, log, v, w));
        }
        Call::RemoveEdge { v, w } => numbers::remove_edge(journal, adjacency, log, v, w),
        Call::SwapEdges(named) => numbers::swap_edges(journal, adjacency, log, named),
        Call::UndoSwap => numbers::undo_swap(journal, adjacency, log),
        Call::Complete { .. } => numbers::complete(journal, adjacency, log, output),
        Call::CompleteShuffled { x, .. } => {
            numbers::complete_shuffled(journal, adjacency, log, x, output)
        }
        Call::EdgeList { .. } => numbers::edge_list(journal, adjacency, output),
        Call::JdmOfEdges { total, .. } => numbers::jdm_of_edges(input, total, output),
        Call::Graph6Write { total, .. } => numbers::graph6_write(input, total, output),
        Call::Graph6Read { .. } => numbers::graph6_read(input, output),
        Call::Figures => numbers::figures(journal, adjacency),
    })
}
