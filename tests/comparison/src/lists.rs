//! Long random call lists: blocks new, resent and spoiled, layings-out, joins, removals, swaps,
//! takings-back and completions in any order, surveys and graph6 between them, damaged journals,
//! matrices and logs, outputs too short, just long enough and longer.

use crate::blocks::{self, Size};
use crate::both::Both;
use crate::call::{any_output, room, Call, Completing};
use crate::swaps::{self, Began};
use crate::texts::text_length;
use crate::{edge_lists, exchange};
use reference::graphs;
use reference::random::Random;
use reference::shuffling::open_pairs;
use reference::swapping::{all_undone, Swap};
use reference::{adjacency, journal, log, validity, Matrix};
use reference::{ADJACENCY_BYTES, JOURNAL_BYTES, LOG_BYTES, MAX_VERTICES};
use replica::MAX_GRAPH6_BYTES;

/// The isolated vertices and 820 cells: no survey writes more.
const MAX_RECORDS_BYTES: usize = 4 * 821;
/// 4,000 edges: no completion writes more.
const MAX_JOIN_RECORDS_BYTES: usize = 8 * 4_000;

/// Runs the call list of this seed.
pub fn run(seed: u64, size: Size, both: &mut Both) {
    let mut random = Random::new(seed);
    let plan = blocks::plan(size, &mut random);
    // About every second step takes the next block.
    let steps = 3 * plan.len() + random.between(30, 100);
    let sent = Some(Vec::new());
    let began = Began::with(&both.adjacency);
    let seen = log::empty();
    let mut list = List {
        random,
        plan,
        both,
        sent,
        began,
        seen,
    };
    for _ in 0..steps {
        list.step();
    }
    // Whatever the list left behind, its end is a full one if it can be.
    list.call(Call::LayOut);
    let output = list.random.bytes(MAX_JOIN_RECORDS_BYTES);
    let completing = Completing::any(&mut list.random);
    list.call(completing.call(output));
    list.list_edges();
    list.read_all_back();
    list.both.count.call_lists += 1;
}

struct List<'a> {
    random: Random,
    plan: Vec<Vec<u8>>,
    both: &'a mut Both,
    /// The blocks answered as taken since the last clear; none after a damage that stayed.
    sent: Option<Vec<Vec<u8>>>,
    /// The matrix that the log began with.
    began: Began,
    /// A log that this list had at some time.
    seen: Vec<u8>,
}

/// What joins, removals and swaps are chosen from, in a valid laid state.
struct Laid {
    degrees: Vec<usize>,
    wanted: Matrix,
    counted: Matrix,
}

fn edge_bytes(edges: &[(usize, usize)]) -> Vec<u8> {
    edges
        .iter()
        .flat_map(|&(v, w)| [v as u8, w as u8])
        .collect()
}

impl List<'_> {
    fn step(&mut self) {
        match self.random.below(100) {
            0..=2 => self.damage(),
            3..=4 => self.other_lengths(),
            5 if self.random.chance(30) => {
                self.call(Call::Clear);
            }
            _ => self.ordinary(),
        }
    }

    /// Makes the call, and compares what the journal holds with what was sent, and the matrix with
    /// what the log says.
    fn call(&mut self, call: Call) {
        let numbers = self.both.call(call.clone());
        if numbers[0] != 0 {
            return;
        }
        if call.entry().is_lent_log() {
            let (adjacency, log) = (&self.both.adjacency, &self.both.log);
            self.began.after(&call, adjacency, log);
        }
        match (call, &mut self.sent) {
            (Call::Clear, sent) => *sent = Some(Vec::new()),
            (Call::TakeBlock { block, .. }, Some(sent)) if numbers[1] == 0 => sent.push(block),
            (Call::TakeBlock { number, block }, Some(sent)) => {
                assert_eq!(
                    sent.get(number as usize),
                    Some(&block),
                    "held, but not sent"
                );
            }
            (Call::HeldBlock { number }, Some(sent)) => {
                let block = sent.get(number as usize).expect("held, but not sent");
                self.both.compare_held(&numbers, number, block);
            }
            (Call::LayOut, _) => self.read_all_back(),
            _ => {}
        }
    }

    /// Every block lies in the journal as it was sent.
    fn read_all_back(&mut self) {
        for (number, block) in (0..).zip(self.sent.iter().flatten()) {
            self.both.read_back(number, block);
        }
    }

    /// A call that fits the phase, most of the time.
    fn ordinary(&mut self) {
        let laid = self.both.journal[0] == journal::LAID;
        let fits = self.random.chance(90);
        let call = if laid == fits {
            self.when_laid()
        } else {
            self.when_taking()
        };
        self.call(call);
    }

    fn when_taking(&mut self) -> Call {
        let blocks = journal::block_count(&self.both.journal);
        match self.random.below(20) {
            0..=9 if blocks < self.plan.len() => self.next_block(),
            0..=9 => Call::LayOut,
            10..=15 => self.other_block(),
            16 => Call::LayOut,
            _ => self.at_any_time(),
        }
    }

    fn when_laid(&mut self) -> Call {
        // Joins and removals empty a log: once there is one, it mostly grows.
        if log::count(&self.both.log) > 0 && self.random.chance(60) {
            return self.swap_or_back();
        }
        match self.random.below(22) {
            0..=8 => self.join(),
            9..=13 => self.removal(),
            14 => self.completion(),
            15 => self.other_block(),
            16 if self.random.chance(30) => Call::LayOut,
            17..=18 => self.swap_or_back(),
            _ => self.at_any_time(),
        }
    }

    /// A taking-back, or a swap, which mostly is allowed.
    fn swap_or_back(&mut self) -> Call {
        if self.random.chance(5) {
            self.seen.clone_from(&self.both.log);
        }
        let empty = log::count(&self.both.log) == 0;
        let found = match self.random.below(10) {
            0..=2 if !empty => return Call::UndoSwap,
            3 => return Call::UndoSwap,
            4 => None,
            5 => swaps::any_edges(&self.both.adjacency, &mut self.random),
            _ => self.allowed_swap(),
        };
        let Some(swap) = found else {
            return Call::SwapEdges(self.any_four());
        };
        let mut named = swap.vertices().map(|vertex| vertex as u64);
        if self.random.chance(10) {
            let vertices = self.laid().map_or(0, |laid| laid.degrees.len());
            named[self.random.below(4)] = self.vertex_number(vertices);
        }
        Call::SwapEdges(named)
    }

    fn allowed_swap(&mut self) -> Option<Swap> {
        let laid = self.laid()?;
        swaps::any_allowed(&self.both.adjacency, &laid.degrees, &mut self.random)
    }

    fn any_four(&mut self) -> [u64; 4] {
        let ((a, b), (c, d)) = (self.any_pair(), self.any_pair());
        [a, b, c, d]
    }

    fn at_any_time(&mut self) -> Call {
        match self.random.below(6) {
            0 => Call::Figures,
            1 => Call::HeldBlock {
                number: self.block_number(),
            },
            2 => self.edge_list(),
            3 => self.jdm_of_edges(),
            4 => self.graph6_write(),
            _ => self.graph6_read(),
        }
    }

    /// The block of the plan whose turn it is.
    fn next_block(&self) -> Call {
        let blocks = journal::block_count(&self.both.journal);
        Call::TakeBlock {
            number: blocks as u64,
            block: self.plan[blocks].clone(),
        }
    }

    /// A block that is resent, spoiled, out of turn, empty, or not of the plan.
    fn other_block(&mut self) -> Call {
        let number = self.block_number();
        let planned = match usize::try_from(number) {
            Ok(number) if number < self.plan.len() => self.plan[number].clone(),
            _ => vec![1, 1, 2, 0],
        };
        let block = match self.random.below(9) {
            0..=2 => planned,
            3..=5 => blocks::spoil(&planned, &mut self.random),
            6 => blocks::any_block(3, 2, &mut self.random),
            7 => Vec::new(),
            _ => {
                let length = self.random.below(80);
                self.random.bytes(length)
            }
        };
        Call::TakeBlock { number, block }
    }

    /// Mostly a number around those in the journal.
    fn block_number(&mut self) -> u64 {
        let blocks = journal::block_count(&self.both.journal) as u64;
        match self.random.below(10) {
            0..=4 if blocks > 0 => self.random.any() % blocks,
            0..=6 => blocks,
            7 => blocks + 1,
            8 => self.random.below(70) as u64,
            _ => self.wild_number(),
        }
    }

    /// A number that a careless multiplication or cast would take for a good one.
    fn wild_number(&mut self) -> u64 {
        match self.random.below(6) {
            0 => u64::MAX,
            1 => 1 << 32,
            2 => u64::MAX - self.random.below(70) as u64,
            3 => 256 * self.random.between(1, 4) as u64,
            4 => (1 << self.random.between(8, 63)) + self.random.below(4) as u64,
            _ => self.random.any(),
        }
    }

    fn join(&mut self) -> Call {
        if self.random.chance(70) {
            if let Some((v, w)) = self.short_pair() {
                let turned = self.random.chance(50);
                let (v, w) = if turned { (w, v) } else { (v, w) };
                return Call::AddEdge { v, w };
            }
        }
        let (v, w) = self.any_pair();
        Call::AddEdge { v, w }
    }

    fn removal(&mut self) -> Call {
        let edges = match self.laid() {
            Some(_) => adjacency::edges(&self.both.adjacency),
            None => Vec::new(),
        };
        let (v, w) = if edges.is_empty() || self.random.chance(25) {
            self.any_pair()
        } else {
            let &(v, w) = self.random.pick(&edges);
            (v as u64, w as u64)
        };
        if self.random.chance(50) {
            return Call::RemoveEdge { v: w, w: v };
        }
        Call::RemoveEdge { v, w }
    }

    fn laid(&self) -> Option<Laid> {
        let (journal, adjacency) = (&self.both.journal, &self.both.adjacency);
        if !validity::valid(journal, adjacency) || journal::phase(journal) != journal::LAID {
            return None;
        }
        let table = journal::summed_table(journal);
        let degrees = table.degrees();
        let counted = adjacency::counted_at(adjacency, &degrees);
        Some(Laid {
            degrees,
            wanted: table.matrix,
            counted,
        })
    }

    /// A pair that is not joined and whose cell is short.
    fn short_pair(&mut self) -> Option<(u64, u64)> {
        let laid = self.laid()?;
        let adjacency = &self.both.adjacency;
        let pairs = open_pairs(adjacency, &laid.degrees, &laid.counted, &laid.wanted);
        let pairs: Vec<(usize, usize)> = pairs.collect();
        if pairs.is_empty() {
            return None;
        }
        let &(v, w) = self.random.pick(&pairs);
        Some((v as u64, w as u64))
    }

    /// Any two numbers, mostly of vertices.
    fn any_pair(&mut self) -> (u64, u64) {
        let vertices = self.laid().map_or(0, |laid| laid.degrees.len());
        let v = self.vertex_number(vertices);
        let w = if self.random.chance(10) {
            v
        } else {
            self.vertex_number(vertices)
        };
        (v, w)
    }

    fn vertex_number(&mut self, vertices: usize) -> u64 {
        match self.random.below(20) {
            0 => self.wild_number(),
            1 => vertices as u64,
            2 => self.random.below(256) as u64,
            _ if vertices > 0 => self.random.below(vertices) as u64,
            _ => 0,
        }
    }

    /// In either way, with room for its records or without.
    fn completion(&mut self) -> Call {
        let needed = room(&self.both.journal, &self.both.adjacency);
        let output = any_output(needed, &mut self.random);
        Completing::any(&mut self.random).call(output)
    }

    fn edge_list(&mut self) -> Call {
        let edges = adjacency::edges(&self.both.adjacency).len();
        Call::EdgeList {
            output: any_output(2 * edges, &mut self.random),
        }
    }

    /// Edges, whole or spoiled, and a total that fits them or not.
    fn edges_and_total(&mut self) -> (Vec<u8>, u64) {
        let mut edges = self.some_edges();
        if self.random.chance(40) {
            edge_lists::spoil(&mut edges, &mut self.random);
        }
        let total = self.total(&edges);
        (edges, total)
    }

    fn jdm_of_edges(&mut self) -> Call {
        let (edges, total) = self.edges_and_total();
        let mut probe = vec![0; MAX_RECORDS_BYTES];
        let needed = reference::jdm_of_edges(&edges, total, &mut probe).unwrap_or(0);
        let output = any_output(needed as usize, &mut self.random);
        Call::JdmOfEdges {
            edges,
            total,
            output,
        }
    }

    fn graph6_write(&mut self) -> Call {
        let (edges, total) = self.edges_and_total();
        let needed = text_length(total.min(MAX_VERTICES as u64) as usize);
        let output = any_output(needed, &mut self.random);
        Call::Graph6Write {
            edges,
            total,
            output,
        }
    }

    /// The text of such edges, whole or spoiled; where they have none, their bytes.
    fn graph6_read(&mut self) -> Call {
        let (edges, total) = self.edges_and_total();
        let mut text = vec![0; MAX_GRAPH6_BYTES];
        let length = reference::graph6_write(&edges, total, &mut text);
        text.truncate(length.unwrap_or(0) as usize);
        if text.is_empty() {
            text.clone_from(&edges);
        }
        if self.random.chance(40) {
            text = exchange::spoil(&text, &mut self.random);
        }
        Call::Graph6Read {
            text,
            output: any_output(edges.len(), &mut self.random),
        }
    }

    /// The state's vertices, about as many as the list names, about 200, or any number.
    fn total(&mut self, edges: &[u8]) -> u64 {
        let named = edges.iter().max().map_or(0, |&vertex| vertex as u64 + 1);
        match self.random.below(12) {
            0 | 1 => self.laid().map_or(0, |laid| laid.degrees.len()) as u64,
            2..=4 => named,
            5 => named.saturating_sub(1),
            6 => named + self.random.below(4) as u64,
            7 => self.random.below(named as usize + 1) as u64,
            8 => *self.random.pick(&[0, 1, 199, 200, 201]),
            9 => self.wild_number(),
            _ => self.random.between(named.min(200) as usize, MAX_VERTICES) as u64,
        }
    }

    /// The edges of the state, of a random graph, of a graph with high degrees, or any bytes.
    fn some_edges(&mut self) -> Vec<u8> {
        match self.random.below(9) {
            0..=2 => edge_bytes(&adjacency::edges(&self.both.adjacency)),
            3..=4 => graphs::any(60, &mut self.random).edge_list(),
            5..=7 => edge_lists::high_degrees(&mut self.random).edge_list(),
            _ => {
                let length = self.random.below(40);
                self.random.bytes(length)
            }
        }
    }

    fn list_edges(&mut self) {
        let output = self.random.bytes(8_000);
        self.both.call(Call::EdgeList { output });
        let length = adjacency::edges(&self.both.adjacency).len() * 2;
        if self.both.output.len() >= length {
            let edges = self.both.output[..length].to_vec();
            let total = self.total(&edges);
            let output = self.random.bytes(MAX_RECORDS_BYTES);
            self.both.call(Call::JdmOfEdges {
                edges: edges.clone(),
                total,
                output,
            });
            let output = self.random.bytes(MAX_GRAPH6_BYTES);
            self.both.call(Call::Graph6Write {
                edges,
                total,
                output,
            });
        }
    }

    /// One call on a journal, an adjacency matrix or a log of another length.
    fn other_lengths(&mut self) {
        if self.random.chance(30) {
            self.other_log_length();
            return;
        }
        let journal_length = *self.random.pick(&[0, 1, JOURNAL_BYTES - 1, JOURNAL_BYTES]);
        let adjacency_length = match journal_length {
            JOURNAL_BYTES => *self.random.pick(&[0, 200, ADJACENCY_BYTES - 1]),
            _ => ADJACENCY_BYTES,
        };
        let (mut journal, mut adjacency) = (self.both.journal.clone(), self.both.adjacency.clone());
        if self.random.chance(40) {
            journal.push(0);
        } else if self.random.chance(40) {
            adjacency.push(0);
        } else {
            journal.truncate(journal_length);
            adjacency.truncate(adjacency_length);
        }
        if self.random.chance(30) && !journal.is_empty() {
            // Not valid either: the lengths come first.
            journal[0] = 9;
        }
        let call = match self.random.below(10) {
            0 => Call::Clear,
            1 => self.other_block(),
            2 => Call::HeldBlock { number: 0 },
            3 => Call::LayOut,
            4 => Call::AddEdge { v: 0, w: 1 },
            5 => Call::RemoveEdge { v: 0, w: 1 },
            6 => self.completion(),
            7 => Call::EdgeList {
                output: self.random.bytes(9),
            },
            _ => Call::Figures,
        };
        self.both.call_on(journal, adjacency, call);
    }

    fn other_log_length(&mut self) {
        let mut log = self.both.log.clone();
        let length = *self
            .random
            .pick(&[0, 1, 2, LOG_BYTES - 4, LOG_BYTES - 1, LOG_BYTES + 1]);
        log.resize(length, 0);
        let call = self.lent_log();
        self.both.call_with(log, call);
    }

    /// A call that is lent the log.
    fn lent_log(&mut self) -> Call {
        match self.random.below(7) {
            0 => Call::Clear,
            1 => self.join(),
            2 => self.removal(),
            3 | 4 => self.swap_or_back(),
            5 => Call::UndoSwap,
            _ => self.completion(),
        }
    }

    /// Changes some bytes, makes some calls, and puts the bytes back unless they are valid again.
    fn damage(&mut self) {
        let journal = self.both.journal.clone();
        let adjacency = self.both.adjacency.clone();
        let log = self.both.log.clone();
        let began = self.began.clone();
        let sent = self.sent.take();
        for _ in 0..self.random.between(1, 2) {
            match self.random.below(3) {
                0 => self.damage_journal(),
                1 => self.damage_adjacency(),
                _ => self.damage_log(),
            }
        }
        self.begin_anew();
        self.both.call(Call::Figures);
        let call = self.lent_log();
        self.call(call);
        for _ in 0..self.random.below(8) {
            self.ordinary();
        }
        if !self.valid() || self.random.chance(50) {
            self.both.journal = journal;
            self.both.adjacency = adjacency;
            self.both.log = log;
            self.began = began;
            self.sent = sent;
        }
    }

    fn valid(&self) -> bool {
        let (journal, adjacency) = (&self.both.journal, &self.both.adjacency);
        validity::valid(journal, adjacency)
            && validity::log_valid(journal, adjacency, &self.both.log)
    }

    /// The matrix that a damaged log begins with, if it is valid.
    fn begin_anew(&mut self) {
        let (adjacency, log) = (&self.both.adjacency, &self.both.log);
        let undone = match self.laid() {
            Some(laid) if self.valid() => all_undone(adjacency, &laid.degrees, log),
            _ => None,
        };
        self.began = Began::before(undone.as_ref().unwrap_or(adjacency), adjacency);
    }

    /// One thing changed, or a log that this list had before.
    fn damage_log(&mut self) {
        let vertices = self.laid().map_or(3, |laid| laid.degrees.len());
        self.both.log = match self.random.below(6) {
            0 => self.seen.clone(),
            _ => swaps::spoil(&self.both.log, vertices, &mut self.random),
        };
    }

    fn damage_journal(&mut self) {
        let blocks = journal::block_count(&self.both.journal);
        let slot = self.random.below(blocks.clamp(1, 64));
        let start = journal::slot_start(slot);
        let place = match self.random.below(8) {
            0 => 0,
            1 => 1,
            2 => start,
            3 => start + 1 + self.random.below(8),
            4 => start + self.random.below(65),
            5 => journal::slot_start(blocks.min(63)) + self.random.below(65),
            6 => JOURNAL_BYTES - 1,
            _ => self.random.below(JOURNAL_BYTES),
        };
        let byte = &mut self.both.journal[place];
        *byte = match self.random.below(4) {
            0 => byte.wrapping_add(1),
            1 => byte.wrapping_sub(1),
            2 => *self.random.pick(&[0, 1, 4, 40, 41, 64, 65, 68]),
            _ => self.random.byte(),
        };
    }

    fn damage_adjacency(&mut self) {
        let vertices = self.laid().map_or(3, |laid| laid.degrees.len().max(2));
        let v = self.random.below(vertices);
        let w = self.random.below(vertices);
        let far = self.random.between(vertices.min(199), 199);
        let bytes = &mut self.both.adjacency;
        match self.random.below(8) {
            0..=2 if v != w => adjacency::insert(bytes, v, w),
            3 if v != w => adjacency::remove(bytes, v, w),
            4 => bytes[adjacency::place(v, w)] ^= 1,
            5 => {
                let byte = self.random.byte();
                bytes[adjacency::place(v, w)] = byte;
                bytes[adjacency::place(w, v)] = byte;
            }
            6 => bytes[adjacency::place(v, v)] = 1,
            7 => adjacency::insert(bytes, v, far),
            _ => bytes[self.random.below(ADJACENCY_BYTES)] ^= 1,
        }
    }
}
