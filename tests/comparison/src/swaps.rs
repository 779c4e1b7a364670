//! Swaps and takings-back (document 02, P8): played onto the bytes of before by a player that knows
//! no rule; what every call leaves of the log; and swaps that are allowed, found by a search.

use crate::both::Both;
use crate::call::{Call, Memory};
use crate::tables::take_all;
use reference::graphs;
use reference::numbers::Numbers;
use reference::random::Random;
use reference::swapping::{self, Swap};
use reference::{adjacency, journal, log, player, validity};
use reference::{LOG_BYTES, MAX_SWAPS};

named_counts! {
    /// Swaps, takings-back and logs, by kind.
    Swaps {
        /// Swaps by the log they came into.
        into_empty: "into an empty log",
        further: "behind others",
        filling: "the 1,024th",
        /// Takings-back by the log they left.
        back: "taken back",
        emptying: "the only one taken back",
        /// Logs with swaps in them that were emptied.
        by_adding: "emptied by adding",
        by_removing: "emptied by removing",
        by_completing: "emptied by completing",
        by_shuffled: "emptied by completing shuffled",
        by_clearing: "emptied by clearing",
        /// Logs with swaps in them that were kept.
        nothing_missing: "kept, nothing missing",
        refused: "kept by a refusal",
        /// Swaps refused with 23, by the first of these reasons.
        twice: "a vertex twice",
        absent: "an edge not there",
        present: "an edge there already",
        degrees: "other degrees",
        /// Valid states refused with 2 for their log, by the first of these reasons.
        taking: "a log before laying out",
        too_many: "a count above 1,024",
        behind: "a byte behind the records",
        no_vertex: "a record of no vertex",
        not_undone: "swaps that cannot be undone",
    }
}

fn is_zero(bytes: &[u8]) -> bool {
    bytes.iter().all(|&byte| byte == 0)
}

impl Swaps {
    /// Counts a call, and follows matrix and log from the bytes of before: they are as they must be
    /// after, or it is said what is wrong.
    pub fn follow(
        &mut self,
        call: &Call,
        numbers: &Numbers,
        before: &Memory,
        after: &Memory,
    ) -> Result<(), String> {
        if !call.entry().is_lent_log() {
            return Ok(());
        }
        match (call, numbers[0]) {
            (Call::SwapEdges(named), 0) => self.swapped(named, before, after),
            (Call::UndoSwap, 0) => self.taken_back(before, after),
            (Call::Clear, 0) => {
                self.by_clearing += u64::from(!is_zero(&before.log));
                Ok(())
            }
            (_, 0) => self.changed(call, before, after),
            (_, number) => {
                self.refusal(call, number, before);
                Ok(())
            }
        }
    }

    fn swapped(&mut self, named: &[u64], before: &Memory, after: &Memory) -> Result<(), String> {
        let record: Vec<u8> = named.iter().map(|&vertex| vertex as u8).collect();
        match log::count(&after.log) {
            1 => self.into_empty += 1,
            MAX_SWAPS => self.filling += 1,
            _ => self.further += 1,
        }
        rewired(&record, &before.adjacency, after)?;
        one_more(&record, &before.log, &after.log)
    }

    fn taken_back(&mut self, before: &Memory, after: &Memory) -> Result<(), String> {
        match log::count(&after.log) {
            0 => self.emptying += 1,
            _ => self.back += 1,
        }
        let record = last_record(&before.log);
        let &[a, b, c, d] = record else {
            return Err("there was no swap in the log".to_string());
        };
        rewired(&[a, d, c, b], &before.adjacency, after)?;
        one_more(record, &after.log, &before.log)
    }

    /// Adding, removing and completing: where the matrix is another one, the log is empty; else it
    /// is the same.
    fn changed(&mut self, call: &Call, before: &Memory, after: &Memory) -> Result<(), String> {
        let altered = before.adjacency != after.adjacency;
        if !is_zero(&before.log) {
            *match call {
                _ if !altered => &mut self.nothing_missing,
                Call::AddEdge { .. } => &mut self.by_adding,
                Call::RemoveEdge { .. } => &mut self.by_removing,
                Call::Complete { .. } => &mut self.by_completing,
                _ => &mut self.by_shuffled,
            } += 1;
        }
        match altered {
            true if !is_zero(&after.log) => Err("the log was not emptied".to_string()),
            false if after.log != before.log => Err("the log changed, not the edges".to_string()),
            _ => Ok(()),
        }
    }

    fn refusal(&mut self, call: &Call, number: u64, before: &Memory) {
        if number > 2 {
            self.refused += u64::from(!is_zero(&before.log));
        }
        match (call, number) {
            (Call::SwapEdges(named), 23) => {
                *self.not_allowed(named.map(|vertex| vertex as usize), &before.adjacency) += 1;
            }
            (_, 2) if !is_zero(&before.log) => {
                let (journal, adjacency) = (&before.journal, &before.adjacency);
                if validity::valid(journal, adjacency) {
                    *self.bad_log(journal, &before.log) += 1;
                }
            }
            _ => {}
        }
    }

    fn not_allowed(&mut self, [a, b, c, d]: [usize; 4], adjacency: &[u8]) -> &mut u64 {
        let joined = |v, w| adjacency::joined(adjacency, v, w);
        if a == b || a == c || a == d || b == c || b == d || c == d {
            &mut self.twice
        } else if !joined(a, b) || !joined(c, d) {
            &mut self.absent
        } else if joined(a, d) || joined(b, c) {
            &mut self.present
        } else {
            &mut self.degrees
        }
    }

    fn bad_log(&mut self, journal: &[u8], log: &[u8]) -> &mut u64 {
        if journal::phase(journal) == journal::TAKING {
            return &mut self.taking;
        }
        let count = log::count(log);
        let vertices = journal::summed_table(journal).vertex_count();
        if count > MAX_SWAPS {
            &mut self.too_many
        } else if !is_zero(&log[2 + 4 * count..]) {
            &mut self.behind
        } else if log::records(log).iter().any(|&v| u64::from(v) >= vertices) {
            &mut self.no_vertex
        } else {
            &mut self.not_undone
        }
    }
}

fn last_record(log: &[u8]) -> &[u8] {
    log::records(log).rchunks(4).next().unwrap_or(&[])
}

/// The record played onto the matrix of before gives that of after, with the degrees and, counted
/// at the degrees laid out, the cells of before.
fn rewired(record: &[u8], before: &[u8], after: &Memory) -> Result<(), String> {
    let mut played = before.to_vec();
    player::play_swaps(record, &mut played).map_err(|(_, fault)| format!("{fault:?}"))?;
    if played != after.adjacency {
        return Err("the swap, played, gives other edges".to_string());
    }
    let degrees = |adjacency: &[u8]| -> Vec<usize> {
        let ends = |row: &[u8]| row.iter().map(|&byte| usize::from(byte)).sum();
        adjacency.chunks(200).map(ends).collect()
    };
    let laid = journal::summed_table(&after.journal).degrees();
    let cells = |adjacency| adjacency::counted_at(adjacency, &laid);
    if degrees(before) != degrees(&after.adjacency) || cells(before) != cells(&after.adjacency) {
        return Err("the swap changed a degree or a cell".to_string());
    }
    Ok(())
}

/// The longer log is the shorter one with this record behind the others.
fn one_more(record: &[u8], shorter: &[u8], longer: &[u8]) -> Result<(), String> {
    let count = log::count(shorter);
    let place = 2 + 4 * count..6 + 4 * count;
    let mut expected = shorter.to_vec();
    expected[..2].copy_from_slice(&(count as u16 + 1).to_le_bytes());
    expected[place.clone()].copy_from_slice(record);
    match is_zero(&shorter[place]) && expected == longer {
        true => Ok(()),
        false => Err("the log has not one swap more or less".to_string()),
    }
}

/// The matrix that a log began with, and the matrix after the last call.
#[derive(Clone)]
pub struct Began {
    adjacency: Vec<u8>,
    now: Vec<u8>,
}

impl Began {
    /// A matrix without swaps.
    pub fn with(adjacency: &[u8]) -> Began {
        Began::before(adjacency, adjacency)
    }

    /// A matrix that swaps have made another one.
    pub fn before(adjacency: &[u8], now: &[u8]) -> Began {
        Began {
            adjacency: adjacency.to_vec(),
            now: now.to_vec(),
        }
    }

    /// After any call: a log begins anew where the matrix changed by no swap and no taking-back.
    /// Replayed, it gives the matrix as it is now.
    pub fn after(&mut self, call: &Call, adjacency: &[u8], log: &[u8]) {
        let swap = matches!(call, Call::SwapEdges(_) | Call::UndoSwap);
        if !swap && self.now != adjacency {
            self.adjacency = adjacency.to_vec();
        }
        self.now = adjacency.to_vec();
        let mut played = self.adjacency.clone();
        player::play_swaps(log::records(log), &mut played).expect("a log that can be played");
        assert!(played == adjacency, "the log, played, gives other edges");
    }
}

/// First edges that are tried, each with all others.
const FIRST: usize = 40;

/// A swap that is allowed and that these vertices may take part in, if one is found.
pub fn any_allowed_among(
    adjacency: &[u8],
    degrees: &[usize],
    may: impl Fn(usize) -> bool,
    random: &mut Random,
) -> Option<Swap> {
    let mut edges = adjacency::edges(adjacency);
    edges.retain(|&(v, w)| may(v) && may(w));
    for _ in 0..FIRST {
        if edges.is_empty() {
            return None;
        }
        let first = *random.pick(&edges);
        let (a, b) = random.either_way(first);
        let from = random.below(edges.len());
        for &edge in edges[from..].iter().chain(&edges[..from]) {
            let (c, d) = random.either_way(edge);
            let found = [Swap::new(a, b, c, d), Swap::new(a, b, d, c)];
            let allowed = |swap: &&Swap| swapping::allowed(adjacency, degrees, **swap);
            if let Some(&swap) = found.iter().find(allowed) {
                return Some(swap);
            }
        }
    }
    None
}

/// The same among all vertices.
pub fn any_allowed(adjacency: &[u8], degrees: &[usize], random: &mut Random) -> Option<Swap> {
    any_allowed_among(adjacency, degrees, |_| true, random)
}

/// Two edges that are there, either way round, whether they can be swapped or not.
pub fn any_edges(adjacency: &[u8], random: &mut Random) -> Option<Swap> {
    let edges = adjacency::edges(adjacency);
    if edges.is_empty() {
        return None;
    }
    let (first, second) = (*random.pick(&edges), *random.pick(&edges));
    let ((a, b), (c, d)) = (random.either_way(first), random.either_way(second));
    Some(Swap::new(a, b, c, d))
}

/// The call that makes a swap.
pub fn swap_call(swap: Swap) -> Call {
    Call::SwapEdges(swap.vertices().map(|vertex| vertex as u64))
}

/// A log with one thing changed, which may be valid still.
pub fn spoil(log: &[u8], vertices: usize, random: &mut Random) -> Vec<u8> {
    let mut spoiled = log.to_vec();
    let count = log::count(log).min(MAX_SWAPS);
    let behind = 2 + 4 * count;
    let place = match random.below(8) {
        0 => 0,
        1 => 1,
        2 | 3 if count > 0 => random.between(2, behind - 1),
        4 if behind < LOG_BYTES => behind + random.below(LOG_BYTES - behind).min(7),
        5 => LOG_BYTES - 1,
        6 => {
            let many = *random.pick(&[MAX_SWAPS + 1, 2 * MAX_SWAPS, 65_535]);
            log::set_count(&mut spoiled, many);
            return spoiled;
        }
        7 if count > 0 => {
            // The first swap is forgotten: the others can still be undone.
            spoiled[2..].rotate_left(4);
            spoiled[behind - 4..].fill(0);
            log::set_count(&mut spoiled, count - 1);
            return spoiled;
        }
        _ => random.below(LOG_BYTES),
    };
    spoiled[place] = match random.below(4) {
        0 => spoiled[place].wrapping_add(1),
        1 => spoiled[place].wrapping_sub(1),
        2 => random.below(vertices + 1) as u8,
        _ => random.byte(),
    };
    spoiled
}

/// How many swaps a log has before the first call of a run.
const BEFORE: [usize; 7] = [0, 0, 1, 5, 100, MAX_SWAPS - 3, MAX_SWAPS];

/// Swaps and takings-back from a part of a random graph of up to so many vertices or from all of
/// it: the log replayed gives the matrix after every call, and all can be taken back.
pub fn run(seed: u64, most: usize, both: &mut Both) {
    let mut random = Random::new(seed);
    let graph = graphs::any(most, &mut random).by_rising_degree();
    let degrees = graph.degrees();
    take_all(&graph.table(), &mut random, both);
    assert_eq!(both.call(Call::LayOut)[..2], [0, degrees.len() as u64]);
    both.adjacency = graph.adjacency();
    let removed = *random.pick(&[0, 0, 20]);
    for &(v, w) in graph.edges() {
        if random.chance(removed) {
            adjacency::remove(&mut both.adjacency, v, w);
        }
    }
    let start = both.adjacency.clone();
    swap_before(*random.pick(&BEFORE), &degrees, &mut random, both);
    let mut began = Began::before(&start, &both.adjacency);
    for _ in 0..random.between(10, 40) {
        let next = next_call(&degrees, &mut random, both);
        if random.chance(20) {
            let log = spoil(&both.log, degrees.len(), &mut random);
            both.call_with(log, next.clone());
        }
        both.call(next.clone());
        began.after(&next, &both.adjacency, &both.log);
    }
    while log::count(&both.log) > MAX_BY_CALLS {
        let swap = Swap::of(last_record(&both.log));
        swapping::make(&mut both.adjacency, swap.back());
        log::pop(&mut both.log);
    }
    for left in (0..log::count(&both.log)).rev() {
        assert_eq!(both.call(Call::UndoSwap)[0], 0);
        assert_eq!(log::count(&both.log), left);
    }
    assert!(both.adjacency == start, "taken back, other edges");
}

/// Takings-back of a run beyond these are made on the bytes, to save time.
const MAX_BY_CALLS: usize = 40;

/// Swaps on the bytes alone, so many if as many are found.
fn swap_before(times: usize, degrees: &[usize], random: &mut Random, both: &mut Both) {
    for _ in 0..times {
        if let Some(swap) = any_allowed(&both.adjacency, degrees, random) {
            swapping::make(&mut both.adjacency, swap);
            log::push(&mut both.log, swap);
        }
    }
}

/// Mostly a swap that is allowed or a taking-back.
fn next_call(degrees: &[usize], random: &mut Random, both: &Both) -> Call {
    let found = match random.below(10) {
        0..=4 => any_allowed(&both.adjacency, degrees, random),
        5 => any_edges(&both.adjacency, random),
        6 => {
            let mut any = || random.below(degrees.len() + 1);
            Some(Swap::new(any(), any(), any(), any()))
        }
        _ => None,
    };
    found.map_or(Call::UndoSwap, swap_call)
}

#[cfg(test)]
mod tests {
    use super::*;
    use reference::ADJACENCY_BYTES;

    /// Two edges of degree 1, swapped and back, and bytes that say otherwise.
    #[test]
    fn wrong_logs_and_matrices_are_noticed() {
        let swap = Call::SwapEdges([0, 1, 2, 3]);
        let memory = |edges: &[(usize, usize)], start: &[u8]| {
            let mut bytes = vec![0; ADJACENCY_BYTES];
            edges
                .iter()
                .for_each(|&(v, w)| adjacency::insert(&mut bytes, v, w));
            let mut log = log::empty();
            log[..start.len()].copy_from_slice(start);
            let journal = [&[1, 1, 4, 1, 1, 4, 0][..], &[0; 4155]].concat();
            Memory::of(&journal, &bytes, &log, &swap)
        };
        let follow = |call: &Call, before: &Memory, after: &Memory| {
            Swaps::default().follow(call, &Numbers::Six([0; 6]), before, after)
        };
        let before = memory(&[(0, 1), (2, 3)], &[]);
        let after = memory(&[(0, 3), (1, 2)], &[1, 0, 0, 1, 2, 3]);
        assert_eq!(follow(&swap, &before, &after), Ok(()));
        assert_eq!(follow(&Call::UndoSwap, &after, &before), Ok(()));
        for log in [&[][..], &[1, 0, 0, 1, 3, 2], &[2, 0, 0, 1, 2, 3]] {
            let wrong = memory(&[(0, 3), (1, 2)], log);
            assert!(follow(&swap, &before, &wrong).is_err());
        }
        let other = memory(&[(0, 2), (1, 3)], &[1, 0, 0, 1, 2, 3]);
        assert!(follow(&swap, &before, &other).is_err());
        let left = memory(&[(0, 1), (2, 3)], &[0, 0, 0, 1, 2, 3]);
        assert!(follow(&Call::UndoSwap, &after, &left).is_err());
        let add = Call::AddEdge { v: 0, w: 1 };
        let kept = memory(&[(0, 1)], &[1, 0, 0, 1, 2, 3]);
        assert!(follow(&add, &after, &kept).is_err());
        let emptied = memory(&[(0, 3), (1, 2)], &[]);
        assert!(follow(&add, &after, &emptied).is_err());
        let emptied = memory(&[(0, 1)], &[]);
        assert_eq!(follow(&add, &after, &emptied), Ok(()));
    }
}
