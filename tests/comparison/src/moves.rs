//! What the library says has moved: played onto the bytes of before by a player that knows nothing of
//! switching, and counted by kind.

use crate::call::{room, Call, Memory};
use reference::join_record::{LENGTH, UNUSED};
use reference::numbers::Numbers;
use reference::player;

named_counts! {
    /// Joins by the switches they took, and completions by the room they had.
    Moves {
        /// Joins without a switch.
        plain: "no switch",
        /// Joins with one, of the first named vertex.
        first: "of the first",
        /// Joins with one, of the second named vertex.
        second: "of the second",
        /// Joins with two.
        both: "of both",
        /// Switches that gave an edge to the other named vertex.
        to_other: "to the other",
        /// Completions of some edges with just the room they need.
        just_enough: "just enough room",
        /// Completions of some edges with more.
        more: "more room",
        /// Completions of nothing without any output.
        none: "no room needed",
        /// Completions refused for a single byte.
        a_byte_short: "a byte short",
    }
}

impl Moves {
    /// Counts one record, whose switches are the first vertex's before the second's.
    fn joined(&mut self, record: &[u8]) {
        let (v, w, a1, a2) = (record[0], record[1], record[2], record[5]);
        let kind = match (a1, a2) {
            (UNUSED, UNUSED) => &mut self.plain,
            (a, UNUSED) if a == v => &mut self.first,
            (a, UNUSED) if a == w => &mut self.second,
            (a, other) if a == v && other == w => &mut self.both,
            _ => panic!("{record:?} has a switch of neither vertex"),
        };
        *kind += 1;
        let to_other = |(a, b)| (a, b) == (v, w) || (a, b) == (w, v);
        let switches = [(a1, record[3]), (a2, record[6])];
        self.to_other += switches.into_iter().filter(|&ends| to_other(ends)).count() as u64;
    }

    /// Counts one completion that was not refused, by its output.
    fn completed(&mut self, joins: u64, output: usize) {
        match joins as usize * LENGTH {
            0 if output == 0 => self.none += 1,
            0 => {}
            written if written == output => self.just_enough += 1,
            _ => self.more += 1,
        }
    }

    /// Counts a call, and plays what it says has moved onto the bytes of before: they become the
    /// bytes of after, or it is said what is wrong.
    pub fn follow(
        &mut self,
        call: &Call,
        numbers: &Numbers,
        before: &Memory,
        after: &Memory,
    ) -> Result<(), String> {
        let (records, switches) = match (call, numbers[0]) {
            (Call::AddEdge { v, w }, 0) => (record_of(*v, *w, numbers), numbers[1]),
            (Call::Complete { output } | Call::CompleteShuffled { output, .. }, 0) => {
                self.completed(numbers[1], output.len());
                (after.output[..numbers[3] as usize].to_vec(), numbers[2])
            }
            (Call::Complete { output } | Call::CompleteShuffled { output, .. }, 18) => {
                let needed = room(&before.journal, &before.adjacency);
                self.a_byte_short += u64::from(output.len() + 1 == needed);
                return Ok(());
            }
            _ => return Ok(()),
        };
        let mut played = before.adjacency.clone();
        player::play(&records, &mut played)
            .map_err(|(index, fault)| format!("record {index}: {fault:?}"))?;
        if played != after.adjacency {
            return Err("what moved, played, gives other edges".to_string());
        }
        let records = records.chunks(LENGTH);
        records.clone().for_each(|record| self.joined(record));
        let told = |record: &[u8]| record[2..].chunks(3).filter(|t| t[0] != UNUSED).count();
        if records.map(told).sum::<usize>() as u64 != switches {
            return Err("another number of switches than was answered".to_string());
        }
        Ok(())
    }
}

/// The record of a join by hand: the pair as named, and the triples of its answer.
fn record_of(v: u64, w: u64, numbers: &Numbers) -> Vec<u8> {
    let byte = |&number: &u64| u8::try_from(number).expect("a vertex or 255");
    [v, w].iter().chain(&numbers[3..]).map(byte).collect()
}

#[cfg(test)]
mod tests {
    use super::*;
    use reference::{adjacency, ADJACENCY_BYTES};

    /// A join of 0 and 3 for which 0-2 went and 1-2 came, and answers that say otherwise.
    #[test]
    fn wrong_moves_are_noticed() {
        let call = Call::AddEdge { v: 0, w: 3 };
        let memory = |edges: &[(usize, usize)]| {
            let mut bytes = vec![0; ADJACENCY_BYTES];
            for &(v, w) in edges {
                adjacency::insert(&mut bytes, v, w);
            }
            Memory::of(&[], &bytes, &[], &call)
        };
        let follow = |switches, triples: [u64; 6], before: &[_], after: &[_]| {
            let mut numbers = [0, switches, 0, 0, 0, 0, 0, 0, 0];
            numbers[3..].copy_from_slice(&triples);
            let numbers = Numbers::Nine(numbers);
            Moves::default().follow(&call, &numbers, &memory(before), &memory(after))
        };
        let one = [0, 1, 2, 255, 255, 255];
        let (before, after) = ([(0, 1), (0, 2)], [(0, 1), (0, 3), (1, 2)]);
        assert_eq!(follow(1, one, &before, &after), Ok(()));
        assert!(follow(2, one, &before, &after).is_err());
        assert!(follow(0, one, &before, &after).is_err());
        assert!(follow(0, [255; 6], &before, &after).is_err());
        assert!(follow(1, [0, 1, 3, 255, 255, 255], &before, &after).is_err());
        assert!(follow(1, [255, 255, 255, 0, 1, 2], &before, &after).is_err());
        assert!(follow(1, one, &before, &before).is_err());
        assert!(follow(1, one, &after, &after).is_err());
    }
}
