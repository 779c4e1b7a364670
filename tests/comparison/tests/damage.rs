//! States in phase 0 with one byte damaged, place by place: every entry that checks validity refuses
//! what is not valid, and changes nothing.

use comparison::both::Both;
use comparison::call::{on_library, Call, Completing, Memory};
use reference::journal::{record, slot_start};
use reference::{refused, validity, ADJACENCY_BYTES, JOURNAL_BYTES, LOG_BYTES};

/// A call of each entry that checks validity. On a valid state none of them is refused with 2.
fn calls() -> [Call; 11] {
    let (v, w) = (0, 1);
    [
        Call::TakeBlock {
            number: 0,
            block: record(1, 1, 2).to_vec(),
        },
        Call::HeldBlock { number: 0 },
        Call::LayOut,
        Call::AddEdge { v, w },
        Call::RemoveEdge { v, w },
        Call::SwapEdges([0, 1, 2, 3]),
        Call::UndoSwap,
        Call::Complete { output: vec![9; 8] },
        Completing::Shuffled(9).call(vec![9; 8]),
        Call::EdgeList { output: vec![9; 8] },
        Call::Figures,
    ]
}

/// Empty blocks, which are of no records: the first, two between and the last.
const WITH_EMPTY: [usize; 6] = [0, 2, 0, 0, 5, 0];

/// States in phase 0: no block, blocks of three lengths, empty ones among others, and a full journal.
fn states() -> Vec<Both> {
    let full: Vec<usize> = (0..64).map(|i| 1 + i % 16).collect();
    let plans = [&[][..], &[1, 3, 16], &WITH_EMPTY, &full];
    plans.map(state).into()
}

/// A state in phase 0 with blocks of so many records.
fn state(plan: &[usize]) -> Both {
    let mut both = Both::new("damage");
    for (number, &records) in (0..).zip(plan) {
        // Every second block is of isolated vertices.
        let degree = number as usize % 2;
        let block = record(1 - degree, 1 - degree, 2).repeat(records);
        let answer = both.call(Call::TakeBlock { number, block });
        assert_eq!(answer[..2], [0, 0]);
    }
    both
}

/// Every byte of the matrix must be 0: each in turn is not, the first and the last among them.
#[test]
fn every_byte_of_the_matrix() {
    for both in states() {
        let mut calls = calls().map(|call| (lent(&both, &call), call));
        for place in 0..ADJACENCY_BYTES {
            for (memory, call) in &mut calls {
                memory.adjacency[place] = [1, 2, 128, 255][place % 4];
                let numbers = on_library(call, memory.slices());
                assert_eq!(numbers, refused(2), "byte {place}, {call:?}");
                memory.adjacency[place] = 0;
            }
        }
        assert!(calls
            .iter()
            .all(|(memory, call)| *memory == lent(&both, call)));
    }
}

/// Every byte of the log must be 0 too, for the calls that are lent it.
#[test]
fn every_byte_of_the_log() {
    for both in states() {
        for call in calls().iter().filter(|call| call.entry().is_lent_log()) {
            let before = lent(&both, call);
            let mut memory = before.clone();
            for place in 0..LOG_BYTES {
                memory.log[place] = [1, 2, 4, 255][place % 4];
                let numbers = on_library(call, memory.slices());
                assert_eq!(numbers, refused(2), "byte {place}, {call:?}");
                memory.log[place] = 0;
            }
            assert!(memory == before, "{call:?}");
        }
    }
}

/// The bytes of a state for a call.
fn lent(both: &Both, call: &Call) -> Memory {
    Memory::of(&both.journal, &both.adjacency, &both.log, call)
}

/// The same through the comparison, on some of the bytes and on pairs that mirror each other.
#[test]
fn bytes_of_the_matrix_on_both_sides() {
    let last = ADJACENCY_BYTES - 1;
    for mut both in states() {
        let places = (0..ADJACENCY_BYTES).step_by(997);
        for place in places.chain([1, 199, 200, last - 200, last - 1, last]) {
            let mut adjacency = both.adjacency.clone();
            adjacency[place] = 1;
            adjacency[place % 200 * 200 + place / 200] = 1;
            for call in calls() {
                let answer = both.call_on(both.journal.clone(), adjacency.clone(), call);
                assert_eq!(answer, refused(2), "byte {place}");
            }
        }
    }
}

/// Every byte of the journal is another one. Some of these journals are valid: other counts, other
/// degrees, one empty block more where the count of blocks is raised over a zero slot. The reference
/// says which, and behind the blocks none is.
#[test]
fn every_byte_of_the_journal() {
    for mut both in states() {
        let blocks = both.journal[1] as usize;
        let (mut valid, mut refused) = (0, 0);
        for place in 0..JOURNAL_BYTES {
            // A length of 4 becomes 0, with a record still behind it; one of 0 becomes 4.
            for byte in [both.journal[place] ^ 1, both.journal[place] ^ 4, 255] {
                let mut journal = both.journal.clone();
                journal[place] = byte;
                let expected = validity::valid(&journal, &both.adjacency);
                let behind = place >= slot_start(blocks);
                assert!(
                    !(behind && expected),
                    "the reference lets byte {place} pass"
                );
                for call in calls() {
                    let answer = both.call_on(journal.clone(), both.adjacency.clone(), call);
                    assert_eq!(answer[0] != 2, expected, "byte {place}");
                }
                *if expected { &mut valid } else { &mut refused } += 1;
            }
        }
        assert!(refused > 0 && valid > 0);
    }
}

/// Only the count of blocks tells an empty block from an unused slot. Any count is valid from the last
/// block with records to 64, laid out or not.
#[test]
fn every_count_of_blocks() {
    let mut last = vec![0; 64];
    last[63] = 1;
    let plans: [(&[usize], u8); 5] = [
        (&[], 0),
        (&[1], 1),
        (&WITH_EMPTY, 5),
        (&[0; 64], 0),
        (&last, 64),
    ];
    for (plan, least) in plans {
        let mut both = state(plan);
        for (phase, count) in (0..=255).flat_map(|count| [(0, count), (1, count)]) {
            both.journal[..2].copy_from_slice(&[phase, count]);
            let expected = (least..=64).contains(&count);
            for call in calls() {
                let answer = both.call_on(both.journal.clone(), both.adjacency.clone(), call);
                assert_eq!(answer[0] != 2, expected, "phase {phase}, {count} blocks");
            }
        }
    }
}
