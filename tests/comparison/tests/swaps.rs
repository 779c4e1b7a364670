//! Swaps, and taking them back (document 02, P8): the order of checks, each reason against a swap,
//! all swaps of small states, full logs, logs damaged byte by byte and logs of other states, and
//! what empties a log. Mixes on random states are among the jobs of `compare`.

use comparison::both::Both;
use comparison::call::{on_library, room, Call, Completing, Memory};
use comparison::swaps::{any_allowed, swap_call, Began};
use comparison::tables::take_all;
use reference::graphs::{self, from_bits, Graph};
use reference::random::Random;
use reference::search::{partial_graphs, realizations_by_table};
use reference::swapping::{self, Swap};
use reference::{adjacency, log, refused, validity, Table, LOG_BYTES, MAX_SWAPS};

const DONE: [u64; 6] = [0; 6];

/// Laid out for this table, with these edges.
fn laid(label: &str, table: &Table, edges: &[(usize, usize)]) -> Both {
    let mut both = Both::new(label);
    take_all(table, &mut Random::new(1), &mut both);
    let vertices = table.vertex_count();
    assert_eq!(both.call(Call::LayOut), [0, vertices, 0, 0, 0, 0]);
    for &(v, w) in edges {
        adjacency::insert(&mut both.adjacency, v, w);
    }
    both
}

/// Laid out for the table of a graph that is numbered by rising degree, with all its edges.
fn laid_as(label: &str, graph: &Graph) -> Both {
    let edges: Vec<_> = graph.edges().iter().copied().collect();
    laid(label, &graph.table(), &edges)
}

fn swap(both: &mut Both, a: u64, b: u64, c: u64, d: u64) -> u64 {
    let answer = both.call(Call::SwapEdges([a, b, c, d]));
    assert_eq!(answer[1..], [0; 5]);
    answer[0]
}

fn undo(both: &mut Both) -> u64 {
    let answer = both.call(Call::UndoSwap);
    assert_eq!(answer[1..], [0; 5]);
    answer[0]
}

/// Two edges of degree 1, behind an isolated vertex.
fn two_edges() -> Both {
    laid("two edges", &Table::of(&[(1, 1, 4)], 1), &[(1, 2), (3, 4)])
}

/// The log of these records.
fn log_of(records: &[[u8; 4]]) -> Vec<u8> {
    let mut log = log::empty();
    for record in records {
        log::push(&mut log, Swap::of(record));
    }
    log
}

#[test]
fn a_swap_and_back() {
    let mut both = two_edges();
    let before = both.adjacency.clone();
    assert_eq!(swap(&mut both, 1, 2, 3, 4), 0);
    assert_eq!(adjacency::edges(&both.adjacency), [(1, 4), (2, 3)]);
    assert_eq!(both.log, log_of(&[[1, 2, 3, 4]]));
    assert_eq!(both.call(Call::Figures)[3..], [5, 2, 2]);
    assert_eq!(swap(&mut both, 4, 1, 2, 3), 0);
    assert_eq!(both.log, log_of(&[[1, 2, 3, 4], [4, 1, 2, 3]]));
    assert_eq!(undo(&mut both), 0);
    assert_eq!(both.log, log_of(&[[1, 2, 3, 4]]));
    assert_eq!(undo(&mut both), 0);
    assert!(both.adjacency == before && both.log == log::empty());
    assert_eq!(undo(&mut both), 25);
}

/// Vertices 0 to 3 have degree 1, 4 to 6 degree 2.
fn tree_and_path() -> Both {
    let edges = [(0, 4), (1, 5), (2, 6), (3, 6), (4, 5)];
    let table = Table::of(&[(1, 2, 4), (2, 2, 2)], 0);
    laid("tree and path", &table, &edges)
}

/// An edge that is not there, vertices that are the same, other degrees, a new edge that is there:
/// each alone where it can be. Equal vertices are 23, not 14.
#[test]
fn each_reason_against_a_swap() {
    let mut both = tree_and_path();
    for (a, b, c, d) in [
        (0, 5, 2, 6),
        (0, 4, 2, 5),
        (4, 0, 5, 4),
        (5, 4, 4, 0),
        (2, 6, 3, 6),
        (4, 0, 4, 5),
        (0, 4, 4, 0),
        (0, 4, 0, 4),
        (4, 0, 2, 6),
    ] {
        assert_eq!(swap(&mut both, a, b, c, d), 23, "{a} {b} {c} {d}");
    }
    for v in 0..7 {
        assert_eq!(swap(&mut both, v, v, v, v), 23);
    }
    let edges = [(0, 1), (1, 2), (2, 3)];
    let mut path = laid("path", &Table::of(&[(2, 2, 8)], 0), &edges);
    assert_eq!(swap(&mut path, 0, 1, 2, 3), 23);
    assert_eq!(swap(&mut path, 1, 0, 3, 2), 23);
    // The state is not complete: that is not needed.
    assert_eq!(swap(&mut path, 0, 1, 3, 2), 0);
}

/// 1 before 2 before 3 before 13 before 23 before 24; 1, 2, 3, 25.
#[test]
fn order_of_the_checks() {
    let mut both = two_edges();
    for number in 0..MAX_SWAPS {
        let (b, d) = if number % 2 == 0 { (2, 4) } else { (4, 2) };
        log::push(&mut both.log, Swap::new(1, b, 3, d));
    }
    let numbers = [5, 6, 199, 200, 255, 256, 1 << 32, u64::MAX];
    for (number, place) in numbers
        .into_iter()
        .flat_map(|n| (0..4).map(move |i| (n, i)))
    {
        let mut named = [1, 2, 3, 4];
        named[place] = number;
        assert_eq!(both.call(Call::SwapEdges(named)), refused(13));
        assert_eq!(both.call(Call::SwapEdges([number; 4])), refused(13));
    }
    assert_eq!(swap(&mut both, 1, 4, 3, 2), 23);
    assert_eq!(swap(&mut both, 1, 1, 1, 1), 23);
    assert_eq!(swap(&mut both, 1, 2, 3, 4), 24);
    let mut taking = both.journal.clone();
    taking[0] = 0;
    let (full, wild) = (both.log.clone(), Call::SwapEdges([9; 4]));
    let matrices = [vec![0; both.adjacency.len()], both.adjacency.clone()];
    for wild in [wild, Call::UndoSwap] {
        for (adjacency, log) in matrices.iter().zip([&full, &log::empty()]) {
            let answer = |both: &mut Both, journal: &[u8], log: &[u8]| {
                let (adjacency, call) = (adjacency.clone(), wild.clone());
                both.call_on_all(journal.to_vec(), adjacency, log.to_vec(), call)
            };
            assert_eq!(answer(&mut both, &taking, &log[1..]), refused(1));
            assert_eq!(answer(&mut both, &taking[1..], log), refused(1));
            assert_eq!(answer(&mut both, &taking, log), refused(2));
        }
        let [empty, _] = &matrices;
        let answer = both.call_on_all(taking.clone(), empty.clone(), log::empty(), wild);
        assert_eq!(answer, refused(3));
    }
    let answer = both.call_with(log::empty(), Call::UndoSwap);
    assert_eq!(answer, refused(25));
}

/// Of 1,000 swaps that are not allowed so many are tried on so many vertices.
const SHARES: [usize; 6] = [1_000, 1_000, 1_000, 1_000, 100, 5];

/// Every state that a table of up to 5 vertices can be in, and any four numbers up to one too high:
/// on the library alone, which does what the rule says, and takes it back.
#[test]
fn all_swaps_of_small_states() {
    let mut random = Random::new(5);
    let (mut made, mut refused) = (0, 0);
    for (table, _) in (0..=5).flat_map(realizations_by_table) {
        let both = laid("small states", &table, &[]);
        let degrees = table.degrees();
        let share = SHARES[degrees.len()];
        for bits in partial_graphs(&table) {
            let adjacency = from_bits(degrees.len(), bits).adjacency();
            let before = Memory::of(&both.journal, &adjacency, &both.log, &Call::UndoSwap);
            let mut memory = before.clone();
            for swap in any_four(degrees.len() + 1) {
                let allowed = swapping::allowed(&adjacency, &degrees, swap);
                if allowed || random.below(1_000) < share {
                    try_swap(swap, allowed, degrees.len(), &mut memory);
                    assert!(memory == before, "{swap:?}");
                    *if allowed { &mut made } else { &mut refused } += 1;
                }
            }
        }
    }
    println!("{made} swaps, {refused} refused");
    assert!(made > 10_000 && refused > 10_000);
}

/// All swaps of numbers below this one.
fn any_four(below: usize) -> impl Iterator<Item = Swap> {
    let digits = move |number| [0, 1, 2, 3].map(|i| number / below.pow(i) % below);
    (0..below.pow(4)).map(move |number| {
        let [a, b, c, d] = digits(number);
        Swap::new(a, b, c, d)
    })
}

/// Makes the swap on the library and takes it back, or sees it refused.
fn try_swap(swap: Swap, allowed: bool, vertices: usize, memory: &mut Memory) {
    if !allowed {
        let below = swap.vertices().iter().all(|&v| v < vertices);
        let number = if below { 23 } else { 13 };
        let answer = on_library(&swap_call(swap), memory.slices());
        assert_eq!(answer, refused(number), "{swap:?}");
        return;
    }
    let mut expected = memory.clone();
    swapping::make(&mut expected.adjacency, swap);
    log::push(&mut expected.log, swap);
    assert_eq!(on_library(&swap_call(swap), memory.slices()), DONE);
    assert!(*memory == expected, "{swap:?}");
    assert_eq!(on_library(&Call::UndoSwap, memory.slices()), DONE);
}

/// So many swaps, any of those that are allowed.
fn swap_often(both: &mut Both, degrees: &[usize], times: usize, random: &mut Random) {
    for _ in 0..times {
        let swap = any_allowed(&both.adjacency, degrees, random).expect("a swap");
        assert_eq!(both.call(swap_call(swap)), DONE);
    }
}

/// 1,024 swaps on 200 vertices, then 24; all taken back, then 25.
#[test]
fn a_full_log() {
    let mut random = Random::new(6);
    let graph = graphs::regular(200, 40);
    let (degrees, mut both) = (graph.degrees(), laid_as("a full log", &graph));
    let mut began = Began::with(&both.adjacency);
    swap_often(&mut both, &degrees, MAX_SWAPS, &mut random);
    began.after(&Call::UndoSwap, &both.adjacency, &both.log);
    assert_eq!(both.log[..2], [0, 4]);
    let swap = any_allowed(&both.adjacency, &degrees, &mut random).expect("a swap");
    assert_eq!(both.call(swap_call(swap)), refused(24));
    assert_eq!(both.call(swap_call(swap.back())), refused(23));
    assert_eq!(both.call(Call::Complete { output: vec![] }), DONE);
    assert_eq!(log::count(&both.log), MAX_SWAPS);
    assert_eq!(undo(&mut both), 0);
    assert_eq!(both.call(swap_call(swap)).len(), 6);
    while log::count(&both.log) > 0 {
        assert_eq!(undo(&mut both), 0);
    }
    assert_eq!(undo(&mut both), 25);
    began.after(&Call::UndoSwap, &both.adjacency, &both.log);
    assert!(both.log == log::empty());
}

/// A call of each entry that is lent the log and asks for a valid one.
fn calls(both: &Both) -> [Call; 6] {
    let (v, w) = (0, 1);
    let output = vec![9; room(&both.journal, &both.adjacency)];
    [
        Call::AddEdge { v, w },
        Call::RemoveEdge { v, w },
        Call::SwapEdges([0, 1, 2, 3]),
        Call::UndoSwap,
        Call::Complete {
            output: output.clone(),
        },
        Completing::Shuffled(9).call(output),
    ]
}

/// Every byte of a log is another one: the reference says which logs are valid, and the library
/// refuses the others, whatever it is asked to do. Refused, it leaves all bytes as they were, also
/// where many swaps could be undone before one could not.
fn every_byte_of_the_log(both: &Both, more: u8) {
    let calls = calls(both).map(|call| {
        let memory = Memory::of(&both.journal, &both.adjacency, &both.log, &call);
        (call, memory)
    });
    let (mut valid, mut invalid) = (0, 0);
    for place in 0..LOG_BYTES {
        for byte in [both.log[place] ^ more, 255] {
            let mut log = both.log.clone();
            log[place] = byte;
            let expected = validity::log_valid(&both.journal, &both.adjacency, &log);
            *if expected { &mut valid } else { &mut invalid } += 1;
            for (call, before) in &calls {
                let mut memory = before.clone();
                memory.log.clone_from(&log);
                let answer = on_library(call, memory.slices());
                assert_eq!(answer[0] != 2, expected, "byte {place}: {byte}, {call:?}");
                if !expected {
                    memory.log.clone_from(&before.log);
                    assert!(memory == *before, "byte {place}: {byte}, {call:?}");
                }
            }
        }
    }
    println!("{valid} logs valid, {invalid} not");
    assert!(invalid > LOG_BYTES);
}

#[test]
fn every_byte_of_a_short_log() {
    let mut both = tree_and_path();
    every_byte_of_the_log(&both, 1);
    assert_eq!(swap(&mut both, 4, 5, 6, 2), 0);
    assert_eq!(swap(&mut both, 2, 4, 3, 6), 0);
    assert_eq!(swap(&mut both, 0, 4, 1, 5), 0);
    every_byte_of_the_log(&both, 2);
}

#[test]
fn every_byte_of_a_full_log() {
    let graph = graphs::regular(12, 2);
    let (degrees, mut both) = (graph.degrees(), laid_as("a full log, damaged", &graph));
    swap_often(&mut both, &degrees, MAX_SWAPS, &mut Random::new(7));
    every_byte_of_the_log(&both, 1);
}

/// Counts of a log with three records, and of one without.
#[test]
fn every_count() {
    let mut both = tree_and_path();
    for records in [0, 3] {
        if records == 3 {
            assert_eq!(swap(&mut both, 4, 5, 6, 2), 0);
            assert_eq!(swap(&mut both, 2, 4, 3, 6), 0);
            assert_eq!(swap(&mut both, 0, 4, 1, 5), 0);
        }
        let before = Memory::of(&both.journal, &both.adjacency, &both.log, &Call::UndoSwap);
        for count in (0..1_030).chain((1_030..65_536).step_by(251)) {
            let mut memory = before.clone();
            log::set_count(&mut memory.log, count);
            let expected = match count {
                0 if records == 0 => 25,
                3 if records == 3 => 0,
                _ => 2,
            };
            let answer = on_library(&Call::UndoSwap, memory.slices());
            assert_eq!(answer[0], expected, "{count} of {records}");
        }
    }
}

/// A log is any that can be undone, whichever state it was written for.
#[test]
fn the_log_of_another_state() {
    let table = Table::of(&[(1, 1, 12)], 0);
    let mut made = laid("made", &table, &[(0, 1), (2, 3), (4, 5)]);
    assert_eq!(swap(&mut made, 0, 1, 2, 3), 0);
    let mut other = laid("other", &table, &[(0, 3), (1, 2), (6, 11)]);
    for call in calls(&other) {
        // Refused for other reasons, or done.
        assert_ne!(other.call_with(made.log.clone(), call)[0], 2);
    }
    other.log.clone_from(&made.log);
    assert_eq!(undo(&mut other), 0);
    assert_eq!(
        adjacency::edges(&other.adjacency),
        [(0, 1), (2, 3), (6, 11)]
    );
    // An edge that is to go is not there; one that is to come is there.
    for edges in [&[(0, 3), (4, 5)][..], &[(0, 1), (2, 3), (4, 5)]] {
        let mut not = laid("not undone", &table, edges);
        for call in calls(&not) {
            assert_eq!(not.call_with(made.log.clone(), call), refused(2));
        }
    }
    // Another table: of these a and c, 0 and 5 are of different degrees.
    let table = Table::of(&[(1, 2, 4)], 0);
    let mut not = laid("other degrees", &table, &[(0, 4), (1, 5)]);
    for (swapped, expected) in [([0, 5, 1, 4], 0), ([4, 1, 5, 0], 0), ([0, 1, 5, 4], 2)] {
        let answer = not.call_with(log_of(&[swapped]), Call::UndoSwap);
        assert_eq!(answer[0], expected, "{swapped:?}");
    }
}

/// Random graphs of one table, and the log of each beside the matrix of each other.
#[test]
fn logs_of_random_states() {
    let mut random = Random::new(8);
    let (mut valid, mut invalid) = (0, 0);
    for _ in 0..40 {
        let graph = graphs::any(12, &mut random).by_rising_degree();
        let degrees = graph.degrees();
        let mut both = laid_as("logs of random states", &graph);
        let mut states = Vec::new();
        for _ in 0..12 {
            if random.chance(30) {
                undo(&mut both);
            } else if let Some(swap) = any_allowed(&both.adjacency, &degrees, &mut random) {
                assert_eq!(both.call(swap_call(swap)), DONE);
            }
            states.push((both.adjacency.clone(), both.log.clone()));
        }
        for (adjacency, log) in states
            .iter()
            .map(|(matrix, _)| matrix)
            .zip(states.iter().rev())
        {
            let answer = both.call_on_all(
                both.journal.clone(),
                adjacency.clone(),
                log.1.clone(),
                Call::UndoSwap,
            );
            *if answer[0] == 2 {
                &mut invalid
            } else {
                &mut valid
            } += 1;
        }
    }
    println!("{valid} logs valid, {invalid} not");
    assert!(valid > 50 && invalid > 50);
}

/// Adding, removing and completing empty a log when they alter the matrix, and only then.
#[test]
fn what_empties_a_log() {
    let mut both = tree_and_path();
    assert_eq!(swap(&mut both, 0, 4, 1, 5), 0);
    let kept = both.log.clone();
    for completing in [Completing::Lowest, Completing::Shuffled(5)] {
        assert_eq!(both.complete_by(completing, 0)[1], 0);
        assert!(both.log == kept);
    }
    for call in [
        Call::AddEdge { v: 0, w: 5 },
        Call::AddEdge { v: 0, w: 0 },
        Call::AddEdge { v: 0, w: 9 },
        Call::AddEdge { v: 0, w: 1 },
        Call::RemoveEdge { v: 0, w: 4 },
        Call::SwapEdges([0, 4, 1, 5]),
        Call::LayOut,
        Call::EdgeList { output: vec![0; 9] },
    ] {
        assert_ne!(both.call(call)[0], 0);
        assert!(both.log == kept);
    }
    let whole = both.adjacency.clone();
    let missing = {
        let mut missing = whole.clone();
        adjacency::remove(&mut missing, 3, 6);
        missing
    };
    for (adjacency, call) in [
        (&whole, Call::RemoveEdge { v: 6, w: 3 }),
        (&missing, Call::AddEdge { v: 3, w: 6 }),
        (&missing, Completing::Lowest.call(vec![9; 8])),
        (&missing, Completing::Shuffled(5).call(vec![9; 8])),
        (&whole, Call::Clear),
    ] {
        both.adjacency.clone_from(adjacency);
        both.log.clone_from(&kept);
        let answer = both.call(Completing::Lowest.call(vec![]));
        assert_eq!(answer[0], if *adjacency == whole { 0 } else { 18 });
        assert!(both.log == kept);
        assert_eq!(both.call(call)[0], 0);
        assert!(both.log == log::empty());
    }
}

/// Clearing looks at three lengths and at no byte.
#[test]
fn clearing() {
    for byte in [0, 1, 255] {
        let mut both = two_edges();
        both.log.fill(byte);
        assert_eq!(both.call(Call::Clear), DONE);
        assert!(both.log == log::empty());
        // Laying out and taking are not lent it: empty it is and stays valid.
        assert_eq!(both.call(Call::LayOut), DONE);
        assert_eq!(undo(&mut both), 25);
    }
}
