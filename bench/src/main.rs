//! Measures the entries of the library.
//!
//!     bench list             every ENTRY and CASE, and "twin" where there is one
//!     bench ENTRY CASE       set-up, then exactly one call of the entry
//!     bench twin ENTRY CASE  the same, on the twin
//!     bench ratios [ENTRY]   times the library against the reference
//!
//! Set-up calls no entry of the library, so the instructions of the one call can be read with
//! `valgrind --tool=callgrind --toggle-collect=replica_ENTRY bench ENTRY CASE`, those of the twin
//! with `--toggle-collect=twin_ENTRY bench twin ENTRY CASE`.

mod cases;
mod ratios;
mod twin;

use cases::Case;
use comparison::call::{on_library, Call, Memory};
use reference::numbers::Numbers;
use std::process::ExitCode;

fn main() -> ExitCode {
    let arguments: Vec<String> = std::env::args().skip(1).collect();
    let arguments: Vec<&str> = arguments.iter().map(String::as_str).collect();
    match arguments[..] {
        ["list"] => list(),
        ["ratios"] => ratios::print(&cases::all()),
        ["ratios", entry] => {
            let mut cases = cases::all();
            cases.retain(|case| case.entry().name() == entry);
            ratios::print(&cases);
        }
        ["twin", entry, name] => return call_once(entry, name, on_twin),
        [entry, name] => return call_once(entry, name, |call, memory| Some(once(call, memory))),
        _ => {
            eprintln!("bench list | bench [twin] ENTRY CASE | bench ratios [ENTRY]");
            return ExitCode::FAILURE;
        }
    }
    ExitCode::SUCCESS
}

fn list() {
    for case in cases::all() {
        let mut memory = case.memory();
        let twin = on_twin(&case.call, &mut memory).map_or("", |_| "twin");
        println!("{} {} {twin}", case.entry().name(), case.name);
    }
}

/// The call on the library.
fn once(call: &Call, memory: &mut Memory) -> Numbers {
    on_library(call, memory.slices())
}

/// The call on the twin, which has eight of the entries.
fn on_twin(call: &Call, memory: &mut Memory) -> Option<Numbers> {
    let lent = twin::Lent {
        journal: &memory.journal,
        adjacency: &mut memory.adjacency,
        log: &mut memory.log,
    };
    let (input, output) = (&memory.input, &mut memory.output);
    Some(Numbers::Six(match *call {
        Call::AddEdge { v, w } => return Some(Numbers::Nine(twin::twin_add_edge(lent, v, w))),
        Call::RemoveEdge { v, w } => twin::twin_remove_edge(lent, v, w),
        Call::SwapEdges(named) => twin::twin_swap_edges(lent, named),
        Call::UndoSwap => twin::twin_undo_swap(lent),
        Call::Complete { .. } => twin::twin_complete(lent, output),
        Call::CompleteShuffled { x, .. } => twin::twin_complete_shuffled(lent, x, output),
        Call::Graph6Write { total, .. } => twin::twin_graph6_write(input, total, output),
        Call::Graph6Read { .. } => twin::twin_graph6_read(input, output),
        _ => return None,
    }))
}

fn found(entry: &str, name: &str) -> Option<Case> {
    let mut cases = cases::all().into_iter();
    cases.find(|case| case.entry().name() == entry && case.name == name)
}

/// Makes the one call and prints its answer.
fn call_once(
    entry: &str,
    name: &str,
    side: impl Fn(&Call, &mut Memory) -> Option<Numbers>,
) -> ExitCode {
    let Some(case) = found(entry, name) else {
        eprintln!("there is no case {entry} {name}; try: bench list");
        return ExitCode::FAILURE;
    };
    let Some(numbers) = side(&case.call, &mut case.memory()) else {
        eprintln!("the twin has no {entry}");
        return ExitCode::FAILURE;
    };
    println!("{numbers:?}");
    if numbers[0] != 0 {
        eprintln!("the call was refused: nothing was measured");
        return ExitCode::FAILURE;
    }
    ExitCode::SUCCESS
}

#[cfg(test)]
mod tests {
    use super::*;
    use comparison::call::{any_output, on_reference, room, Completing};
    use comparison::swaps::{any_allowed, any_edges, spoil, swap_call};
    use comparison::{edge_lists, exchange};
    use reference::journal::LAID;
    use reference::random::Random;
    use reference::{adjacency, graph6, graphs, journal, log, swapping, MAX_SWAPS};
    use std::collections::BTreeSet;

    /// The twin answers as the library does and leaves the same bytes.
    fn compare(call: &Call, memory: Memory, place: &str) -> Option<u64> {
        let (mut library, mut twin) = (memory.clone(), memory);
        let numbers = on_twin(call, &mut twin)?;
        assert_eq!(numbers, once(call, &mut library), "{place}");
        assert!(twin == library, "{place}: other bytes");
        Some(numbers[0])
    }

    #[test]
    fn the_twin_on_every_case() {
        for case in cases::all() {
            let place = format!("{} {}", case.entry().name(), case.name);
            compare(&case.call, case.memory(), &place);
        }
    }

    /// The bytes of a state: journal, matrix and log.
    type Bytes = (Vec<u8>, Vec<u8>, Vec<u8>);

    /// A part of a random graph's edges laid, some swaps, and the bytes damaged in some cases.
    fn any_state(random: &mut Random) -> Bytes {
        let most = *random.pick(&[4, 10, 60, 200]);
        let graph = graphs::any(most, random).by_rising_degree();
        let percent = random.between(0, 100);
        let mut part = graphs::Graph::new(graph.vertices());
        for &(v, w) in graph.edges() {
            if random.chance(percent) {
                part.join(v, w);
            }
        }
        let mut journal = cases::journal_of(LAID, &graph.table().records());
        let mut adjacency = part.adjacency();
        let mut log = any_log(&graph.degrees(), &mut adjacency, random);
        match random.below(16) {
            0 => journal[random.below(200)] ^= 1 << random.below(8),
            1 => adjacency[random.below(40_000)] ^= 1 << random.below(8),
            2 => drop(adjacency.pop()),
            3 => drop(journal.pop()),
            4 => journal[0] = 0,
            5 => adjacency[random.below(graph.vertices().max(1) * 200)] ^= 1,
            6 => {
                let (v, w) = (random.below(200), random.below(graph.isolated().max(1)));
                adjacency::insert(&mut adjacency, v, w);
            }
            7 => drop(log.pop()),
            8 | 9 => log = spoil(&log, graph.vertices(), random),
            _ => {}
        }
        (journal, adjacency, log)
    }

    /// A few swaps, made on the matrix, or as many as there is room for, of which most are taken
    /// back by the next.
    fn any_log(degrees: &[usize], adjacency: &mut [u8], random: &mut Random) -> Vec<u8> {
        let mut log = log::empty();
        for _ in 0..random.below(4) {
            let Some(swap) = any_allowed(adjacency, degrees, random) else {
                break;
            };
            if random.chance(30) {
                while log::count(&log) + 2 < MAX_SWAPS {
                    log::push(&mut log, swap);
                    log::push(&mut log, swap.back());
                }
            }
            if log::count(&log) < MAX_SWAPS {
                swapping::make(adjacency, swap);
                log::push(&mut log, swap);
            }
        }
        log
    }

    /// The degrees of a valid state.
    fn degrees_of(journal: &[u8], adjacency: &[u8]) -> Option<Vec<usize>> {
        reference::figures(journal, adjacency).ok()?;
        Some(journal::summed_table(journal).degrees())
    }

    /// A swap of two edges, in every second case of two that can be swapped.
    fn any_swap(adjacency: &[u8], degrees: &[usize], random: &mut Random) -> Call {
        let found = match random.chance(50) {
            true => any_allowed(adjacency, degrees, random),
            false => any_edges(adjacency, random),
        };
        let none = Call::SwapEdges([0, 1, 2, degrees.len() as u64]);
        found.map_or(none, swap_call)
    }

    /// Random states, and outputs with room for the records of completing or without: every answer is
    /// reached.
    #[test]
    fn the_twin_on_random_states() {
        let mut random = Random::new(8);
        let mut answered = BTreeSet::new();
        for number in 0..3_000 {
            let (journal, adjacency, log) = any_state(&mut random);
            let degrees = degrees_of(&journal, &adjacency);
            let vertices = degrees.as_ref().map_or(9, Vec::len);
            let mut vertex = || random.below(vertices + 2) as u64;
            let (v, w) = (vertex(), vertex());
            let swap = match degrees {
                Some(degrees) => any_swap(&adjacency, &degrees, &mut random),
                None => Call::SwapEdges([0, 1, 2, 3]),
            };
            let output = any_output(room(&journal, &adjacency), &mut random);
            for call in [
                Call::AddEdge { v, w },
                Call::RemoveEdge { v, w },
                swap,
                Call::UndoSwap,
                Completing::any_shuffled(&mut random).call(output.clone()),
                Completing::Lowest.call(output),
            ] {
                let memory = Memory::of(&journal, &adjacency, &log, &call);
                answered.extend(compare(&call, memory, &format!("state {number}, {call:?}")));
            }
        }
        let refusals = [1, 2, 3, 13, 14, 15, 16, 17, 18, 23, 24, 25];
        assert!([0].iter().chain(&refusals).eq(&answered), "{answered:?}");
    }

    /// The twin completes shuffled as the reference does, which scans all pairs before each join.
    #[test]
    fn the_twin_shuffles_as_the_reference() {
        let mut random = Random::new(10);
        let states = (0..300).map(|_| any_state(&mut random));
        let calls: Vec<_> = states
            .map(|(journal, adjacency, log)| {
                let output = vec![7; room(&journal, &adjacency) + 3];
                let call = Call::CompleteShuffled { x: 5, output };
                (Memory::of(&journal, &adjacency, &log, &call), call)
            })
            .collect();
        let shuffled = |case: &Case| matches!(case.call, Call::CompleteShuffled { .. });
        let cases = cases::all().into_iter().filter(shuffled);
        let cases = cases.map(|case| (case.memory(), case.call.clone()));
        for (memory, call) in calls.into_iter().chain(cases) {
            let (mut twin, mut expected) = (memory.clone(), memory);
            let numbers = on_twin(&call, &mut twin);
            assert_eq!(
                numbers,
                Some(on_reference(&call, expected.slices())),
                "{call:?}"
            );
            assert!(twin == expected, "{call:?}: other bytes");
        }
    }

    /// Random graphs as graph6, whole and spoiled, with room or without: every answer is reached.
    #[test]
    fn the_twin_on_random_graphs() {
        let mut random = Random::new(9);
        let mut answered = BTreeSet::new();
        for number in 0..3_000 {
            let most = *random.pick(&[5, 70, 70, 200]);
            let graph = exchange::any_graph(most, &mut random);
            let (mut edges, mut text) = (graph.edge_list(), graph6::text(&graph));
            let mut total = graph.vertices() as u64;
            let (listed, written) = (edges.len(), text.len());
            if random.chance(60) {
                edge_lists::spoil(&mut edges, &mut random);
                text = exchange::spoil(&text, &mut random);
                total += *random.pick(&[0, 0, 1, 200]);
            }
            let output = any_output(written, &mut random);
            let write = Call::Graph6Write {
                edges,
                total,
                output,
            };
            let output = any_output(listed, &mut random);
            for call in [write, Call::Graph6Read { text, output }] {
                let memory = Memory::of(&[], &[], &[], &call);
                answered.extend(compare(&call, memory, &format!("graph {number}, {call:?}")));
            }
        }
        assert!([0, 18, 19, 21, 22].iter().eq(&answered), "{answered:?}");
    }
}
