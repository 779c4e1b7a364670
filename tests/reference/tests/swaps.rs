//! Swaps, and taking them back (document 02, P8): cases worked out by hand from the rule, each
//! reason to refuse a swap alone, what a log must be, when it is emptied; then random mixes,
//! replayed.

use reference::adjacency::{self, insert};
use reference::player::{play_swaps, Fault};
use reference::random::Random;
use reference::swapping::{all_undone, allowed};
use reference::{
    add_edge, clear, complete, complete_shuffled, graphs, log, refused, remove_edge, swap_edges,
    undo_swap, Refused, Swap, Table, ADJACENCY_BYTES, JOURNAL_BYTES, LOG_BYTES, MAX_SWAPS,
};

/// A laid state and its log.
#[derive(Clone, Debug, PartialEq, Eq)]
struct Laid {
    journal: Vec<u8>,
    adjacency: Vec<u8>,
    log: Vec<u8>,
}

impl Laid {
    /// A table of one block with these edges and an empty log.
    fn new(records: &[u8], edges: &[(usize, usize)]) -> Laid {
        let mut journal = vec![0; JOURNAL_BYTES];
        journal[..3].copy_from_slice(&[1, 1, records.len() as u8]);
        journal[3..3 + records.len()].copy_from_slice(records);
        let mut adjacency = vec![0; ADJACENCY_BYTES];
        for &(v, w) in edges {
            insert(&mut adjacency, v, w);
        }
        let log = log::empty();
        Laid {
            journal,
            adjacency,
            log,
        }
    }

    fn swap(&mut self, a: u64, b: u64, c: u64, d: u64) -> Result<(), Refused> {
        swap_edges(
            &self.journal,
            &mut self.adjacency,
            &mut self.log,
            [a, b, c, d],
        )
    }

    fn undo(&mut self) -> Result<(), Refused> {
        undo_swap(&self.journal, &mut self.adjacency, &mut self.log)
    }

    fn edges(&self) -> Vec<(usize, usize)> {
        adjacency::edges(&self.adjacency)
    }

    /// Whether undoing is refused with 2.
    fn invalid(&self) -> bool {
        self.clone().undo() == Err(refused(2))
    }
}

/// Two edges of degree 1.
fn two_edges() -> Laid {
    Laid::new(&[1, 1, 4, 0], &[(0, 1), (2, 3)])
}

/// Vertices 0 to 3 have degree 1, 4 to 6 degree 2.
fn tree_and_path() -> Laid {
    let edges = [(0, 4), (1, 5), (2, 6), (3, 6), (4, 5)];
    Laid::new(&[1, 2, 4, 0, 2, 2, 2, 0], &edges)
}

#[test]
fn a_swap_and_back() {
    let before = two_edges();
    let mut state = before.clone();
    assert_eq!(state.swap(0, 1, 2, 3), Ok(()));
    assert_eq!(state.edges(), [(0, 3), (1, 2)]);
    assert_eq!(state.log[..7], [1, 0, 0, 1, 2, 3, 0]);
    assert_eq!(state.swap(3, 0, 1, 2), Ok(()));
    assert_eq!(state.edges(), [(0, 1), (2, 3)]);
    assert_eq!(state.log[..10], [2, 0, 0, 1, 2, 3, 3, 0, 1, 2]);
    assert_eq!(state.undo(), Ok(()));
    assert_eq!(state.edges(), [(0, 3), (1, 2)]);
    assert_eq!(state.log[..10], [1, 0, 0, 1, 2, 3, 0, 0, 0, 0]);
    assert_eq!(state.undo(), Ok(()));
    assert!(state == before);
    assert_eq!(state.undo(), Err(refused(25)));
}

/// The other ends may be of two degrees: each cell keeps its edges.
#[test]
fn ends_of_two_degrees() {
    let mut state = tree_and_path();
    assert_eq!(state.swap(4, 5, 6, 2), Ok(()));
    assert_eq!(state.edges(), [(0, 4), (1, 5), (2, 4), (3, 6), (5, 6)]);
    let degrees = Table::of(&[(1, 2, 4), (2, 2, 2)], 0).degrees();
    let counted = adjacency::counted_at(&state.adjacency, &degrees);
    assert_eq!(counted.nonzero_cells(), [(1, 2, 4), (2, 2, 2)]);
}

#[test]
fn each_reason_against_a_swap() {
    let mut state = tree_and_path();
    let before = state.clone();
    for (a, b, c, d) in [
        (0, 5, 2, 6), // 0-5 is not there
        (0, 4, 2, 5), // 2-5 is not there
        (4, 0, 2, 6), // degrees 2 and 1
        (4, 0, 5, 4), // a is d
        (5, 4, 4, 0), // b is c
        (2, 6, 3, 6), // b is d
        (4, 0, 4, 5), // a is c
    ] {
        assert_eq!(state.swap(a, b, c, d), Err(refused(23)), "{a} {b} {c} {d}");
        assert!(state == before);
    }
    assert_eq!(state.clone().swap(4, 0, 5, 1), Ok(()));
    assert_eq!(state.clone().swap(5, 4, 6, 2), Ok(()));
    // One new edge is there already, b-c or a-d.
    let edges = [(0, 1), (1, 2), (2, 3)];
    let mut path = Laid::new(&[2, 2, 8, 0], &edges);
    assert_eq!(path.swap(0, 1, 2, 3), Err(refused(23)));
    assert_eq!(path.swap(1, 0, 3, 2), Err(refused(23)));
    assert_eq!(path.swap(0, 1, 3, 2), Ok(()));
    assert_eq!(path.edges(), [(0, 2), (1, 2), (1, 3)]);
}

#[test]
fn order_of_checks() {
    let mut state = tree_and_path();
    for wild in [7, 200, 255, 256, u64::MAX] {
        for place in 0..4 {
            let mut named = [0, 0, 0, 0];
            named[place] = wild;
            let [a, b, c, d] = named;
            assert_eq!(state.swap(a, b, c, d), Err(refused(13)));
        }
    }
    assert_eq!(state.swap(0, 0, 0, 0), Err(refused(23)));
    // A matrix in phase 0 is zero, and so is a log.
    let mut taking = state.clone();
    taking.journal[0] = 0;
    assert_eq!(taking.swap(9, 9, 9, 9), Err(refused(2)));
    taking.adjacency.fill(0);
    assert_eq!(taking.swap(9, 9, 9, 9), Err(refused(3)));
    assert_eq!(taking.undo(), Err(refused(3)));
    for place in [0, 1, 2, 3, 6, LOG_BYTES - 1] {
        taking.log[place] = 1;
        assert!(taking.invalid(), "byte {place}");
        taking.log[place] = 0;
    }
    // Lengths come first.
    state.journal[0] = 2;
    for log in [&state.log[1..], &[0; LOG_BYTES + 1], &[]] {
        let mut wrong = log.to_vec();
        let (journal, adjacency) = (&state.journal, &mut state.adjacency);
        let answer = swap_edges(journal, adjacency, &mut wrong, [9; 4]);
        assert_eq!(answer, Err(refused(1)));
        assert_eq!(undo_swap(journal, adjacency, &mut wrong), Err(refused(1)));
    }
}

#[test]
fn a_full_log() {
    let mut state = two_edges();
    for number in 0..MAX_SWAPS as u64 {
        assert_eq!(log::count(&state.log), number as usize);
        let (b, d) = if number % 2 == 0 { (1, 3) } else { (3, 1) };
        assert_eq!(state.swap(0, b, 2, d), Ok(()));
    }
    assert_eq!(state.log[..6], [0, 4, 0, 1, 2, 3]);
    assert_eq!(state.log[LOG_BYTES - 4..], [0, 3, 2, 1]);
    assert_eq!(state.swap(0, 1, 2, 3), Err(refused(24)));
    assert_eq!(state.swap(0, 3, 2, 1), Err(refused(23)));
    assert_eq!(state.swap(0, 1, 2, 4), Err(refused(13)));
    for _ in 0..MAX_SWAPS {
        assert_eq!(state.undo(), Ok(()));
    }
    assert!(state == two_edges());
    log::set_count(&mut state.log, MAX_SWAPS + 1);
    assert!(state.invalid());
}

#[test]
fn logs_that_are_not_valid() {
    let mut state = tree_and_path();
    assert_eq!(state.swap(4, 5, 6, 2), Ok(()));
    assert_eq!(state.swap(2, 4, 3, 6), Ok(()));
    assert!(!state.invalid());
    let with = |place: usize, byte: u8| {
        let mut damaged = state.clone();
        damaged.log[place] = byte;
        damaged.invalid()
    };
    assert!(with(0, 1)); // a byte behind the one record left
    assert!(with(0, 3)); // the third swap would be 0, 0, 0, 0
    assert!(with(1, 1));
    assert!(with(1, 4));
    for place in 2..10 {
        assert!(with(place, 7), "byte {place}: no vertex");
        let next = state.log[if place % 4 == 1 { place - 3 } else { place + 1 }];
        assert!(with(place, next), "byte {place}: a vertex twice");
    }
    for place in [10, 11, 100, LOG_BYTES - 1] {
        assert!(with(place, 1), "byte {place}");
    }
    // The records in the other order: the second took an edge that the first made.
    let mut turned = state.clone();
    turned.log[2..10].rotate_left(4);
    assert!(turned.invalid());
    // Without the first of them, the last can still be undone.
    let mut short = state.clone();
    log::pop(&mut short.log);
    short.log[2..6].copy_from_slice(&[2, 4, 3, 6]);
    assert!(!short.invalid());
}

/// A log is a log of any matrix from which its swaps can be undone.
#[test]
fn the_log_of_another_state() {
    let mut made = Laid::new(&[1, 1, 12, 0], &[(0, 1), (2, 3), (4, 5)]);
    assert_eq!(made.swap(0, 1, 2, 3), Ok(()));
    let mut other = Laid::new(&[1, 1, 12, 0], &[(0, 3), (1, 2), (6, 11)]);
    other.log.clone_from(&made.log);
    assert_eq!(other.undo(), Ok(()));
    assert_eq!(other.edges(), [(0, 1), (2, 3), (6, 11)]);
    let mut without = Laid::new(&[1, 1, 12, 0], &[(0, 3), (4, 5)]);
    without.log.clone_from(&made.log);
    assert!(without.invalid());
}

#[test]
fn when_the_log_is_emptied() {
    let mut state = tree_and_path();
    assert_eq!(state.swap(0, 4, 1, 5), Ok(()));
    let swapped = state.clone();
    let (journal, adjacency, log) = (&state.journal, &mut state.adjacency, &mut state.log);
    // Nothing is missing, and what is refused changes nothing.
    assert_eq!(complete(journal, adjacency, log, &mut []).unwrap().joins, 0);
    let done = complete_shuffled(journal, adjacency, log, 5, &mut []);
    assert_eq!(done.unwrap().0.joins, 0);
    assert_eq!(add_edge(journal, adjacency, log, 0, 5), Err(refused(15)));
    assert_eq!(remove_edge(journal, adjacency, log, 0, 4), Err(refused(17)));
    assert!(state == swapped);
    let (adjacency, log) = (&mut state.adjacency, &mut state.log);
    assert_eq!(remove_edge(journal, adjacency, log, 3, 6), Ok(()));
    assert_eq!(*log, log::empty());
    for way in 0..3 {
        let mut missing = swapped.clone();
        adjacency::remove(&mut missing.adjacency, 3, 6);
        let (adjacency, log) = (&mut missing.adjacency, &mut missing.log);
        let full = complete(journal, adjacency, log, &mut [0; 7]);
        assert_eq!(full, Err(refused(18)));
        assert_eq!(*log, swapped.log);
        match way {
            0 => assert_eq!(add_edge(journal, adjacency, log, 6, 3), Ok(vec![])),
            1 => drop(complete(journal, adjacency, log, &mut [0; 8]).unwrap()),
            _ => drop(complete_shuffled(journal, adjacency, log, 5, &mut [0; 8]).unwrap()),
        }
        assert_eq!(*log, log::empty());
    }
    let mut wild = vec![9; LOG_BYTES];
    assert_eq!(clear(&mut state.journal, adjacency, &mut wild), Ok(()));
    assert_eq!(wild, log::empty());
}

#[test]
fn a_bad_log_is_2_for_every_call_that_would_empty_it() {
    let Laid {
        journal,
        mut adjacency,
        ..
    } = two_edges();
    adjacency::remove(&mut adjacency, 2, 3);
    let bad = [&[1, 0, 0, 1, 2, 3][..], &[0; LOG_BYTES - 6]].concat();
    let before = adjacency.clone();
    let answers = [
        add_edge(&journal, &mut adjacency, &mut bad.clone(), 2, 3).unwrap_err(),
        remove_edge(&journal, &mut adjacency, &mut bad.clone(), 0, 1).unwrap_err(),
        complete(&journal, &mut adjacency, &mut bad.clone(), &mut [0; 8]).unwrap_err(),
        complete_shuffled(&journal, &mut adjacency, &mut bad.clone(), 5, &mut [0; 8]).unwrap_err(),
    ];
    assert_eq!(answers, [refused(2); 4]);
    assert!(adjacency == before);
}

#[test]
fn the_player_notices_what_cannot_be_played() {
    let state = two_edges();
    let play = |records: &[u8]| play_swaps(records, &mut state.adjacency.clone());
    assert_eq!(play(&[0, 1, 2, 3, 0, 3, 2, 1]), Ok(()));
    assert_eq!(
        play(&[0, 1, 2, 3, 0, 1, 2, 3]),
        Err((1, Fault::Missing(0, 1)))
    );
    assert_eq!(play(&[0, 1, 2, 0]), Err((0, Fault::Missing(2, 0))));
    assert_eq!(play(&[0, 1, 2]), Err((0, Fault::Malformed)));
    assert_eq!(play(&[0, 1, 2, 255]), Err((0, Fault::Malformed)));
}

/// On random states, whole and in part: cells and degrees stay, the log replayed onto the matrix it
/// began with gives the matrix now, and undone it gives that one back.
#[test]
fn random_mixes() {
    let mut random = Random::new(11);
    let mut made = 0;
    for round in 0..60 {
        let graph = graphs::any(if round < 55 { 30 } else { 200 }, &mut random);
        let graph = graph.by_rising_degree();
        let degrees = graph.degrees();
        let edges: Vec<_> = graph.edges().iter().copied().collect();
        let part: Vec<_> = edges.iter().filter(|_| random.chance(80)).collect();
        let mut state = Laid::new(&[], &[]);
        state.journal = reference::program::lay(&graph.table().records(), &[])
            .unwrap()
            .journal;
        part.iter()
            .for_each(|&&(v, w)| insert(&mut state.adjacency, v, w));
        let began = state.adjacency.clone();
        let counted = adjacency::counted_at(&began, &degrees);
        for _ in 0..200 {
            if random.chance(20) {
                let empty = log::count(&state.log) == 0;
                assert_eq!(state.undo().is_err(), empty);
            } else if let Some(swap) = any_swap(&state, &degrees, &mut random) {
                let [a, b, c, d] = swap.vertices().map(|v| v as u64);
                assert_eq!(state.swap(a, b, c, d), Ok(()));
                made += 1;
            }
        }
        assert_eq!(adjacency::counted_at(&state.adjacency, &degrees), counted);
        let at = |adjacency: &[u8], v| adjacency::edges_at(adjacency, v);
        assert!((0..degrees.len()).all(|v| at(&state.adjacency, v) == at(&began, v)));
        let mut played = began.clone();
        play_swaps(log::records(&state.log), &mut played).unwrap();
        assert!(played == state.adjacency);
        let undone = all_undone(&state.adjacency, &degrees, &state.log);
        assert!(undone == Some(began));
    }
    assert!(made > 1_000, "{made} swaps");
}

/// Two random edges, either way round, where they can be swapped.
fn any_swap(state: &Laid, degrees: &[usize], random: &mut Random) -> Option<Swap> {
    let edges = state.edges();
    for _ in 0..50 {
        if edges.is_empty() {
            return None;
        }
        let (first, second) = (*random.pick(&edges), *random.pick(&edges));
        let ((a, b), (c, d)) = (random.either_way(first), random.either_way(second));
        let swap = Swap::new(a, b, c, d);
        if allowed(&state.adjacency, degrees, swap) {
            return Some(swap);
        }
    }
    None
}
