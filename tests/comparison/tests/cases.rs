//! The cases of document 01 and the figures checked by hand, on the library through its safe crate.

use comparison::tables::every_cell;
use reference::graphs::{self, Graph};
use reference::random::Random;
use reference::Table;
use replica::{block, graph6_read, graph6_write, jdm_of_edges};
use replica::{Cause, Completion, Drawn, Join, Joins, NotDrawn, Record, Records, Refusal};
use replica::{State, Swap, Swaps, Switch, Take};
use replica::{JOIN_RECORD_BYTES, MAX_BLOCK_BYTES, RECORD_BYTES};
use replica::{LOG_BYTES, MAX_EDGES, MAX_GRAPH6_BYTES, MAX_PAIRS, MAX_RECORDS, MAX_SWAPS};
use std::collections::BTreeSet;
use std::error::Error;

fn state_of(cells: &[(u8, u8, u16)]) -> State {
    let mut state = State::new();
    for (number, &(k, l, count)) in (0..).zip(cells) {
        let bytes = block(&[Record::new(k, l, count)]);
        assert_eq!(
            state.take_block(number, &bytes),
            Ok(Take::Taken(number + 1))
        );
    }
    state
}

fn laid(cells: &[(u8, u8, u16)]) -> State {
    let mut state = state_of(cells);
    state.lay_out().unwrap();
    state
}

fn refusal(cells: &[(u8, u8, u16)]) -> (Cause, (u64, u64)) {
    let refusal = state_of(cells).lay_out().unwrap_err();
    (refusal.cause, refusal.places)
}

fn edges(state: &State) -> Vec<(u8, u8)> {
    state.edges().unwrap().collect()
}

/// Joins and switches of completing. Its records are as many, and played they give the same edges.
fn complete(state: &mut State) -> (u64, u64) {
    let before = edges(state);
    let done = state.complete().unwrap();
    play(before, &done, state);
    (done.joins, done.switches)
}

/// The records of a completion, played onto the edges of before, give those of the state.
fn play(before: Vec<(u8, u8)>, done: &Completion, state: &State) {
    let mut played: BTreeSet<(u8, u8)> = before.into_iter().collect();
    let pair = |v: u8, w: u8| (v.min(w), v.max(w));
    let mut switches = 0;
    for join in done.records() {
        switches += join.switches.len() as u64;
        for Switch { a, b, t } in join.switches {
            assert!(played.remove(&pair(a, t)), "{join:?}");
            assert!(played.insert(pair(b, t)), "{join:?}");
        }
        assert!(played.insert((join.v, join.w)), "{join:?}");
    }
    assert!(played.into_iter().eq(edges(state)));
    assert_eq!(done.records().len() as u64, done.joins);
    assert_eq!(switches, done.switches);
}

const SQUARE: [(u8, u8, u16); 1] = [(2, 2, 8)];
const SQUARE_EDGES: [(u8, u8); 4] = [(0, 2), (0, 3), (1, 2), (1, 3)];

#[test]
fn no_blocks() {
    let mut state = State::new();
    assert_eq!(state.lay_out(), Ok(0));
    assert_eq!(complete(&mut state), (0, 0));
    assert_eq!(edges(&state), []);
}

#[test]
fn one_edge() {
    let mut state = laid(&[(1, 1, 2)]);
    assert_eq!(complete(&mut state), (1, 0));
    assert_eq!(edges(&state), [(0, 1)]);
}

#[test]
fn the_table_of_document_004() {
    let mut state = laid(&[(1, 3, 1), (2, 2, 2), (2, 3, 2)]);
    assert_eq!(complete(&mut state), (4, 0));
    assert_eq!(edges(&state), [(0, 3), (1, 2), (1, 3), (2, 3)]);
}

#[test]
fn a_square() {
    let mut state = laid(&SQUARE);
    assert_eq!(complete(&mut state), (4, 2));
    assert_eq!(edges(&state), SQUARE_EDGES);
}

/// The records of the square, as bytes and as values, owned and lent.
#[test]
fn records_of_a_square() {
    const U: u8 = 255;
    let records = [
        [0, 1, U, U, U, U, U, U],
        [0, 2, U, U, U, U, U, U],
        [0, 3, 0, 1, 2, U, U, U],
        [0, 2, 0, 3, 1, U, U, U],
    ];
    let mut state = laid(&SQUARE);
    let mut output = [7; 40];
    for length in 0..4 * JOIN_RECORD_BYTES {
        let refusal = state.complete_into(&mut output[..length]).unwrap_err();
        assert_eq!(refusal.cause, Cause::OutputTooShort);
    }
    let done = state.clone().complete().unwrap();
    assert_eq!(done.as_bytes(), records.concat());
    let lent = state.complete_into(&mut output).unwrap();
    assert_eq!((lent.joins, lent.switches), (done.joins, done.switches));
    assert_eq!(lent.as_bytes(), done.as_bytes());
    assert_eq!(output[32..], [7; 8]);
    assert_eq!(Joins::new(&output[..32]).len(), 4);
    for (join, record) in done.records().zip(records) {
        assert_eq!(join, Join::from_bytes(record));
        assert_eq!(join.to_bytes(), record);
        assert_eq!(join.switches.len(), usize::from(record[2] != U));
    }
    let last = done.records().last().unwrap().switches;
    assert_eq!(format!("{last:?}"), "[Switch { a: 0, b: 3, t: 1 }]");
    assert_eq!(state.complete_into(&mut []).unwrap().joins, 0);
}

/// The square from 0, owned and lent; the same number gives it again, another one another.
#[test]
fn a_shuffled_square() {
    const U: u8 = 255;
    let records = [
        [0, 3, U, U, U, U, U, U],
        [0, 2, U, U, U, U, U, U],
        [0, 1, 0, 2, 3, U, U, U],
        [1, 3, U, U, U, U, U, U],
    ];
    let empty = laid(&SQUARE);
    let mut state = empty.clone();
    let mut output = [7; 40];
    for length in 0..4 * JOIN_RECORD_BYTES {
        let refusal = state.complete_shuffled_into(0, &mut output[..length]);
        assert_eq!(refusal.unwrap_err().cause, Cause::OutputTooShort);
        assert_eq!(state, empty);
    }
    let (lent, last) = state.complete_shuffled_into(0, &mut output).unwrap();
    assert_eq!((lent.joins, lent.switches, last), (4, 1, 2_868_466_484));
    assert_eq!(lent.as_bytes(), records.concat());
    assert_eq!(output[32..], [7; 8]);
    assert_eq!(edges(&state), [(0, 1), (0, 2), (1, 3), (2, 3)]);

    let mut again = empty.clone();
    let (done, last) = again.complete_shuffled(0).unwrap();
    assert_eq!((done.as_bytes(), last), (&output[..32], 2_868_466_484));
    assert_eq!(again, state);
    play(vec![], &done, &again);
    let mut other = empty;
    let (_, last) = other.complete_shuffled(u32::MAX).unwrap();
    assert_eq!(last, 2_709_482_403);
    assert_eq!(edges(&other), [(0, 1), (0, 3), (1, 2), (2, 3)]);
    for x in [0, 1, u32::MAX] {
        let (done, last) = other.complete_shuffled(x).unwrap();
        assert_eq!((done.joins, done.switches, last), (0, 0, x));
    }
}

#[test]
fn refusals_of_completing_shuffled() {
    let refusal = State::new().complete_shuffled(1).unwrap_err();
    assert_eq!(refusal.cause, Cause::WrongPhase);
    assert_eq!(refusal.places, (0, 0));
}

/// As many joins as edges are missing, from a part of any graph; the table comes back.
#[test]
fn shuffled_replicas_of_random_graphs() {
    let mut random = Random::new(13);
    for most in [6, 30, 200, 200] {
        let graph = graphs::any(most, &mut random).by_rising_degree();
        let mut state = laid_for(&graph);
        for (v, w) in in_any_order(&graph, &mut random) {
            if random.chance(30) {
                assert!(state.add_edge(v, w).unwrap().is_empty());
            }
        }
        let before = edges(&state);
        let (done, _) = state.complete_shuffled(random.any() as u32).unwrap();
        assert_eq!(done.joins as usize, graph.edges().len() - before.len());
        play(before, &done, &state);
        let mut records = [0; RECORD_BYTES * MAX_RECORDS];
        let list = state.edges().unwrap();
        let total = graph.vertices() as u64;
        let length = jdm_of_edges(list.as_bytes(), total, &mut records).unwrap();
        assert_eq!(records[..length], graph.table().records());
    }
}

/// Two switches, of the first named vertex and then of the second.
#[test]
fn switches_of_a_join() {
    let mut state = laid(&[(1, 1, 6)]);
    for (v, w) in [(0, 2), (1, 3)] {
        assert!(state.add_edge(v, w).unwrap().is_empty());
    }
    let switch = |a, b, t| Switch { a, b, t };
    let switches = state.clone().add_edge(0, 1).unwrap();
    assert_eq!(*switches, [switch(0, 4, 2), switch(1, 5, 3)]);
    let switches = state.clone().add_edge(1, 0).unwrap();
    assert_eq!(*switches, [switch(1, 4, 3), switch(0, 5, 2)]);
    let in_turn: Vec<Switch> = switches.into_iter().collect();
    assert_eq!(in_turn, *switches);
    let switches = state.add_edge(4, 1).unwrap();
    assert_eq!(*switches, [switch(1, 5, 3)]);
}

/// As many joins as there can be fill the longest output.
#[test]
fn the_most_records_of_completing() {
    let mut state = laid(&[(40, 40, 8_000)]);
    let mut output = vec![0; MAX_EDGES * JOIN_RECORD_BYTES];
    let last = output.len() - 1;
    let refusal = state.complete_into(&mut output[..last]).unwrap_err();
    assert_eq!(refusal.cause, Cause::OutputTooShort);
    assert_eq!(state.figures().unwrap().edges_laid, 0);
    let done = state.complete_into(&mut output).unwrap();
    assert_eq!(done.as_bytes().len(), 32_000);
    assert_eq!((done.joins, done.switches), (4_000, 7_139));
}

#[test]
fn a_square_from_a_triangle() {
    let mut state = laid(&SQUARE);
    for (v, w) in [(0, 1), (0, 2), (1, 2)] {
        assert!(state.add_edge(v, w).unwrap().is_empty());
    }
    let mut by_hand = state.clone();
    let switches = by_hand.add_edge(0, 3).unwrap();
    assert_eq!(*switches, [Switch { a: 0, b: 3, t: 1 }]);
    assert_eq!(edges(&by_hand), SQUARE_EDGES);
    assert_eq!(complete(&mut state), (1, 1));
    assert_eq!(edges(&state), SQUARE_EDGES);
}

#[test]
fn refused_tables() {
    assert_eq!(refusal(&[(2, 2, 5)]), (Cause::OddDiagonal, (2, 2)));
    assert_eq!(refusal(&[(1, 3, 1)]), (Cause::RowNotDivisible, (3, 0)));
    assert_eq!(refusal(&[(2, 2, 4)]), (Cause::CellTooLarge, (2, 2)));
    assert_eq!(refusal(&[(40, 40, 1_600)]), (Cause::CellTooLarge, (40, 40)));
    assert_eq!(refusal(&[(1, 1, 202)]), (Cause::TooManyVertices, (0, 0)));
}

#[test]
fn tables_that_fit() {
    let mut triangle = laid(&[(2, 2, 6)]);
    triangle.complete().unwrap();
    assert_eq!(edges(&triangle), [(0, 1), (0, 2), (1, 2)]);
    assert_eq!(state_of(&[(2, 3, 6)]).lay_out(), Ok(5));
    assert_eq!(state_of(&[(1, 1, 200)]).lay_out(), Ok(200));
    assert_eq!(state_of(&[(40, 40, 1_640)]).lay_out(), Ok(41));
}

#[test]
fn evenness_is_of_the_sum() {
    assert_eq!(state_of(&[(2, 2, 3), (2, 2, 3)]).lay_out(), Ok(3));
}

/// Isolated vertices: numbered first, counted in N and in no cell.
#[test]
fn isolated_vertices() {
    let mut state = laid(&[(0, 0, 3), (1, 3, 1), (2, 2, 2), (2, 3, 2)]);
    assert_eq!(state.cells().unwrap().isolated(), 3);
    assert_eq!(state.figures().unwrap().vertices, 7);
    let refusal = state.add_edge(6, 0).unwrap_err();
    assert_eq!(
        (refusal.cause, refusal.places),
        (Cause::CellNotShort, (0, 3))
    );
    assert_eq!(
        state.remove_edge(0, 1).unwrap_err().cause,
        Cause::EdgeAbsent
    );
    assert_eq!(complete(&mut state), (4, 0));
    assert_eq!(edges(&state), [(3, 6), (4, 5), (4, 6), (5, 6)]);
    assert_eq!(state_of(&[(0, 0, 200)]).lay_out(), Ok(200));
    assert_eq!(refusal_of_lay_out(201), Cause::TooManyVertices);
    assert_eq!(state_of(&[(0, 0, 0)]).lay_out(), Ok(0));
    let mut state = State::new();
    for bad in [Record::new(0, 3, 1), Record::new(3, 0, 1)] {
        let refusal = state.take_block(0, &block(&[Record::isolated(1), bad]));
        let refusal = refusal.unwrap_err();
        assert_eq!((refusal.cause, refusal.places), (Cause::BadRecord, (1, 0)));
    }
}

/// Blocks of no bytes: taken, held and read back, and nothing comes of them.
#[test]
fn empty_blocks() {
    let some: [&[u8]; 2] = [&[1, 3, 1, 0, 2, 2, 2, 0], &[2, 3, 2, 0]];
    let mut state = State::new();
    for (number, bytes) in (0..).zip([&[], some[0], &[], some[1], &[]]) {
        assert_eq!(state.take_block(number, bytes), Ok(Take::Taken(number + 1)));
    }
    let held = |state: &mut State| {
        for number in [0, 2, 4] {
            assert_eq!(state.take_block(number, &[]), Ok(Take::Held));
            assert_eq!(state.held_block(number), Ok(&[][..]));
            assert_eq!(state.records(number).unwrap().count(), 0);
            let refusal = state.take_block(number, some[0]).unwrap_err();
            assert_eq!(refusal.cause, Cause::BlockDiffers);
        }
        let refusal = state.take_block(1, &[]).unwrap_err();
        assert_eq!(refusal.cause, Cause::BlockDiffers);
        assert_eq!(state.held_block(5).unwrap_err().cause, Cause::BlockNumber);
    };
    held(&mut state);
    assert_eq!(state.lay_out(), Ok(4));
    held(&mut state);
    let refusal = state.take_block(5, &[]).unwrap_err();
    assert_eq!(refusal.cause, Cause::WrongPhase);
    let mut without = laid(&[(1, 3, 1), (2, 2, 2), (2, 3, 2)]);
    assert!(state.cells().unwrap().eq(without.cells().unwrap()));
    assert_eq!(complete(&mut state), complete(&mut without));
    assert_eq!(state.adjacency(), without.adjacency());
}

fn refusal_of_lay_out(isolated: u16) -> Cause {
    refusal(&[(0, 0, isolated)]).0
}

/// The list of a completed state, surveyed with its number of vertices, is the table again.
#[test]
fn a_survey_gives_the_table_back() {
    let tables: [&[(u8, u8, u16)]; 4] = [
        &[(0, 0, 3), (1, 3, 1), (2, 2, 2), (2, 3, 2)],
        &[(1, 3, 1), (2, 2, 2), (2, 3, 2)],
        &[(0, 0, 200)],
        &[(0, 0, 159), (40, 40, 1_640)],
    ];
    for cells in tables {
        let mut state = state_of(cells);
        let total = state.lay_out().unwrap();
        state.complete().unwrap();
        let list = state.edges().unwrap();
        let mut output = vec![0; MAX_RECORDS * RECORD_BYTES];
        let length = jdm_of_edges(list.as_bytes(), total, &mut output).unwrap();
        let records: Vec<Record> = Records::new(&output[..length]).collect();
        let sent: Vec<Record> = cells
            .iter()
            .map(|&(k, l, n)| Record::new(k, l, n))
            .collect();
        assert_eq!(records, sent);
        assert_eq!(records[0].is_isolated(), cells[0].0 == 0);
    }
}

/// All cells and isolated vertices: no survey writes more, and this one fills the longest output.
#[test]
fn the_longest_survey() {
    let table = Table::new(every_cell(), 2);
    let mut state = State::new();
    for (number, block) in (0..).zip(table.records().chunks(MAX_BLOCK_BYTES)) {
        state.take_block(number, block).unwrap();
    }
    assert_eq!(state.lay_out(), Ok(200));
    state.complete().unwrap();
    let list = state.edges().unwrap();
    let mut output = vec![0; MAX_RECORDS * RECORD_BYTES];
    let last = output.len() - 1;
    let refusal = jdm_of_edges(list.as_bytes(), 200, &mut output[..last]);
    assert_eq!(refusal.unwrap_err().cause, Cause::OutputTooShort);
    let length = jdm_of_edges(list.as_bytes(), 200, &mut output);
    assert_eq!(length, Ok(output.len()));
    assert_eq!(output, table.records());
}

#[test]
fn totals_of_a_survey() {
    let survey = |edges: &[u8], total| {
        let refusal = jdm_of_edges(edges, total, &mut [0; 8]).unwrap_err();
        assert_eq!(refusal.cause, Cause::BadEdgeList);
        refusal.places
    };
    for total in [201, u64::MAX] {
        assert_eq!(survey(&[], total), (0, 0));
        assert_eq!(survey(&[0, 1, 5], total), (0, 0));
    }
    assert_eq!(survey(&[0, 1, 5], 200), (1, 0));
    assert_eq!(survey(&[0, 1, 0, 5], 5), (1, 0));
    assert_eq!(jdm_of_edges(&[], 0, &mut []), Ok(0));
}

/// Document 02's text, out of a state and into an edge list.
#[test]
fn graph6_of_document_004() {
    assert_eq!(State::new().graph6().unwrap_err().cause, Cause::WrongPhase);
    let mut state = laid(&[(1, 3, 1), (2, 2, 2), (2, 3, 2)]);
    assert_eq!(state.graph6().as_deref(), Ok("C?"));
    complete(&mut state);
    assert_eq!(state.graph6().as_deref(), Ok("CN"));
    let mut list = [9; 10];
    assert_eq!(graph6_read(b"CN", &mut list), Ok((8, 4)));
    assert_eq!(list[..8], *state.edges().unwrap().as_bytes());
    assert_eq!(list[8..], [9, 9]);
    // Isolated vertices are the first ones.
    let mut state = laid(&[(0, 0, 1), (1, 3, 1), (2, 2, 2), (2, 3, 2)]);
    complete(&mut state);
    assert_eq!(state.graph6().as_deref(), Ok("D@["));
}

/// All pairs of 200 vertices: no text and no list is longer, and these fill the longest outputs.
#[test]
fn the_longest_text() {
    let edges: Vec<u8> = (0..200)
        .flat_map(|v| (v + 1..200).flat_map(move |w| [v, w]))
        .collect();
    assert_eq!(edges.len(), 2 * MAX_PAIRS);
    let mut text = vec![0; MAX_GRAPH6_BYTES];
    let refusal = graph6_write(&edges, 200, &mut text[1..]).unwrap_err();
    assert_eq!(refusal.cause, Cause::OutputTooShort);
    assert_eq!(graph6_write(&edges, 200, &mut text), Ok(MAX_GRAPH6_BYTES));
    assert!(text.starts_with(b"~?BG~~~"));
    let mut list = vec![0; 2 * MAX_PAIRS];
    let refusal = graph6_read(&text, &mut list[1..]).unwrap_err();
    assert_eq!(refusal.cause, Cause::OutputTooShort);
    assert_eq!(graph6_read(&text, &mut list), Ok((2 * MAX_PAIRS, 200)));
    assert_eq!(list, edges);
}

#[test]
fn refusals_of_graph6() {
    let cause = |text: &[u8]| {
        let refusal = graph6_read(text, &mut [0; 8]).unwrap_err();
        assert_eq!(refusal.places, (0, 0));
        refusal.cause
    };
    for text in [&b""[..], b"CN\n", b">>graph6<<CN", b"C", b"A~", b"~???"] {
        assert_eq!(cause(text), Cause::Graph6Text);
    }
    for text in [&b"~~"[..], b"~?BH", b"~?BH\n"] {
        assert_eq!(cause(text), Cause::Graph6Size);
    }
    let refusal = graph6_write(&[0, 1, 0, 1], 4, &mut [0; 8]).unwrap_err();
    assert_eq!(refusal.cause, Cause::BadEdgeList);
    assert_eq!(refusal.places, (1, 0));
    let refusal = graph6_write(&[], 201, &mut [0; 8]).unwrap_err();
    assert_eq!(refusal.cause, Cause::BadEdgeList);
    assert_eq!(refusal.places, (0, 0));
}

/// Two squares that differ in two edges, from states of every kind.
#[test]
fn drawings_of_a_square() {
    let ring = [(0, 1), (2, 1), (2, 3), (3, 0)];
    let mut state = laid(&SQUARE);
    let expected = Drawn {
        removed: vec![],
        added: ring.to_vec(),
    };
    assert_eq!(state.draw(&ring), Ok(expected));
    assert_eq!(edges(&state), [(0, 1), (0, 3), (1, 2), (2, 3)]);
    // Once drawn, there is nothing to do.
    assert_eq!(state.draw(&ring), Ok(Drawn::default()));
    let mut completed = laid(&SQUARE);
    complete(&mut completed);
    let drawn = completed.draw(&ring).unwrap();
    assert_eq!(drawn.removed, [(0, 2), (1, 3)]);
    assert_eq!(drawn.added, [(0, 1), (2, 3)]);
    assert_eq!(completed, state);
    // A triangle leaves no room for vertex 3.
    let mut half_laid = laid(&SQUARE);
    for (v, w) in [(0, 1), (0, 2), (1, 2)] {
        half_laid.add_edge(v, w).unwrap();
    }
    let drawn = half_laid.draw(&ring).unwrap();
    assert_eq!(drawn.removed, [(0, 2)]);
    assert_eq!(drawn.added, [(2, 3), (3, 0)]);
    assert_eq!(half_laid, state);
    assert_eq!(State::new().draw(&[]).unwrap_err(), not_laid());
    assert_eq!(laid(&[]).draw(&[]), Ok(Drawn::default()));
}

fn not_laid() -> NotDrawn {
    let refusal = State::new().edges().unwrap_err();
    assert_eq!(refusal.cause, Cause::WrongPhase);
    NotDrawn::from(refusal)
}

/// States without an edge, completed, with one of the drawing's edges and another, and half laid with
/// a switch. Two vertices are isolated, four are in a square.
fn squares() -> [State; 4] {
    let empty = laid(&[(0, 0, 2), (2, 2, 8)]);
    let [mut completed, mut by_hand, mut switched] = [empty.clone(), empty.clone(), empty.clone()];
    complete(&mut completed);
    for (v, w) in [(2, 3), (2, 4)] {
        by_hand.add_edge(v, w).unwrap();
    }
    for (v, w) in [(2, 3), (2, 4), (3, 4), (2, 5)] {
        switched.add_edge(v, w).unwrap();
    }
    switched.remove_edge(3, 5).unwrap();
    [empty, completed, by_hand, switched]
}

/// What `draw` says, the same from every state, each of which it leaves as it was.
fn not_drawn(edges: &[(u64, u64)]) -> NotDrawn {
    let said = squares().map(|mut state| {
        let before = state.clone();
        let said = state.draw(edges).unwrap_err();
        assert_eq!(state, before, "{edges:?}");
        said
    });
    assert!(
        said.iter().all(|each| same_kind(each, &said[0])),
        "{said:?}"
    );
    said[0]
}

/// The switches that an edge would take depend on the state.
fn same_kind(one: &NotDrawn, other: &NotDrawn) -> bool {
    match (one, other) {
        (NotDrawn::Moved { .. }, NotDrawn::Moved { .. }) => true,
        _ => one == other,
    }
}

/// The last edge of each drawing is refused.
#[test]
fn drawings_that_are_refused() {
    type Case = (&'static [(u64, u64)], Cause, (u64, u64));
    let cases: [Case; 8] = [
        (&[(2, 3), (4, 5), (2, 3)], Cause::EdgePresent, (0, 0)),
        (&[(2, 3), (4, 5), (3, 2)], Cause::EdgePresent, (0, 0)),
        (&[(2, 3), (4, 4)], Cause::SameVertex, (0, 0)),
        (&[(2, 3), (2, 6)], Cause::NoSuchVertex, (0, 0)),
        (&[(6, 6)], Cause::NoSuchVertex, (0, 0)),
        (&[(u64::MAX, 2)], Cause::NoSuchVertex, (0, 0)),
        (&[(258, 3)], Cause::NoSuchVertex, (0, 0)),
        (&[(2, 3), (2, 1)], Cause::CellNotShort, (0, 2)),
    ];
    for (edges, cause, places) in cases {
        let refusal = Refusal { cause, places };
        let edge = edges.last().copied();
        assert_eq!(not_drawn(edges), NotDrawn::Refused { refusal, edge });
    }
    let refused = not_drawn(&[(4, 4)]);
    let text = "edge 4-4: both ends are the same vertex (refusal 14)";
    assert_eq!(refused.to_string(), text);
    assert!(refused.source().is_some());
    assert!(not_laid().to_string().ends_with("(refusal 3)"));
    // A fifth edge: the cell is full.
    let five = [(2, 3), (3, 4), (4, 5), (5, 2), (2, 4)];
    let refused = laid(&[(0, 0, 2), (2, 2, 8)]).draw(&five).unwrap_err();
    let text =
        "edge 2-4: the cell of the two vertices takes no more edges: cell (2, 2) (refusal 16)";
    assert_eq!(refused.to_string(), text);
}

/// A vertex with more edges than its degree, and drawings with too few edges.
#[test]
fn drawings_of_other_degrees_or_too_few_edges() {
    let moved = not_drawn(&[(2, 3), (2, 4), (2, 5), (3, 4)]);
    assert!(matches!(moved, NotDrawn::Moved { .. }));
    let mut state = laid(&[(0, 0, 2), (2, 2, 8)]);
    let NotDrawn::Moved { edge, switches } = state.draw(&[(2, 3), (2, 4), (2, 5)]).unwrap_err()
    else {
        panic!("vertex 2 has three edges");
    };
    assert_eq!((edge, switches.len()), ((2, 5), 1));
    let [first, ..] = *switches else { panic!() };
    assert_eq!(first.a, 2);
    for (edges, missing) in [(&[(2, 3), (3, 4)][..], 2), (&[], 4)] {
        assert_eq!(not_drawn(edges), NotDrawn::Incomplete { missing });
    }
    for said in [moved, not_drawn(&[])] {
        assert!(said.to_string().len() > 20 && said.source().is_none());
    }
}

/// Draws a graph in any order, and follows edge by edge what was said.
fn draw(graph: &Graph, state: &mut State, random: &mut Random) {
    let mut followed: BTreeSet<(u8, u8)> = edges(state).into_iter().collect();
    let pair = |(v, w): (u64, u64)| (v.min(w) as u8, v.max(w) as u8);
    let drawn = state.draw(&in_any_order(graph, random)).unwrap();
    for edge in drawn.removed {
        assert!(followed.remove(&pair(edge)), "{edge:?}");
    }
    for edge in drawn.added {
        assert!(followed.insert(pair(edge)), "{edge:?}");
    }
    assert!(followed.into_iter().eq(edges(state)));
    assert_eq!(state.adjacency(), graph.adjacency());
}

/// Random graphs, each reached from another of its table and degrees and back, and one with two
/// vertices of different degrees exchanged, which is not.
#[test]
fn drawings_of_random_graphs() {
    let mut exchanged = 0;
    for seed in 0..60 {
        let mut random = Random::new(seed);
        let graph = graphs::any(80, &mut random).by_rising_degree();
        let other = graph.rewired(300, &mut random);
        let mut state = laid_for(&graph);
        for graph in [&graph, &other, &graph] {
            draw(graph, &mut state, &mut random);
        }
        let degrees = graph.degrees();
        let last = degrees.len() - 1;
        if degrees[0] < degrees[last] {
            let before = state.clone();
            let wrong = in_any_order(&graph.exchanged(0, last), &mut random);
            assert!(state.draw(&wrong).is_err(), "seed {seed}");
            assert_eq!(state, before);
            exchanged += 1;
        }
    }
    assert!(exchanged > 20, "{exchanged}");
}

fn laid_for(graph: &Graph) -> State {
    let mut state = State::new();
    for (number, block) in (0..).zip(graph.table().records().chunks(MAX_BLOCK_BYTES)) {
        state.take_block(number, block).unwrap();
    }
    state.lay_out().unwrap();
    state
}

fn in_any_order(graph: &Graph, random: &mut Random) -> Vec<(u64, u64)> {
    let mut drawing: Vec<(u64, u64)> = Vec::new();
    for &(v, w) in graph.edges() {
        drawing.push(random.either_way((v as u64, w as u64)));
    }
    random.shuffle(&mut drawing);
    drawing
}

/// Three edges of degree 1.
fn three_edges() -> State {
    let mut state = laid(&[(1, 1, 6)]);
    for (v, w) in [(0, 1), (2, 3), (4, 5)] {
        state.add_edge(v, w).unwrap();
    }
    state
}

#[test]
fn swaps_and_takings_back() {
    let mut state = three_edges();
    let before = state.clone();
    assert_eq!(state.swap_edges(0, 1, 2, 3), Ok(()));
    assert_eq!(edges(&state), [(0, 3), (1, 2), (4, 5)]);
    assert_eq!(state.swap_edges(3, 0, 4, 5), Ok(()));
    assert_eq!(edges(&state), [(0, 4), (1, 2), (3, 5)]);
    let swap = |a, b, c, d| Swap { a, b, c, d };
    let (first, second) = (swap(0, 1, 2, 3), swap(3, 0, 4, 5));
    assert!(state.swaps().eq([first, second]));
    assert!(state.swaps().rev().eq([second, first]));
    assert_eq!(state.swaps().len(), 2);
    assert_eq!(state.log()[..10], [2, 0, 0, 1, 2, 3, 3, 0, 4, 5]);
    assert_eq!(format!("{state:?}").matches("swaps: 2").count(), 1);
    // The state is its log, too.
    let without = State::from_bytes(state.journal(), state.adjacency(), before.log());
    assert_ne!(Ok(&state), without.as_ref());
    assert_eq!(state.undo_swap(), Ok(second));
    assert_eq!(state.undo_swap(), Ok(first));
    assert_eq!(state, before);
    let refusal = state.undo_swap().unwrap_err();
    assert_eq!((refusal.cause, refusal.places), (Cause::LogEmpty, (0, 0)));
    for (a, b, c, d, cause) in [
        (0, 1, 2, 6, Cause::NoSuchVertex),
        (0, 1, 0, 1, Cause::SwapNotAllowed),
        (0, 2, 1, 3, Cause::SwapNotAllowed),
    ] {
        let refusal = state.swap_edges(a, b, c, d).unwrap_err();
        assert_eq!((refusal.cause, refusal.places), (cause, (0, 0)));
    }
    assert_eq!(state, before);
}

#[test]
fn a_log_has_room_for_1024_swaps() {
    let mut state = three_edges();
    let before = state.clone();
    for number in 0..MAX_SWAPS {
        let (b, d) = if number % 2 == 0 { (1, 3) } else { (3, 1) };
        assert_eq!(state.swap_edges(0, b, 2, d), Ok(()));
    }
    let refusal = state.swap_edges(0, 1, 2, 3).unwrap_err();
    assert_eq!(refusal.cause, Cause::LogFull);
    assert_eq!(state.swaps().len(), MAX_SWAPS);
    let again = State::from_bytes(state.journal(), state.adjacency(), state.log());
    assert_eq!(again.as_ref(), Ok(&state));
    while state.undo_swap().is_ok() {}
    assert_eq!(state, before);
    // A count beyond all records gives all there are.
    assert_eq!(Swaps::new(&[255; LOG_BYTES]).len(), MAX_SWAPS);
}

#[test]
fn states_from_bytes_and_a_log() {
    let mut state = swapped_once();
    let from = |journal: &[u8], adjacency: &[u8], log: &[u8]| {
        let state = State::from_bytes(journal, adjacency, log);
        state.map_err(|refusal| refusal.cause.number())
    };
    let (journal, adjacency, log) = (state.journal(), state.adjacency(), state.log());
    assert_eq!(from(journal, adjacency, log).as_ref(), Ok(&state));
    let empty = [0; LOG_BYTES];
    assert!(from(journal, adjacency, &empty).is_ok());
    assert_eq!(from(journal, adjacency, &log[1..]), Err(1));
    assert_eq!(from(journal, &adjacency[1..], log), Err(1));
    assert_eq!(from(journal, &[0; 40_000], log), Err(2));
    // In either phase, complete or not: all that is asked is whether the bytes are valid.
    let taking = state_of(&[(1, 1, 6)]);
    let (journal, adjacency) = (taking.journal(), taking.adjacency());
    assert_eq!(from(journal, adjacency, &empty).as_ref(), Ok(&taking));
    assert_eq!(from(journal, adjacency, log), Err(2));
    state.remove_edge(4, 5).unwrap();
    let (journal, adjacency) = (state.journal(), state.adjacency());
    assert!(from(journal, adjacency, swapped_once().log()).is_ok());
}

fn swapped_once() -> State {
    let mut state = three_edges();
    state.swap_edges(0, 1, 2, 3).unwrap();
    state
}

/// A drawing that is there already changes nothing; any other empties the log.
#[test]
fn drawings_and_swaps() {
    let mut state = swapped_once();
    let before = state.clone();
    let drawn = state.draw(&[(0, 3), (1, 2), (4, 5)]).unwrap();
    assert_eq!((drawn, &state), (Drawn::default(), &before));
    assert!(state.draw(&[(0, 3), (0, 3)]).is_err());
    assert_eq!(state, before);
    state.draw(&[(0, 1), (2, 3), (4, 5)]).unwrap();
    assert_eq!(state, three_edges());
    let mut state = before;
    state.clear().unwrap();
    assert_eq!(state, State::new());
}

#[test]
fn figures_checked_by_hand() {
    type Case = (&'static [(u8, u8, u16)], u64, (u64, u64));
    let cases: [Case; 7] = [
        (&[(1, 1, 4)], 4, (2, 1)),
        (&[(1, 1, 6)], 6, (3, 3)),
        (&[(2, 2, 12)], 6, (6, 6)),
        (&[(1, 2, 4), (2, 2, 2)], 7, (5, 5)),
        (&[(3, 3, 18)], 6, (9, 8)),
        (&[(1, 1, 200)], 200, (100, 197)),
        (&[(40, 40, 8_000)], 200, (4_000, 7_139)),
    ];
    for (cells, vertices, (joins, switches)) in cases {
        let mut state = state_of(cells);
        assert_eq!(state.lay_out(), Ok(vertices), "{cells:?}");
        assert_eq!(complete(&mut state), (joins, switches), "{cells:?}");
        let figures = state.figures().unwrap();
        assert_eq!(figures.edges_laid, joins);
        assert_eq!(figures.edges_wanted, joins);
    }
}

#[test]
fn every_cause_reads_well() {
    for (number, cause) in (1..).zip(Cause::ALL) {
        assert_eq!(cause.number(), number);
        assert_eq!(Cause::from_number(number), Some(cause));
        assert!(cause.to_string().len() > 10);
    }
    assert_eq!(Cause::from_number(0), None);
    assert_eq!(Cause::from_number(26), None);
}
