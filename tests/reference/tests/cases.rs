//! Every case that document 01 names, and the figures checked by hand.

use reference::journal::record;
use reference::program::{lay, output, Laid};
use reference::{
    add_edge, adjacency, clear, complete, edge_list, figures, held_block, jdm_of_edges, lay_out,
    log, refused, refused_at, remove_edge, take_block, Refused, Switch, Table, Take,
    ADJACENCY_BYTES, JOURNAL_BYTES, LOG_BYTES,
};

fn records(cells: &[(usize, usize, u64)]) -> Vec<u8> {
    cells
        .iter()
        .flat_map(|&(k, l, count)| record(k, l, count))
        .collect()
}

fn laid(cells: &[(usize, usize, u64)]) -> Laid {
    lay(&records(cells), &[]).unwrap()
}

fn refusal(cells: &[(usize, usize, u64)]) -> Refused {
    lay(&records(cells), &[]).unwrap_err()
}

/// A laid state without edges.
fn empty(cells: &[(usize, usize, u64)]) -> (Vec<u8>, Vec<u8>) {
    let mut journal = vec![0; JOURNAL_BYTES];
    let adjacency = vec![0; ADJACENCY_BYTES];
    for (number, block) in records(cells).chunks(64).enumerate() {
        take_block(&mut journal, &adjacency, number as u64, block).unwrap();
    }
    lay_out(&mut journal, &adjacency).unwrap();
    (journal, adjacency)
}

const PAPER: [(usize, usize, u64); 3] = [(1, 3, 1), (2, 2, 2), (2, 3, 2)];
const SQUARE: [(usize, usize, u64); 1] = [(2, 2, 8)];
const SQUARE_EDGES: [(usize, usize); 4] = [(0, 2), (0, 3), (1, 2), (1, 3)];

#[test]
fn no_blocks_lay_out_no_vertices() {
    let state = laid(&[]);
    assert_eq!((state.vertices, state.joins, state.switches), (0, 0, 0));
    assert!(state.adjacency.iter().all(|&byte| byte == 0));
    assert_eq!(state.journal[..2], [1, 0]);
}

#[test]
fn one_edge() {
    let state = laid(&[(1, 1, 2)]);
    assert_eq!(state.vertices, 2);
    assert_eq!(adjacency::edges(&state.adjacency), [(0, 1)]);
}

#[test]
fn the_table_of_document_004() {
    let state = laid(&PAPER);
    let edges = adjacency::edges(&state.adjacency);
    assert_eq!(edges, [(0, 3), (1, 2), (1, 3), (2, 3)]);
    assert_eq!((state.joins, state.switches), (4, 0));
}

#[test]
fn a_square_from_empty() {
    let state = laid(&SQUARE);
    assert_eq!(adjacency::edges(&state.adjacency), SQUARE_EDGES);
    assert_eq!((state.joins, state.switches), (4, 2));
}

#[test]
fn a_square_from_a_triangle() {
    let (journal, mut adjacency) = empty(&SQUARE);
    let mut add = |v, w| add_edge(&journal, &mut adjacency, &mut log::empty(), v, w);
    for (v, w) in [(0, 1), (0, 2), (1, 2)] {
        assert_eq!(add(v, w), Ok(vec![]));
    }
    assert_eq!(add(0, 3), Ok(vec![Switch { a: 0, b: 3, t: 1 }]));
    assert_eq!(adjacency::edges(&adjacency), SQUARE_EDGES);
}

#[test]
fn tables_without_a_graph() {
    assert_eq!(refusal(&[(2, 2, 5)]), refused_at(9, 2, 2));
    assert_eq!(refusal(&[(1, 3, 1)]), refused_at(10, 3, 0));
    assert_eq!(refusal(&[(2, 2, 4)]), refused_at(11, 2, 2));
    assert_eq!(refusal(&[(40, 40, 1_600)]), refused_at(11, 40, 40));
}

#[test]
fn tables_that_fit() {
    let triangle = laid(&[(2, 2, 6)]);
    let edges = adjacency::edges(&triangle.adjacency);
    assert_eq!(edges, [(0, 1), (0, 2), (1, 2)]);
    assert_eq!(laid(&[(2, 3, 6)]).vertices, 5);
    assert_eq!(laid(&[(1, 1, 200)]).vertices, 200);
    assert_eq!(laid(&[(40, 40, 1_640)]).vertices, 41);
}

#[test]
fn too_many_vertices() {
    assert_eq!(refusal(&[(1, 1, 202)]), refused(12));
}

#[test]
fn the_program() {
    let input = [1, 3, 1, 0, 2, 2, 2, 0, 2, 3, 2, 0];
    assert_eq!(
        output(&input),
        "boards 4 links 4 switches 0\n0 3\n1 2\n1 3\n2 3\n"
    );
    assert_eq!(output(&[2, 2, 4, 0]), "refused 11 2 2\n");
    assert_eq!(output(&[]), "boards 0 links 0 switches 0\n");
    assert_eq!(output(&[1, 1, 2]), "refused 4 0 0\n");
    assert_eq!(output(&[1, 1, 2, 0, 2, 1, 0, 0]), "refused 5 1 0\n");
}

#[test]
fn the_program_with_full_blocks() {
    let block = [1, 1, 0, 0].repeat(16);
    let answer = "boards 0 links 0 switches 0\n";
    assert_eq!(output(&block.repeat(64)), answer);
    assert_eq!(output(&block.repeat(65)), "refused 8 0 0\n");
    let mut spoiled = block.repeat(65);
    spoiled.push(0);
    // The 65th block is refused first; what follows does not matter.
    assert_eq!(output(&spoiled), "refused 8 0 0\n");
    let mut malformed = block.repeat(64);
    malformed.push(0);
    assert_eq!(output(&malformed), "refused 4 0 0\n");
}

/// Wrong turn: diagonal counted once.
#[test]
fn the_diagonal_counts_twice() {
    let mut output = [0; 4];
    assert_eq!(jdm_of_edges(&[0, 1], 2, &mut output), Ok(4));
    assert_eq!(output, [1, 1, 2, 0]);
    let state = laid(&[(1, 1, 4)]);
    assert_eq!(adjacency::edges(&state.adjacency).len(), 2);
}

/// Wrong turn: b chosen always apart from the other named vertex. Here it is the only open one.
#[test]
fn the_other_named_vertex_may_take_the_edge() {
    let (journal, mut adjacency) = empty(&SQUARE);
    for (v, w) in [(0, 1), (0, 2), (1, 2)] {
        add_edge(&journal, &mut adjacency, &mut log::empty(), v, w).unwrap();
    }
    let switch = Switch { a: 0, b: 3, t: 1 };
    for (v, w) in [(0, 3), (3, 0)] {
        let mut adjacency = adjacency.clone();
        let switches = add_edge(&journal, &mut adjacency, &mut log::empty(), v, w);
        assert_eq!(switches, Ok(vec![switch]));
        assert_eq!(adjacency::edges(&adjacency), SQUARE_EDGES);
    }
}

/// Wrong turn: evenness tested for each block instead of the sum.
#[test]
fn evenness_is_of_the_sum() {
    let mut journal = vec![0; JOURNAL_BYTES];
    let adjacency = vec![0; ADJACENCY_BYTES];
    let taken = take_block(&mut journal, &adjacency, 0, &[2, 2, 3, 0]);
    assert_eq!(taken, Ok(Take::Taken(1)));
    let taken = take_block(&mut journal, &adjacency, 1, &[2, 2, 3, 0]);
    assert_eq!(taken, Ok(Take::Taken(2)));
    assert_eq!(lay_out(&mut journal, &adjacency), Ok(3));
}

/// Wrong turn: joining only vertices that are not saturated stops at three edges.
#[test]
fn saturated_vertices_are_joined_too() {
    let state = lay(&records(&SQUARE), &[(0, 1), (0, 2), (1, 2)]).unwrap();
    assert_eq!((state.joins, state.switches), (1, 1));
    assert_eq!(adjacency::edges(&state.adjacency), SQUARE_EDGES);
}

/// Vertices, edges and switches.
#[test]
fn figures_checked_by_hand() {
    type Case = (&'static [(usize, usize, u64)], (u64, u64, u64));
    let cases: [Case; 7] = [
        (&[(1, 1, 4)], (4, 2, 1)),
        (&[(1, 1, 6)], (6, 3, 3)),
        (&[(2, 2, 12)], (6, 6, 6)),
        (&[(1, 2, 4), (2, 2, 2)], (7, 5, 5)),
        (&[(3, 3, 18)], (6, 9, 8)),
        (&[(1, 1, 200)], (200, 100, 197)),
        (&[(40, 40, 8_000)], (200, 4_000, 7_139)),
    ];
    for (cells, expected) in cases {
        let state = laid(cells);
        let edges = adjacency::edges(&state.adjacency).len() as u64;
        assert_eq!(
            (state.vertices, edges, state.switches),
            expected,
            "{cells:?}"
        );
        assert_eq!(state.joins, edges);
    }
}

#[test]
fn a_column_is_visited_again_after_a_switch() {
    let state = laid(&[(1, 1, 4)]);
    assert_eq!(adjacency::edges(&state.adjacency), [(0, 2), (1, 3)]);
}

#[test]
fn the_largest_sums_do_not_overflow() {
    let mut journal = vec![0; JOURNAL_BYTES];
    let adjacency = vec![0; ADJACENCY_BYTES];
    let block = record(1, 2, 65_535).repeat(16);
    for number in 0..64 {
        let taken = take_block(&mut journal, &adjacency, number, &block);
        assert_eq!(taken, Ok(Take::Taken(number + 1)));
    }
    let sum = reference::journal::summed_table(&journal);
    assert_eq!(sum.matrix.row_sum(1), 67_107_840);
    assert_eq!(lay_out(&mut journal, &adjacency), Err(refused(12)));
}

#[test]
fn order_of_checks_when_taking() {
    let adjacency = vec![0; ADJACENCY_BYTES];
    let mut journal = vec![0; JOURNAL_BYTES];
    let good = [1, 1, 2, 0];
    let take = |journal: &mut Vec<u8>, number, block: &[u8]| {
        take_block(journal, &adjacency, number, block)
    };
    assert_eq!(take(&mut journal, 1, &good), Err(refused(6)));
    assert_eq!(take(&mut journal, 0, &good), Ok(Take::Taken(1)));
    assert_eq!(take(&mut journal, 0, &good), Ok(Take::Held));
    assert_eq!(take(&mut journal, 0, &[1, 1, 4, 0]), Err(refused(7)));
    assert_eq!(take(&mut journal, 0, &good.repeat(2)), Err(refused(7)));
    assert_eq!(take(&mut journal, 0, &[]), Err(refused(7)));
    assert_eq!(take(&mut journal, 9, &[]), Err(refused(6)));
    assert_eq!(take(&mut journal, 9, &[1; 3]), Err(refused(4)));
    assert_eq!(take(&mut journal, 9, &[1; 68]), Err(refused(4)));
    assert_eq!(
        take(&mut journal, 0, &[0, 1, 2, 0]),
        Err(refused_at(5, 0, 0))
    );
    assert_eq!(
        take(&mut journal, 0, &[1, 41, 2, 0]),
        Err(refused_at(5, 0, 0))
    );
    assert_eq!(
        take(&mut journal, 9, &[1, 1, 2, 0, 3, 2, 0, 0]),
        Err(refused_at(5, 1, 0))
    );
    assert_eq!(lay_out(&mut journal, &adjacency), Ok(2));
    assert_eq!(lay_out(&mut journal, &adjacency), Err(refused(3)));
    assert_eq!(take(&mut journal, 0, &good), Ok(Take::Held));
    assert_eq!(take(&mut journal, 1, &good), Err(refused(3)));
    assert_eq!(take(&mut journal, 2, &good), Err(refused(6)));
}

#[test]
fn sixty_four_blocks() {
    let adjacency = vec![0; ADJACENCY_BYTES];
    let mut journal = vec![0; JOURNAL_BYTES];
    let block = [1, 1, 2, 0];
    for number in 0..64 {
        take_block(&mut journal, &adjacency, number, &block).unwrap();
    }
    let mut take = |number| take_block(&mut journal, &adjacency, number, &block);
    assert_eq!(take(64), Err(refused(8)));
    assert_eq!(take(65), Err(refused(6)));
    assert_eq!(take(u64::MAX), Err(refused(6)));
    assert_eq!(take(63), Ok(Take::Held));
    assert_eq!(lay_out(&mut journal, &adjacency), Ok(128));
    // A new block in phase 1 is 3, also with 64 in the journal.
    let answer = take_block(&mut journal, &adjacency, 64, &block);
    assert_eq!(answer, Err(refused(3)));
}

#[test]
fn order_of_checks_when_joining() {
    let (journal, mut adjacency) = empty(&PAPER);
    let mut add = |v, w| add_edge(&journal, &mut adjacency, &mut log::empty(), v, w);
    assert_eq!(add(4, 4), Err(refused(13)));
    assert_eq!(add(0, u64::MAX), Err(refused(13)));
    assert_eq!(add(3, 3), Err(refused(14)));
    assert_eq!(add(0, 3), Ok(vec![]));
    assert_eq!(add(0, 3), Err(refused(15)));
    assert_eq!(add(3, 0), Err(refused(15)));
    assert_eq!(add(2, 0), Err(refused_at(16, 1, 2)));
    let mut remove = |v, w| remove_edge(&journal, &mut adjacency, &mut log::empty(), v, w);
    assert_eq!(remove(4, 4), Err(refused(13)));
    assert_eq!(remove(1, 1), Err(refused(14)));
    assert_eq!(remove(1, 2), Err(refused(17)));
    assert_eq!(remove(3, 0), Ok(()));
}

#[test]
fn entries_that_need_vertices() {
    let journal = vec![0; JOURNAL_BYTES];
    let mut adjacency = vec![0; ADJACENCY_BYTES];
    assert_eq!(
        add_edge(&journal, &mut adjacency, &mut log::empty(), 0, 0),
        Err(refused(3))
    );
    assert_eq!(
        remove_edge(&journal, &mut adjacency, &mut log::empty(), 0, 0),
        Err(refused(3))
    );
    let answer = complete(&journal, &mut adjacency, &mut log::empty(), &mut []);
    assert_eq!(answer, Err(refused(3)));
    assert_eq!(edge_list(&journal, &adjacency, &mut []), Err(refused(3)));
    assert_eq!(held_block(&journal, &adjacency, 0), Err(refused(6)));
    assert_eq!(figures(&journal, &adjacency).unwrap().phase, 0);
}

#[test]
fn lists_and_their_matrices() {
    let state = laid(&PAPER);
    let mut list = [9; 10];
    assert_eq!(
        edge_list(&state.journal, &state.adjacency, &mut list),
        Ok(8)
    );
    assert_eq!(list, [0, 3, 1, 2, 1, 3, 2, 3, 9, 9]);
    let short = edge_list(&state.journal, &state.adjacency, &mut list[..7]);
    assert_eq!(short, Err(refused(18)));
    let mut output = [9; 13];
    assert_eq!(jdm_of_edges(&list[..8], 4, &mut output), Ok(12));
    assert_eq!(output, [1, 3, 1, 0, 2, 2, 2, 0, 2, 3, 2, 0, 9]);
    let short = jdm_of_edges(&list[..8], 4, &mut output[..11]);
    assert_eq!(short, Err(refused(18)));
    assert_eq!(jdm_of_edges(&[], 0, &mut []), Ok(0));
}

#[test]
fn refusals_of_edge_lists() {
    let refusal = |edges: &[u8]| jdm_of_edges(edges, 200, &mut []).unwrap_err();
    assert_eq!(refusal(&[5, 4, 3]), refused_at(19, 1, 0));
    assert_eq!(refusal(&[5]), refused_at(19, 0, 0));
    assert_eq!(refusal(&[0, 1, 1, 1]), refused_at(19, 1, 0));
    assert_eq!(refusal(&[0, 200]), refused_at(19, 0, 0));
    assert_eq!(refusal(&[0, 1, 0, 1]), refused_at(19, 1, 0));
    assert_eq!(refusal(&[0, 2, 1, 2, 0, 3]), refused_at(19, 2, 0));
    assert_eq!(refusal(&[0, 1]), refused(18));
    // Vertex 9 passes degree 40 only at the end, but vertex 199 has it first.
    let mut edges: Vec<u8> = Vec::new();
    for v in 0..9 {
        edges.extend([v, 9, v, 199]);
    }
    for w in 10..42 {
        edges.extend([9, w]);
    }
    for v in 50..90 {
        edges.extend([v, 199]);
    }
    assert_eq!(refusal(&edges), refused_at(20, 9, 0));
}

#[test]
fn lengths_come_before_bytes() {
    let journal = vec![7; JOURNAL_BYTES];
    let adjacency = vec![7; ADJACENCY_BYTES];
    assert_eq!(figures(&journal, &adjacency[1..]), Err(refused(1)));
    assert_eq!(figures(&journal, &adjacency), Err(refused(2)));
}

#[test]
fn clearing_looks_at_lengths_alone() {
    let mut journal = vec![7; JOURNAL_BYTES];
    let mut adjacency = vec![7; ADJACENCY_BYTES - 1];
    let mut log = vec![7; LOG_BYTES];
    let mut clear = |adjacency: &mut [u8], log: &mut [u8]| clear(&mut journal, adjacency, log);
    assert_eq!(clear(&mut adjacency, &mut log), Err(refused(1)));
    adjacency.push(7);
    assert_eq!(clear(&mut adjacency, &mut log[1..]), Err(refused(1)));
    assert_eq!(clear(&mut adjacency, &mut log), Ok(()));
    let bytes = [journal, adjacency, log].concat();
    assert!(bytes.iter().all(|&byte| byte == 0));
}

#[test]
fn figures_of_a_state() {
    let (journal, mut adjacency) = empty(&PAPER);
    add_edge(&journal, &mut adjacency, &mut log::empty(), 0, 3).unwrap();
    let found = figures(&journal, &adjacency).unwrap();
    let numbers = (found.phase, found.blocks, found.vertices);
    assert_eq!(numbers, (1, 1, 4));
    assert_eq!((found.edges_wanted, found.edges_laid), (4, 1));
}

#[test]
fn held_blocks_lie_in_the_journal() {
    let (journal, adjacency) = empty(&PAPER);
    assert_eq!(held_block(&journal, &adjacency, 0), Ok((3, 12)));
    assert_eq!(journal[3..15], records(&PAPER));
    assert_eq!(held_block(&journal, &adjacency, 1), Err(refused(6)));
}

#[test]
fn states_that_are_not_valid() {
    let state = laid(&SQUARE);
    let invalid = |journal: &[u8], adjacency: &[u8]| {
        assert_eq!(figures(journal, adjacency), Err(refused(2)));
    };
    let journal_with = |place: usize, byte: u8| {
        let mut journal = state.journal.clone();
        journal[place] = byte;
        invalid(&journal, &state.adjacency);
    };
    journal_with(0, 0); // edges before laying out
    journal_with(0, 2);
    journal_with(1, 0); // the first slot is not zero then
    journal_with(1, 65);
    journal_with(2, 0); // behind a block of no bytes all is zero
    journal_with(2, 5); // a block is whole records
    journal_with(2, 68);
    journal_with(3, 0);
    journal_with(5, 6); // a triangle has no room for four edges
    journal_with(7, 1); // after the block's length
    journal_with(JOURNAL_BYTES - 1, 1);
    let adjacency_with = |changes: &[(usize, usize, u8)]| {
        let mut bytes = state.adjacency.clone();
        for &(v, w, byte) in changes {
            bytes[adjacency::place(v, w)] = byte;
        }
        invalid(&state.journal, &bytes);
    };
    adjacency_with(&[(0, 2, 0)]);
    adjacency_with(&[(0, 2, 2), (2, 0, 2)]);
    adjacency_with(&[(0, 0, 1)]);
    adjacency_with(&[(4, 5, 1), (5, 4, 1)]);
    adjacency_with(&[(0, 1, 1), (1, 0, 1)]);
}

#[test]
fn cells_are_counted_at_the_degrees_laid_out() {
    // Vertices 4 and 5 are laid out with degree 2. Edge 4-5 alone gives both degree 1 for now, but
    // it counts in cell (2, 2), where none is wanted.
    let table = Table::of(&[(1, 2, 4)], 0);
    assert_eq!(table.degrees(), [1, 1, 1, 1, 2, 2]);
    let (journal, mut adjacency) = empty(&[(1, 2, 4)]);
    adjacency::insert(&mut adjacency, 4, 5);
    assert_eq!(figures(&journal, &adjacency), Err(refused(2)));
}
