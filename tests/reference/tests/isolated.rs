//! Isolated vertices (document 02, P1: idle boards) and the total given to a survey, each case
//! worked out by hand.

use reference::journal::record;
use reference::program::{lay, output};
use reference::{
    add_edge, adjacency, complete, edge_list, figures, jdm_of_edges, journal, lay_out, log,
    refused, refused_at, remove_edge, take_block, Refused, Table, Take, ADJACENCY_BYTES,
    JOURNAL_BYTES,
};

/// Three isolated vertices and the table of document 004.
const TABLE: [u8; 16] = [0, 0, 3, 0, 1, 3, 1, 0, 2, 2, 2, 0, 2, 3, 2, 0];

/// A laid state without edges.
fn empty(records: &[u8]) -> (Vec<u8>, Vec<u8>) {
    let (mut journal, adjacency) = taken(records);
    lay_out(&mut journal, &adjacency).unwrap();
    (journal, adjacency)
}

/// All records taken, in blocks of 16.
fn taken(records: &[u8]) -> (Vec<u8>, Vec<u8>) {
    let mut journal = vec![0; JOURNAL_BYTES];
    let adjacency = vec![0; ADJACENCY_BYTES];
    for (number, block) in (0..).zip(records.chunks(64)) {
        let answer = take_block(&mut journal, &adjacency, number, block);
        assert_eq!(answer, Ok(Take::Taken(number + 1)));
    }
    (journal, adjacency)
}

/// What laying out these cells beside so many isolated vertices answers.
fn laid_out(cells: &[(usize, usize, u64)], isolated: u64) -> Result<u64, Refused> {
    let (mut journal, adjacency) = taken(&Table::of(cells, isolated).records());
    lay_out(&mut journal, &adjacency)
}

/// What a survey writes.
fn surveyed(edges: &[u8], total: u64) -> Result<Vec<u8>, Refused> {
    let mut output = vec![0; 4 * 821];
    let length = jdm_of_edges(edges, total, &mut output)?;
    output.truncate(length as usize);
    Ok(output)
}

#[test]
fn records_with_a_zero_degree() {
    let adjacency = vec![0; ADJACENCY_BYTES];
    let take = |block: &[u8]| take_block(&mut vec![0; JOURNAL_BYTES], &adjacency, 0, block);
    assert_eq!(take(&[0, 0, 0, 0]), Ok(Take::Taken(1)));
    assert_eq!(take(&[0, 0, 255, 255]), Ok(Take::Taken(1)));
    for bad in [[0, 3, 1, 0], [3, 0, 1, 0], [0, 40, 0, 0], [0, 41, 0, 0]] {
        assert_eq!(take(&bad), Err(refused_at(5, 0, 0)));
        let behind = [[0, 0, 1, 0], [1, 1, 2, 0], bad].concat();
        assert_eq!(take(&behind), Err(refused_at(5, 2, 0)));
    }
}

#[test]
fn isolated_vertices_count_in_n() {
    assert_eq!(laid_out(&[], 1), Ok(1));
    assert_eq!(laid_out(&[], 200), Ok(200));
    assert_eq!(laid_out(&[], 201), Err(refused(12)));
    assert_eq!(laid_out(&[(1, 1, 198)], 2), Ok(200));
    assert_eq!(laid_out(&[(1, 1, 198)], 3), Err(refused(12)));
    assert_eq!(laid_out(&[(1, 1, 200)], 1), Err(refused(12)));
    assert_eq!(laid_out(&[(40, 40, 8_000)], 0), Ok(200));
    assert_eq!(laid_out(&[(40, 40, 8_000)], 1), Err(refused(12)));
    assert_eq!(laid_out(&[(40, 40, 1_640)], 159), Ok(200));
    assert_eq!(laid_out(&[(40, 40, 1_640)], 160), Err(refused(12)));
}

#[test]
fn the_other_tests_come_first_and_pass_them_by() {
    for isolated in [0, 1, 2, 200, 201, 65_535] {
        assert_eq!(laid_out(&[(2, 2, 5)], isolated), Err(refused_at(9, 2, 2)));
        assert_eq!(laid_out(&[(1, 3, 1)], isolated), Err(refused_at(10, 3, 0)));
        assert_eq!(laid_out(&[(2, 2, 4)], isolated), Err(refused_at(11, 2, 2)));
    }
}

#[test]
fn counts_add_up_beyond_16_bits() {
    let sum_of = |records: usize| {
        let (mut journal, adjacency) = taken(&record(0, 0, 65_535).repeat(records));
        let table = journal::summed_table(&journal);
        assert_eq!(table.matrix, Table::default().matrix);
        (table.isolated, lay_out(&mut journal, &adjacency))
    };
    assert_eq!(sum_of(2), (131_070, Err(refused(12))));
    assert_eq!(sum_of(1_024), (67_107_840, Err(refused(12))));
    // 65,536 + 100 is 100 in 16 bits.
    let records = [record(0, 0, 65_535), record(0, 0, 101)].concat();
    let (mut journal, adjacency) = taken(&records);
    assert_eq!(lay_out(&mut journal, &adjacency), Err(refused(12)));
    // Several records that together are 200.
    let records = [record(0, 0, 120), record(0, 0, 0), record(0, 0, 80)].concat();
    let (mut journal, adjacency) = taken(&records);
    assert_eq!(lay_out(&mut journal, &adjacency), Ok(200));
}

#[test]
fn isolated_vertices_are_numbered_first() {
    assert_eq!(
        Table::of(&[(1, 3, 1), (2, 2, 2), (2, 3, 2)], 3).degrees(),
        [0, 0, 0, 1, 2, 2, 3]
    );
    let laid = lay(&TABLE, &[]).unwrap();
    assert_eq!((laid.vertices, laid.joins, laid.switches), (7, 4, 0));
    let edges = adjacency::edges(&laid.adjacency);
    assert_eq!(edges, [(3, 6), (4, 5), (4, 6), (5, 6)]);
}

#[test]
fn joining_and_removing_at_isolated_vertices() {
    let (journal, mut adjacency) = empty(&TABLE);
    let mut add = |v, w| add_edge(&journal, &mut adjacency, &mut log::empty(), v, w);
    assert_eq!(add(0, 7), Err(refused(13)));
    assert_eq!(add(0, 0), Err(refused(14)));
    assert_eq!(add(0, 1), Err(refused_at(16, 0, 0)));
    assert_eq!(add(2, 3), Err(refused_at(16, 0, 1)));
    assert_eq!(add(3, 2), Err(refused_at(16, 0, 1)));
    assert_eq!(add(6, 0), Err(refused_at(16, 0, 3)));
    assert_eq!(add(3, 6), Ok(vec![]));
    assert_eq!(add(3, 6), Err(refused(15)));
    let mut remove = |v, w| remove_edge(&journal, &mut adjacency, &mut log::empty(), v, w);
    assert_eq!(remove(0, 7), Err(refused(13)));
    assert_eq!(remove(1, 1), Err(refused(14)));
    assert_eq!(remove(0, 1), Err(refused(17)));
    assert_eq!(remove(6, 0), Err(refused(17)));
    let done = complete(&journal, &mut adjacency, &mut log::empty(), &mut [0; 24]).unwrap();
    assert_eq!((done.joins, done.switches), (3, 0));
    assert_eq!(
        add_edge(&journal, &mut adjacency, &mut log::empty(), 1, 2),
        Err(refused_at(16, 0, 0))
    );
}

#[test]
fn figures_count_them_among_the_vertices_only() {
    let (journal, mut adjacency) = empty(&TABLE);
    let numbers = |adjacency: &[u8]| {
        let found = figures(&journal, adjacency).unwrap();
        (found.vertices, found.edges_wanted, found.edges_laid)
    };
    assert_eq!(numbers(&adjacency), (7, 4, 0));
    add_edge(&journal, &mut adjacency, &mut log::empty(), 3, 6).unwrap();
    assert_eq!(numbers(&adjacency), (7, 4, 1));
}

#[test]
fn an_edge_at_an_isolated_vertex_is_no_valid_state() {
    let (journal, adjacency) = empty(&TABLE);
    for (v, w) in [(0, 1), (0, 3), (2, 6), (2, 7)] {
        let mut damaged = adjacency.clone();
        adjacency::insert(&mut damaged, v, w);
        assert_eq!(figures(&journal, &damaged), Err(refused(2)), "{v}-{w}");
    }
    // Nor is a laid journal with more than 200 of them.
    let (mut journal, adjacency) = taken(&record(0, 0, 201));
    assert!(figures(&journal, &adjacency).is_ok());
    journal[0] = journal::LAID;
    assert_eq!(figures(&journal, &adjacency), Err(refused(2)));
    journal[5] = 200;
    assert_eq!(figures(&journal, &adjacency).unwrap().vertices, 200);
}

/// Zero bytes are a record of no isolated vertices: a slot whose length takes in some of the zeros
/// behind its block is another journal, and well-formed.
#[test]
fn four_zero_bytes_are_a_record() {
    let (mut journal, adjacency) = empty(&[2, 2, 8, 0]);
    for length in [8, 12, 64] {
        journal[2] = length;
        assert_eq!(figures(&journal, &adjacency).unwrap().vertices, 4);
        let answer = take_block(&mut journal, &adjacency, 0, &[2, 2, 8, 0]);
        assert_eq!(answer, Err(refused(7)));
    }
    assert_eq!(output(&[0; 64]), "boards 0 links 0 switches 0\n");
    assert_eq!(output(&[0; 4_096]), "boards 0 links 0 switches 0\n");
    assert_eq!(output(&[0; 4_100]), "refused 8 0 0\n");
}

#[test]
fn a_survey_writes_them_first() {
    assert_eq!(surveyed(&[], 0), Ok(vec![]));
    assert_eq!(surveyed(&[], 1), Ok(vec![0, 0, 1, 0]));
    assert_eq!(surveyed(&[], 200), Ok(vec![0, 0, 200, 0]));
    assert_eq!(surveyed(&[0, 1], 2), Ok(vec![1, 1, 2, 0]));
    assert_eq!(surveyed(&[0, 1], 3), Ok(vec![0, 0, 1, 0, 1, 1, 2, 0]));
    assert_eq!(surveyed(&[3, 7], 200), Ok(vec![0, 0, 198, 0, 1, 1, 2, 0]));
    assert_eq!(
        surveyed(&[198, 199], 200),
        Ok(vec![0, 0, 198, 0, 1, 1, 2, 0])
    );
    assert_eq!(surveyed(&[3, 6, 4, 5, 4, 6, 5, 6], 7), Ok(TABLE.to_vec()));
}

#[test]
fn the_total_of_a_survey_comes_before_all_else() {
    let refusal = |edges: &[u8], total| surveyed(edges, total).unwrap_err();
    for total in [201, 255, 256, 1 << 32, u64::MAX] {
        for edges in [&[][..], &[5], &[0, 1], &[1, 1], &[0, 1, 9]] {
            assert_eq!(refusal(edges, total), refused(19));
        }
    }
    // Then an odd length, then the edges.
    assert_eq!(refusal(&[0, 5, 0], 0), refused_at(19, 1, 0));
    assert_eq!(refusal(&[0, 1], 0), refused_at(19, 0, 0));
    assert_eq!(refusal(&[0, 1], 1), refused_at(19, 0, 0));
    assert_eq!(refusal(&[0, 1, 0, 5, 1, 3], 5), refused_at(19, 1, 0));
    assert_eq!(refusal(&[0, 1, 0, 199], 199), refused_at(19, 1, 0));
    assert_eq!(surveyed(&[0, 199], 200).map(|records| records.len()), Ok(8));
    assert_eq!(refusal(&[0, 200], 200), refused_at(19, 0, 0));
}

#[test]
fn a_degree_over_40_then_the_output() {
    let star: Vec<u8> = (1..42).flat_map(|w| [0, w]).collect();
    assert_eq!(surveyed(&star, 42), Err(refused_at(20, 0, 0)));
    assert_eq!(surveyed(&star, 41), Err(refused_at(19, 40, 0)));
    let survey = |total, length| jdm_of_edges(&[0, 1], total, &mut vec![0; length]);
    assert_eq!(survey(2, 4), Ok(4));
    assert_eq!(survey(3, 7), Err(refused(18)));
    assert_eq!(survey(3, 8), Ok(8));
}

#[test]
fn a_completed_state_surveyed_with_its_n() {
    let tables: [&[u8]; 4] = [
        &TABLE,
        &[0, 0, 200, 0],
        &[0, 0, 159, 0, 40, 40, 104, 6],
        &[0, 0, 1, 0, 1, 2, 4, 0, 2, 2, 2, 0],
    ];
    for table in tables {
        let laid = lay(table, &[]).unwrap();
        let mut list = vec![0; 8_000];
        let length = edge_list(&laid.journal, &laid.adjacency, &mut list).unwrap();
        let edges = &list[..length as usize];
        assert_eq!(surveyed(edges, laid.vertices).unwrap(), table);
    }
}

#[test]
fn the_program() {
    assert_eq!(output(&[0, 0, 0, 0]), "boards 0 links 0 switches 0\n");
    assert_eq!(output(&[0, 0, 200, 0]), "boards 200 links 0 switches 0\n");
    assert_eq!(output(&[0, 0, 201, 0]), "refused 12 0 0\n");
    assert_eq!(output(&[0, 3, 1, 0]), "refused 5 0 0\n");
    assert_eq!(output(&[0, 0, 1, 0, 3, 0, 1, 0]), "refused 5 1 0\n");
    assert_eq!(
        output(&[0, 0, 2, 0, 1, 1, 2, 0]),
        "boards 4 links 1 switches 0\n2 3\n"
    );
    assert_eq!(
        output(&TABLE),
        "boards 7 links 4 switches 0\n3 6\n4 5\n4 6\n5 6\n"
    );
}
