//! Blocks of no bytes (document 02, P4: a collector with nothing to report), each case worked out by
//! hand.

use reference::journal::summed_table;
use reference::program::output;
use reference::{
    complete, figures, held_block, lay_out, log, refused, refused_at, take_block, Table, Take,
    ADJACENCY_BYTES, JOURNAL_BYTES,
};

/// One edge between two vertices.
const PAIR: [u8; 4] = [1, 1, 2, 0];
/// The table of document 004, record by record.
const PAPER: [[u8; 4]; 3] = [[1, 3, 1, 0], [2, 2, 2, 0], [2, 3, 2, 0]];
/// The same in five blocks: the first, one between and the last are empty.
const WITH_EMPTY: [&[u8]; 5] = [&[], &[1, 3, 1, 0, 2, 2, 2, 0], &[], &PAPER[2], &[]];

/// A journal that has taken these blocks, and a matrix without edges.
fn taken(blocks: &[&[u8]]) -> (Vec<u8>, Vec<u8>) {
    let mut journal = vec![0; JOURNAL_BYTES];
    let adjacency = vec![0; ADJACENCY_BYTES];
    for (number, block) in (0..).zip(blocks) {
        let answer = take_block(&mut journal, &adjacency, number, block);
        assert_eq!(answer, Ok(Take::Taken(number + 1)));
    }
    (journal, adjacency)
}

#[test]
fn taken_and_held() {
    let (mut journal, adjacency) = taken(&[]);
    let mut take = |number, block: &[u8]| take_block(&mut journal, &adjacency, number, block);
    assert_eq!(take(1, &[]), Err(refused(6)));
    assert_eq!(take(0, &[]), Ok(Take::Taken(1)));
    assert_eq!(take(0, &[]), Ok(Take::Held));
    assert_eq!(take(1, &PAIR), Ok(Take::Taken(2)));
    assert_eq!(take(2, &[]), Ok(Take::Taken(3)));
    // Under a low number it is the same block or another one, as any block is.
    assert_eq!(take(0, &PAIR), Err(refused(7)));
    assert_eq!(take(0, &[0; 4]), Err(refused(7)));
    assert_eq!(take(1, &[]), Err(refused(7)));
    assert_eq!(take(2, &[]), Ok(Take::Held));
    assert_eq!(take(4, &[]), Err(refused(6)));
    assert_eq!(take(u64::MAX, &[]), Err(refused(6)));
    assert_eq!(lay_out(&mut journal, &adjacency), Ok(2));
    let mut take = |number, block: &[u8]| take_block(&mut journal, &adjacency, number, block);
    assert_eq!(take(0, &[]), Ok(Take::Held));
    assert_eq!(take(1, &[]), Err(refused(7)));
    assert_eq!(take(2, &PAIR), Err(refused(7)));
    assert_eq!(take(3, &[]), Err(refused(3)));
    assert_eq!(take(4, &[]), Err(refused(6)));
}

/// 4 and 5 stay as they are for all other blocks, whatever lies under the number.
#[test]
fn other_lengths() {
    let (mut journal, adjacency) = taken(&[&[], &PAIR]);
    let mut take = |number, block: &[u8]| take_block(&mut journal, &adjacency, number, block);
    for number in [0, 1, 2, 3, 64, u64::MAX] {
        for length in [1, 2, 3, 5, 63, 65, 68, 128] {
            assert_eq!(take(number, &vec![0; length]), Err(refused(4)));
        }
        assert_eq!(take(number, &[2, 1, 0, 0]), Err(refused_at(5, 0, 0)));
    }
}

#[test]
fn sixty_four_of_them() {
    let (mut journal, adjacency) = taken(&[&[][..]; 64]);
    let mut expected = vec![0; JOURNAL_BYTES];
    expected[1] = 64;
    assert_eq!(journal, expected);
    let mut take = |number, block: &[u8]| take_block(&mut journal, &adjacency, number, block);
    assert_eq!(take(64, &[]), Err(refused(8)));
    assert_eq!(take(64, &PAIR), Err(refused(8)));
    assert_eq!(take(65, &[]), Err(refused(6)));
    assert_eq!(take(63, &[]), Ok(Take::Held));
    assert_eq!(take(63, &PAIR), Err(refused(7)));
    assert_eq!(held_block(&journal, &adjacency, 63), Ok((4_098, 0)));
    assert_eq!(lay_out(&mut journal, &adjacency), Ok(0));
    // A new block in phase 1 is 3, also with 64 in the journal.
    let answer = take_block(&mut journal, &adjacency, 64, &[]);
    assert_eq!(answer, Err(refused(3)));
}

/// At its place and with length 0, before laying out and after; what is not held is refused.
#[test]
fn read_back() {
    let (mut journal, adjacency) = taken(&WITH_EMPTY);
    for _ in 0..2 {
        let held = |number| held_block(&journal, &adjacency, number);
        assert_eq!(held(0), Ok((3, 0)));
        assert_eq!(held(1), Ok((68, 8)));
        assert_eq!(held(2), Ok((133, 0)));
        assert_eq!(held(3), Ok((198, 4)));
        assert_eq!(held(4), Ok((263, 0)));
        assert_eq!(held(5), Err(refused(6)));
        assert_eq!(held(64), Err(refused(6)));
        journal[0] = 1;
    }
}

/// Taking one changes the count byte and no other.
#[test]
fn what_taking_writes() {
    let (before, adjacency) = taken(&[&PAIR, &[], &[0; 64]]);
    assert_eq!(before[..2], [0, 3]);
    let mut after = before.clone();
    let answer = take_block(&mut after, &adjacency, 3, &[]);
    assert_eq!(answer, Ok(Take::Taken(4)));
    assert_eq!(after[..2], [0, 4]);
    assert_eq!(after[2..], before[2..]);
}

/// N, the summed table, the completed matrix and the records of completing.
fn built(blocks: &[&[u8]]) -> (u64, Table, Vec<u8>, Vec<u8>) {
    let (mut journal, mut adjacency) = taken(blocks);
    let vertices = lay_out(&mut journal, &adjacency).unwrap();
    let mut records = vec![9; 40];
    complete(&journal, &mut adjacency, &mut log::empty(), &mut records).unwrap();
    (vertices, summed_table(&journal), adjacency, records)
}

#[test]
fn they_add_nothing() {
    let [a, b, c] = &PAPER;
    let without = built(&[a, b, c]);
    assert_eq!(without.0, 4);
    let table = Table::of(&[(1, 3, 1), (2, 2, 2), (2, 3, 2)], 0);
    assert_eq!(without.1, table);
    assert_eq!(without.3[..8], [0, 3, 255, 255, 255, 255, 255, 255]);
    let around: [&[&[u8]]; 6] = [
        &WITH_EMPTY,
        &[&[], a, b, c],
        &[a, &[], b, c],
        &[a, b, c, &[]],
        &[a, &[], &[], &[], b, &[], c],
        &[&[], &[], a, &[], b, &[], c, &[], &[]],
    ];
    for blocks in around {
        assert!(built(blocks) == without, "{blocks:?}");
    }
    // Nothing but empty ones: no vertices, as without any block.
    assert_eq!(built(&[]).0, 0);
    for count in [1, 2, 64] {
        assert!(built(&vec![&[][..]; count]) == built(&[]));
    }
}

#[test]
fn figures_count_them_among_the_blocks() {
    let (mut journal, adjacency) = taken(&WITH_EMPTY);
    assert_eq!(figures(&journal, &adjacency).unwrap().blocks, 5);
    lay_out(&mut journal, &adjacency).unwrap();
    let found = figures(&journal, &adjacency).unwrap();
    assert_eq!((found.phase, found.blocks), (1, 5));
    assert_eq!((found.vertices, found.edges_wanted), (4, 4));
}

/// A used slot of length 0 is zero like an unused one. A raised count byte makes another valid
/// journal, with more empty blocks at its end.
#[test]
fn the_count_byte_over_zero_slots() {
    let (mut journal, adjacency) = taken(&[&PAIR]);
    for phase in [0, 1] {
        journal[0] = phase;
        for count in 1..=64 {
            journal[1] = count;
            let found = figures(&journal, &adjacency).unwrap();
            assert_eq!(found.blocks, u64::from(count));
            let last = u64::from(count) - 1;
            let length = if last == 0 { 4 } else { 0 };
            let held = held_block(&journal, &adjacency, last);
            assert_eq!(held, Ok((3 + 65 * last, length)));
        }
        for count in [0, 65, 128, 255] {
            journal[1] = count;
            assert_eq!(figures(&journal, &adjacency), Err(refused(2)));
        }
    }
    // It is the journal that those blocks would have made.
    (journal[0], journal[1]) = (0, 3);
    assert_eq!(journal, taken(&[&PAIR, &[], &[]]).0);
}

/// Behind a length of 0 all 64 bytes are zero.
#[test]
fn a_length_of_zero() {
    let valid = |block: &[u8], place: usize, byte: u8| {
        let (mut journal, adjacency) = taken(&[&[], block, &[]]);
        journal[place] = byte;
        figures(&journal, &adjacency).is_ok()
    };
    // Slot 1 starts at byte 67.
    assert!(!valid(&PAIR, 67, 0));
    assert!(!valid(&[0, 0, 1, 0], 67, 0));
    assert!(valid(&[0; 4], 67, 0));
    assert!(valid(&[0; 64], 67, 0));
    for place in [68, 69, 71, 131] {
        assert!(!valid(&[], place, 1));
    }
    // Another length takes in zeros: records of no isolated vertices.
    assert!(valid(&[], 67, 4));
    assert!(valid(&[], 67, 64));
    assert!(!valid(&[], 67, 1));
    assert!(!valid(&[], 67, 68));
}

/// The program cuts what it reads: no input is no block, and m full blocks are m blocks.
#[test]
fn the_program() {
    let nothing = "boards 0 links 0 switches 0\n";
    assert_eq!(output(&[]), nothing);
    for blocks in [1, 2, 63, 64] {
        assert_eq!(output(&[1, 1, 0, 0].repeat(16 * blocks)), nothing);
    }
    let full = [1, 1, 0, 0].repeat(16 * 64);
    assert_eq!(output(&[&full[..], &PAIR].concat()), "refused 8 0 0\n");
    assert_eq!(output(&[&full[..], &[1]].concat()), "refused 4 0 0\n");
}
