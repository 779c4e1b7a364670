//! Directed cases for the order of checks, on both sides and against numbers written down here.

use comparison::both::Both;
use comparison::call::{room, Call, Completing};
use reference::journal::record;
use reference::numbers::Numbers;
use reference::refused_at as refused;
use reference::{ADJACENCY_BYTES, JOURNAL_BYTES, LOG_BYTES, MAX_DEGREE};

const DONE: [u64; 6] = [0; 6];
/// An edge added without a switch.
const JOINED: [u64; 9] = [0, 0, 0, 255, 255, 255, 255, 255, 255];

fn take(both: &mut Both, number: u64, block: &[u8]) -> Numbers {
    let block = block.to_vec();
    both.call(Call::TakeBlock { number, block })
}

fn add(both: &mut Both, v: u64, w: u64) -> Numbers {
    both.call(Call::AddEdge { v, w })
}

fn remove(both: &mut Both, v: u64, w: u64) -> Numbers {
    both.call(Call::RemoveEdge { v, w })
}

fn complete(both: &mut Both, length: usize) -> Numbers {
    complete_by(Completing::Lowest, both, length)
}

fn complete_by(completing: Completing, both: &mut Both, length: usize) -> Numbers {
    both.call(completing.call(vec![0xee; length]))
}

/// Either way to complete, the least and the most number among them.
const COMPLETING: [Completing; 3] = [
    Completing::Lowest,
    Completing::Shuffled(0),
    Completing::Shuffled(u32::MAX),
];

fn list(both: &mut Both, length: usize) -> Numbers {
    let output = vec![0xee; length];
    both.call(Call::EdgeList { output })
}

fn jdm(both: &mut Both, edges: &[u8], total: u64, length: usize) -> Numbers {
    both.call(Call::JdmOfEdges {
        edges: edges.to_vec(),
        total,
        output: vec![0xee; length],
    })
}

/// A laid state of the given cells.
fn laid(label: &str, cells: &[(usize, usize, u64)]) -> Both {
    let mut both = Both::new(label);
    for (number, &(k, l, count)) in (0..).zip(cells) {
        let answer = take(&mut both, number, &record(k, l, count));
        assert_eq!(answer, [0, 0, number + 1, 0, 0, 0]);
    }
    assert_eq!(both.call(Call::LayOut)[0], 0);
    both
}

const PAPER: [(usize, usize, u64); 3] = [(1, 3, 1), (2, 2, 2), (2, 3, 2)];

#[test]
fn taking() {
    let mut both = Both::new("taking");
    let good = [1, 1, 2, 0];
    assert_eq!(take(&mut both, 0, &good), [0, 0, 1, 0, 0, 0]);
    assert_eq!(take(&mut both, 0, &good), [0, 1, 0, 0, 0, 0]);
    assert_eq!(take(&mut both, 0, &[1, 1, 3, 0]), refused(7, 0, 0));
    assert_eq!(take(&mut both, 0, &good.repeat(2)), refused(7, 0, 0));
    assert_eq!(take(&mut both, 2, &good), refused(6, 0, 0));
    // Malformed comes first, whatever the number.
    for number in [0, 1, 2, u64::MAX] {
        for length in [1, 3, 5, 63, 65, 68, 4_096] {
            let block = vec![1; length];
            assert_eq!(take(&mut both, number, &block), refused(4, 0, 0));
        }
        let bad: [[u8; 4]; 9] = [
            [0, 1, 2, 0],
            [0, 3, 0, 0],
            [3, 0, 1, 0],
            [0, 40, 1, 0],
            [0, 255, 0, 0],
            [1, 41, 2, 0],
            [2, 1, 2, 0],
            [41, 41, 0, 0],
            [255, 255, 0, 0],
        ];
        for (index, record) in (0..).zip(bad) {
            // Records of isolated vertices before it and behind it are good.
            let before = [[1, 1, 2, 0], [0, 0, 0, 0], [0, 0, 9, 1]]
                .into_iter()
                .cycle();
            let mut block = before.take(index).flatten().collect::<Vec<u8>>();
            block.extend(record);
            block.extend([0; 4]);
            let answer = take(&mut both, number, &block);
            assert_eq!(answer, refused(5, index as u64, 0));
        }
    }
    assert_eq!(both.call(Call::LayOut), [0, 2, 0, 0, 0, 0]);
    assert_eq!(take(&mut both, 0, &good), [0, 1, 0, 0, 0, 0]);
    assert_eq!(take(&mut both, 0, &[1, 1, 3, 0]), refused(7, 0, 0));
    assert_eq!(take(&mut both, 1, &good), refused(3, 0, 0));
    assert_eq!(take(&mut both, 2, &good), refused(6, 0, 0));
    assert_eq!(take(&mut both, 1, &[1]), refused(4, 0, 0));
}

/// Every block is held and read back, its place and its length; another one under its number is 7.
fn all_held(both: &mut Both, blocks: &[&[u8]]) {
    let next = blocks.len() as u64;
    for (number, &block) in (0..).zip(blocks) {
        assert_eq!(take(both, number, block), [0, 1, 0, 0, 0, 0]);
        // Four zero bytes are a record: only the length tells them from none.
        for other in [&[][..], &[0; 4], &[1, 1, 2, 0]] {
            if other != block {
                assert_eq!(take(both, number, other), refused(7, 0, 0));
            }
        }
        assert_eq!(take(both, number, &[0; 3]), refused(4, 0, 0));
        let expected = [0, 3 + 65 * number, block.len() as u64, 0, 0, 0];
        assert_eq!(both.call(Call::HeldBlock { number }), expected);
    }
    for number in [next, next + 1, u64::MAX] {
        let answer = both.call(Call::HeldBlock { number });
        assert_eq!(answer, refused(6, 0, 0));
    }
    assert_eq!(take(both, next + 1, &[]), refused(6, 0, 0));
}

/// Blocks of no bytes: the first, two between and the last.
#[test]
fn empty_blocks() {
    let mut both = Both::new("empty blocks");
    let some = PAPER.map(|(k, l, count)| record(k, l, count));
    let blocks = [&[], &some[0][..], &[], &[], &some[1], &some[2], &[]];
    for (number, block) in (0..).zip(blocks) {
        let before = both.journal.clone();
        assert_eq!(take(&mut both, number, block), [0, 0, number + 1, 0, 0, 0]);
        // Of an empty block only the count is written.
        let same = before[2..] == both.journal[2..];
        assert_eq!(same, block.is_empty());
        all_held(&mut both, &blocks[..number as usize + 1]);
    }
    assert_eq!(both.call(Call::Figures), [0, 0, 7, 0, 0, 0]);
    assert_eq!(both.call(Call::LayOut), [0, 4, 0, 0, 0, 0]);
    assert_eq!(both.call(Call::Figures), [0, 1, 7, 4, 4, 0]);
    let mut without = laid("no empty blocks", &PAPER);
    for missing in [4, 0] {
        all_held(&mut both, &blocks);
        assert_eq!(take(&mut both, 7, &[]), refused(3, 0, 0));
        assert_eq!(take(&mut both, 7, &[1, 1, 2, 0]), refused(3, 0, 0));
        assert_eq!(both.complete(missing), without.complete(missing));
        assert_eq!(both.output, without.output);
        assert_eq!(both.adjacency, without.adjacency);
    }
}

#[test]
fn sixty_four_empty_blocks() {
    let mut both = Both::new("64 empty blocks");
    for number in 0..64 {
        assert_eq!(take(&mut both, number, &[]), [0, 0, number + 1, 0, 0, 0]);
    }
    all_held(&mut both, &[&[][..]; 64]);
    assert_eq!(take(&mut both, 64, &[]), refused(8, 0, 0));
    assert_eq!(take(&mut both, 64, &[1, 1, 2, 0]), refused(8, 0, 0));
    assert_eq!(take(&mut both, 65, &[1, 1, 2, 0]), refused(6, 0, 0));
    assert_eq!(both.call(Call::LayOut), DONE);
    all_held(&mut both, &[&[][..]; 64]);
    // A new block in phase 1 is 3, also with 64 in the journal.
    assert_eq!(take(&mut both, 64, &[]), refused(3, 0, 0));
    assert_eq!(take(&mut both, 64, &[1, 1, 2, 0]), refused(3, 0, 0));
    assert_eq!(both.call(Call::Figures), [0, 1, 64, 0, 0, 0]);
    assert_eq!(both.complete(0), DONE);
    // Just one of them, and no vertices either.
    let mut both = Both::new("one empty block");
    assert_eq!(take(&mut both, 0, &[]), [0, 0, 1, 0, 0, 0]);
    assert_eq!(both.call(Call::LayOut), DONE);
    assert_eq!(both.complete(0), DONE);
    all_held(&mut both, &[&[]]);
}

#[test]
fn a_full_journal() {
    let mut both = Both::new("a full journal");
    let block = [1, 1, 2, 0].repeat(16);
    for number in 0..64 {
        let zeros = [40, 40, 0, 0].repeat(1 + number as usize % 16);
        assert_eq!(take(&mut both, number, &zeros)[1..3], [0, number + 1]);
    }
    assert_eq!(take(&mut both, 64, &block), refused(8, 0, 0));
    assert_eq!(take(&mut both, 65, &block), refused(6, 0, 0));
    assert_eq!(take(&mut both, 63, &block), refused(7, 0, 0));
    assert_eq!(both.call(Call::LayOut), DONE);
    // A new block in phase 1 is 3, also with 64 in the journal.
    assert_eq!(take(&mut both, 64, &block), refused(3, 0, 0));
    assert_eq!(take(&mut both, 65, &block), refused(6, 0, 0));
    for number in 0..64 {
        let expected = [0, 3 + 65 * number, 4 * (1 + number % 16), 0, 0, 0];
        assert_eq!(both.call(Call::HeldBlock { number }), expected);
    }
    let answer = both.call(Call::HeldBlock { number: 64 });
    assert_eq!(answer, refused(6, 0, 0));
}

#[test]
fn numbers_of_64_bits() {
    let mut both = laid("numbers of 64 bits", &PAPER);
    let block = record(1, 3, 1);
    for wild in [256, 65_536, 1 << 32, 1 << 62, 1 << 63, u64::MAX] {
        assert_eq!(take(&mut both, wild, &block), refused(6, 0, 0));
        let answer = both.call(Call::HeldBlock { number: wild });
        assert_eq!(answer, refused(6, 0, 0));
        for vertex in [0, 3] {
            assert_eq!(add(&mut both, wild, vertex), refused(13, 0, 0));
            assert_eq!(add(&mut both, vertex, wild), refused(13, 0, 0));
            assert_eq!(remove(&mut both, wild, vertex), refused(13, 0, 0));
            assert_eq!(remove(&mut both, vertex, wild), refused(13, 0, 0));
        }
        assert_eq!(add(&mut both, wild, wild), refused(13, 0, 0));
    }
}

#[test]
fn laying_out() {
    let answer = |cells: &[(usize, usize, u64)]| {
        let mut both = Both::new("laying out");
        for (number, &(k, l, count)) in (0..).zip(cells) {
            take(&mut both, number, &record(k, l, count));
        }
        both.call(Call::LayOut)
    };
    // 9 over all cells comes before 10, 10 before 11, 11 before 12; lowest k, then lowest l.
    assert_eq!(answer(&[(2, 2, 5)]), refused(9, 2, 2));
    assert_eq!(answer(&[(1, 3, 1), (40, 40, 1)]), refused(9, 40, 40));
    assert_eq!(answer(&[(7, 7, 3), (5, 5, 3)]), refused(9, 5, 5));
    assert_eq!(answer(&[(1, 3, 1)]), refused(10, 3, 0));
    assert_eq!(answer(&[(2, 2, 4), (1, 3, 1)]), refused(10, 3, 0));
    assert_eq!(answer(&[(2, 3, 1), (4, 5, 1)]), refused(10, 2, 0));
    assert_eq!(answer(&[(2, 2, 4)]), refused(11, 2, 2));
    assert_eq!(answer(&[(20, 40, 40)]), refused(11, 20, 40));
    assert_eq!(answer(&[(4, 6, 12), (3, 9, 9)]), refused(11, 3, 9));
    assert_eq!(
        answer(&[(2, 4, 4), (2, 8, 8), (3, 3, 6)]),
        refused(11, 2, 8)
    );
    assert_eq!(answer(&[(1, 1, 60_000), (2, 2, 4)]), refused(11, 2, 2));
    assert_eq!(answer(&[(1, 1, 202)]), refused(12, 0, 0));
    assert_eq!(answer(&[(1, 1, 200)]), [0, 200, 0, 0, 0, 0]);
    assert_eq!(answer(&[(1, 1, 1), (1, 1, 1)]), [0, 2, 0, 0, 0, 0]);
    assert_eq!(answer(&[]), DONE);
    // Isolated vertices count in N and in no other test.
    assert_eq!(answer(&[(0, 0, 0)]), DONE);
    assert_eq!(answer(&[(0, 0, 1)]), [0, 1, 0, 0, 0, 0]);
    assert_eq!(answer(&[(0, 0, 120), (0, 0, 80)]), [0, 200, 0, 0, 0, 0]);
    assert_eq!(answer(&[(0, 0, 120), (0, 0, 81)]), refused(12, 0, 0));
    assert_eq!(answer(&[(1, 1, 198), (0, 0, 2)]), [0, 200, 0, 0, 0, 0]);
    assert_eq!(answer(&[(1, 1, 198), (0, 0, 3)]), refused(12, 0, 0));
    assert_eq!(answer(&[(1, 1, 200), (0, 0, 1)]), refused(12, 0, 0));
    assert_eq!(answer(&[(40, 40, 8_000), (0, 0, 0)]), [0, 200, 0, 0, 0, 0]);
    assert_eq!(answer(&[(40, 40, 8_000), (0, 0, 1)]), refused(12, 0, 0));
    for isolated in [1, 2, 201, 65_535] {
        let with = |k, l, count| answer(&[(0, 0, isolated), (k, l, count)]);
        assert_eq!(with(2, 2, 5), refused(9, 2, 2));
        assert_eq!(with(1, 3, 1), refused(10, 3, 0));
        assert_eq!(with(2, 2, 4), refused(11, 2, 2));
    }
}

#[test]
fn joining_and_removing() {
    let mut both = laid("joining and removing", &PAPER);
    assert_eq!(add(&mut both, 4, 4), refused(13, 0, 0));
    assert_eq!(add(&mut both, 3, 4), refused(13, 0, 0));
    assert_eq!(add(&mut both, 3, 3), refused(14, 0, 0));
    assert_eq!(add(&mut both, 0, 3), JOINED);
    // Joined already comes before a cell that has all its edges.
    assert_eq!(add(&mut both, 3, 0), refused(15, 0, 0));
    assert_eq!(add(&mut both, 2, 0), refused(16, 1, 2));
    assert_eq!(add(&mut both, 0, 2), refused(16, 1, 2));
    assert_eq!(remove(&mut both, 4, 4), refused(13, 0, 0));
    assert_eq!(remove(&mut both, 2, 2), refused(14, 0, 0));
    assert_eq!(remove(&mut both, 1, 2), refused(17, 0, 0));
    assert_eq!(remove(&mut both, 3, 0), DONE);
    assert_eq!(both.call(Call::LayOut), refused(3, 0, 0));
    assert_eq!(complete(&mut both, 32), [0, 4, 0, 32, 0, 0]);
    assert_eq!(add(&mut both, 0, 1), refused(16, 1, 2));
}

/// Three isolated vertices and the table of document 004.
const WITH_ISOLATED: [(usize, usize, u64); 4] = [(0, 0, 3), (1, 3, 1), (2, 2, 2), (2, 3, 2)];

#[test]
fn joining_and_removing_at_isolated_vertices() {
    let mut both = laid("isolated vertices", &WITH_ISOLATED);
    assert_eq!(both.call(Call::Figures), [0, 1, 4, 7, 4, 0]);
    for (v, w, degree) in [(0, 1, 0), (1, 2, 0), (0, 3, 1), (2, 4, 2), (1, 6, 3)] {
        for (v, w) in [(v, w), (w, v)] {
            assert_eq!(add(&mut both, v, w), refused(16, 0, degree));
            assert_eq!(remove(&mut both, v, w), refused(17, 0, 0));
        }
    }
    // Those checks come after 13 and 14, and 15 concerns other vertices only.
    assert_eq!(add(&mut both, 0, 7), refused(13, 0, 0));
    assert_eq!(add(&mut both, u64::MAX, 0), refused(13, 0, 0));
    assert_eq!(add(&mut both, 0, 0), refused(14, 0, 0));
    assert_eq!(remove(&mut both, 7, 0), refused(13, 0, 0));
    assert_eq!(remove(&mut both, 2, 2), refused(14, 0, 0));
    assert_eq!(add(&mut both, 3, 6), JOINED);
    assert_eq!(add(&mut both, 6, 3), refused(15, 0, 0));
    assert_eq!(complete(&mut both, 24), [0, 3, 0, 24, 0, 0]);
    assert_eq!(add(&mut both, 2, 3), refused(16, 0, 1));
    assert_eq!(both.call(Call::Figures), [0, 1, 4, 7, 4, 4]);
    assert_eq!(list(&mut both, 8), [0, 8, 0, 0, 0, 0]);
    assert_eq!(both.output, [3, 6, 4, 5, 4, 6, 5, 6]);
    let edges = both.output.clone();
    assert_eq!(jdm(&mut both, &edges, 7, 16), [0, 16, 0, 0, 0, 0]);
    let records = WITH_ISOLATED.map(|(k, l, count)| record(k, l, count));
    assert_eq!(both.output, records.concat());
}

/// No edge and none to add: every call on isolated vertices alone.
#[test]
fn only_isolated_vertices() {
    for isolated in [1, 2, 199, 200] {
        let mut both = laid("only isolated vertices", &[(0, 0, isolated)]);
        assert_eq!(both.call(Call::Figures), [0, 1, 1, isolated, 0, 0]);
        for completing in COMPLETING {
            let answer = complete_by(completing, &mut both, 0);
            assert_eq!(answer, completing.answer(0, 0));
        }
        assert_eq!(list(&mut both, 0), DONE);
        let last = isolated - 1;
        let expected = match last {
            0 => refused(14, 0, 0),
            _ => refused(16, 0, 0),
        };
        assert_eq!(add(&mut both, 0, last), expected);
        assert_eq!(add(&mut both, last, 0), expected);
        assert_eq!(add(&mut both, 0, isolated), refused(13, 0, 0));
        assert_eq!(jdm(&mut both, &[], isolated, 4), [0, 4, 0, 0, 0, 0]);
        assert_eq!(both.output, record(0, 0, isolated));
    }
}

#[test]
fn before_laying_out() {
    let mut both = Both::new("before laying out");
    take(&mut both, 0, &[1, 1, 2, 0]);
    assert_eq!(add(&mut both, 9, 9), refused(3, 0, 0));
    assert_eq!(remove(&mut both, 9, 9), refused(3, 0, 0));
    assert_eq!(both.call(Call::SwapEdges([9; 4])), refused(3, 0, 0));
    assert_eq!(both.call(Call::UndoSwap), refused(3, 0, 0));
    for completing in COMPLETING {
        for length in [0, 7, 8] {
            let answer = complete_by(completing, &mut both, length);
            assert_eq!(answer, refused(3, 0, 0));
        }
    }
    assert_eq!(list(&mut both, 0), refused(3, 0, 0));
    assert_eq!(both.call(Call::Figures), [0, 0, 1, 0, 0, 0]);
}

/// The records of completing need 8 bytes for each edge that is missing: fewer are refused before
/// anything changes, more are left as they were.
#[test]
fn room_for_join_records() {
    for completing in COMPLETING {
        room_by(completing);
    }
}

fn room_by(completing: Completing) {
    let mut both = laid("room for join records", &PAPER);
    let done = |joins| completing.answer(joins, 0);
    for (v, w, missing) in [(0, 3, 4), (1, 2, 3), (3, 2, 2), (1, 3, 1)] {
        for length in 0..8 * missing {
            let answer = complete_by(completing, &mut both, length);
            assert_eq!(answer, refused(18, 0, 0));
        }
        for more in [0, 1, 8, 9, 40_000] {
            let length = 8 * missing;
            let call = completing.call(vec![7; length + more]);
            let answer = both.call_on(both.journal.clone(), both.adjacency.clone(), call);
            assert_eq!(answer, done(missing as u64));
            assert_eq!(both.output[length..], vec![7; more]);
        }
        assert_eq!(add(&mut both, v, w), JOINED);
    }
    // Nothing is missing: no room is needed, and none is used.
    for length in [0, 1, 7, 8, 32_000] {
        assert_eq!(complete_by(completing, &mut both, length), done(0));
        assert!(both.output.iter().all(|&byte| byte == 0xee));
    }
    assert_eq!(remove(&mut both, 0, 3), DONE);
    let answer = complete_by(completing, &mut both, 7);
    assert_eq!(answer, refused(18, 0, 0));
    assert_eq!(complete_by(completing, &mut both, 8), done(1));
    assert_eq!(both.output, [0, 3, 255, 255, 255, 255, 255, 255]);
}

/// 1, 2 and 3 come before 18, also where no output would be long enough.
#[test]
fn checks_before_the_room_for_join_records() {
    for (completing, switches) in COMPLETING.into_iter().zip([2, 1, 1]) {
        let mut both = laid("before the room", &[(2, 2, 8)]);
        let answer = complete_by(completing, &mut both, 31);
        assert_eq!(answer, refused(18, 0, 0));
        for length in [0, 31, 32] {
            checks_before_room(completing, length, &mut both);
        }
        let answer = complete_by(completing, &mut both, 32);
        assert_eq!(answer, completing.answer(4, switches));
    }
}

fn checks_before_room(completing: Completing, length: usize, both: &mut Both) {
    let (journal, adjacency) = (both.journal.clone(), both.adjacency.clone());
    let mut taking = journal.clone();
    taking[0] = 0;
    let mut looped = adjacency.clone();
    looped[0] = 1;
    let mut answer = |journal: &[u8], adjacency: &[u8]| {
        let call = completing.call(vec![9; length]);
        both.call_on(journal.to_vec(), adjacency.to_vec(), call)
    };
    assert_eq!(answer(&journal[1..], &looped), refused(1, 0, 0));
    assert_eq!(answer(&journal, &adjacency[1..]), refused(1, 0, 0));
    assert_eq!(answer(&journal, &looped), refused(2, 0, 0));
    assert_eq!(answer(&taking, &looped), refused(2, 0, 0));
    assert_eq!(answer(&taking, &adjacency), refused(3, 0, 0));
}

/// One switch: nobody is left to take the edge but the other named vertex.
#[test]
fn what_moved_in_a_square() {
    const U: u64 = 255;
    let mut both = laid("a square", &[(2, 2, 8)]);
    for (v, w) in [(0, 1), (0, 2), (1, 2)] {
        assert_eq!(add(&mut both, v, w), JOINED);
    }
    let triangle = both.adjacency.clone();
    for (v, w) in [(0, 3), (3, 0)] {
        both.adjacency = triangle.clone();
        assert_eq!(add(&mut both, v, w), [0, 1, 0, 0, 3, 1, U, U, U]);
    }
    both.adjacency = triangle;
    assert_eq!(complete(&mut both, 8), [0, 1, 1, 8, 0, 0]);
    assert_eq!(both.output, [0, 3, 0, 3, 1, 255, 255, 255]);
}

/// Two switches, in the order of the vertices named, and one of the second vertex.
#[test]
fn what_moved_among_three_edges() {
    let mut both = laid("three edges", &[(1, 1, 6)]);
    assert_eq!(add(&mut both, 0, 2), JOINED);
    assert_eq!(add(&mut both, 1, 3), JOINED);
    let two = both.adjacency.clone();
    assert_eq!(add(&mut both, 0, 1), [0, 2, 0, 0, 4, 2, 1, 5, 3]);
    both.adjacency = two.clone();
    assert_eq!(add(&mut both, 1, 0), [0, 2, 0, 1, 4, 3, 0, 5, 2]);
    both.adjacency = two;
    assert_eq!(add(&mut both, 4, 1), [0, 1, 0, 1, 5, 3, 255, 255, 255]);
}

/// The records of a square from empty, behind two isolated vertices.
#[test]
fn what_moved_in_completing() {
    let mut both = laid("a square from empty", &[(0, 0, 2), (2, 2, 8)]);
    assert_eq!(complete(&mut both, 33), [0, 4, 2, 32, 0, 0]);
    let records = [
        [2, 3, 255, 255, 255, 255, 255, 255],
        [2, 4, 255, 255, 255, 255, 255, 255],
        [2, 5, 2, 3, 4, 255, 255, 255],
        [2, 4, 2, 5, 3, 255, 255, 255],
    ];
    assert_eq!(both.output[..32], records.concat());
    assert_eq!(both.output[32], 0xee);
}

#[test]
fn outputs() {
    let mut both = laid("outputs", &PAPER);
    assert_eq!(list(&mut both, 0), DONE);
    complete(&mut both, 32);
    for length in 0..8 {
        assert_eq!(list(&mut both, length), refused(18, 0, 0));
    }
    assert_eq!(list(&mut both, 8), [0, 8, 0, 0, 0, 0]);
    assert_eq!(list(&mut both, 9), [0, 8, 0, 0, 0, 0]);
    let edges = [0, 3, 1, 2, 1, 3, 2, 3];
    for length in 0..12 {
        assert_eq!(jdm(&mut both, &edges, 4, length), refused(18, 0, 0));
    }
    assert_eq!(jdm(&mut both, &edges, 4, 12), [0, 12, 0, 0, 0, 0]);
    assert_eq!(jdm(&mut both, &edges, 4, 13), [0, 12, 0, 0, 0, 0]);
    // With an isolated vertex there is one record more.
    assert_eq!(jdm(&mut both, &edges, 5, 15), refused(18, 0, 0));
    assert_eq!(jdm(&mut both, &edges, 5, 16), [0, 16, 0, 0, 0, 0]);
    assert_eq!(both.output[..8], [0, 0, 1, 0, 1, 3, 1, 0]);
    assert_eq!(jdm(&mut both, &[], 0, 0), DONE);
    assert_eq!(jdm(&mut both, &[], 1, 3), refused(18, 0, 0));
    assert_eq!(jdm(&mut both, &[], 1, 4), [0, 4, 0, 0, 0, 0]);
}

#[test]
fn edge_lists() {
    let mut both = Both::new("edge lists");
    // Odd length first, whatever the edges; then the first bad edge; the output last.
    assert_eq!(jdm(&mut both, &[5], 200, 0), refused(19, 0, 0));
    assert_eq!(jdm(&mut both, &[9, 9, 9, 9, 9], 200, 0), refused(19, 2, 0));
    assert_eq!(jdm(&mut both, &[1, 1], 200, 0), refused(19, 0, 0));
    assert_eq!(jdm(&mut both, &[2, 1], 200, 0), refused(19, 0, 0));
    assert_eq!(jdm(&mut both, &[0, 199], 200, 8), [0, 8, 0, 0, 0, 0]);
    assert_eq!(jdm(&mut both, &[0, 200], 200, 4), refused(19, 0, 0));
    assert_eq!(jdm(&mut both, &[0, 1, 0, 1], 200, 4), refused(19, 1, 0));
    assert_eq!(jdm(&mut both, &[0, 2, 0, 1], 200, 4), refused(19, 1, 0));
    assert_eq!(jdm(&mut both, &[1, 2, 0, 3], 200, 4), refused(19, 1, 0));
    // A bad edge after a degree over 40 is still 19; both over 40, the lowest is named.
    let mut edges: Vec<u8> = (0..45).flat_map(|v| [v, 199]).collect();
    assert_eq!(jdm(&mut both, &edges, 200, 0), refused(20, 199, 0));
    edges.extend((101..150).flat_map(|w| [100, w]));
    assert_eq!(jdm(&mut both, &edges, 200, 0), refused(20, 100, 0));
    edges.extend([99, 100]);
    assert_eq!(jdm(&mut both, &edges, 200, 0), refused(19, 94, 0));
    // Exactly 40 passes.
    let edges: Vec<u8> = (0..40).flat_map(|v| [v, 199]).collect();
    assert_eq!(jdm(&mut both, &edges, 200, 7), refused(18, 0, 0));
    assert_eq!(jdm(&mut both, &edges, 200, 8), [0, 8, 0, 0, 0, 0]);
    assert_eq!(both.output, [0, 0, 159, 0, 1, 40, 40, 0]);
}

/// The total is looked at before the list: its length, its edges, their degrees and the output.
#[test]
fn totals() {
    let mut both = Both::new("totals");
    let star: Vec<u8> = (1..42).flat_map(|w| [0, w]).collect();
    let lists: [&[u8]; 7] = [&[], &[5], &[0, 1], &[1, 1], &[0, 1, 9], &[0, 255], &star];
    for total in [
        201,
        255,
        256,
        65_536,
        1 << 32,
        1 << 63,
        u64::MAX - 1,
        u64::MAX,
    ] {
        for edges in lists {
            assert_eq!(jdm(&mut both, edges, total, 0), refused(19, 0, 0));
            assert_eq!(jdm(&mut both, edges, total, 64), refused(19, 0, 0));
        }
    }
    for total in [0, 1, 199, 200] {
        // Without edges, all are isolated; none of them is no record.
        let written = if total > 0 { 4 } else { 0 };
        assert_eq!(jdm(&mut both, &[], total, 9), [0, written, 0, 0, 0, 0]);
        assert_eq!(jdm(&mut both, &[5], total, 9), refused(19, 0, 0));
        assert_eq!(jdm(&mut both, &[0, 1, 5], total, 9), refused(19, 1, 0));
        assert_eq!(jdm(&mut both, &[0, 200], total, 9), refused(19, 0, 0));
    }
}

/// A vertex below the total, the total itself, and above it.
#[test]
fn vertices_around_the_total() {
    let mut both = Both::new("vertices around the total");
    for total in [2, 3, 100, 199, 200] {
        let (last, next) = (total as u8 - 1, total as u8);
        let written = if total > 2 { 8 } else { 4 };
        let answer = jdm(&mut both, &[0, last], total, 8);
        assert_eq!(answer, [0, written, 0, 0, 0, 0]);
        for bad in [next, next + 1, 255] {
            assert_eq!(jdm(&mut both, &[0, bad], total, 8), refused(19, 0, 0));
            assert_eq!(jdm(&mut both, &[0, 1, 0, bad], total, 8), refused(19, 1, 0));
        }
    }
    for total in [0, 1] {
        assert_eq!(jdm(&mut both, &[0, 1], total, 8), refused(19, 0, 0));
    }
    // The first bad edge is named, whatever makes it bad; then a degree, then the output.
    assert_eq!(jdm(&mut both, &[0, 1, 0, 9, 0, 9], 9, 0), refused(19, 1, 0));
    assert_eq!(jdm(&mut both, &[0, 1, 0, 1, 0, 9], 9, 0), refused(19, 1, 0));
    let star: Vec<u8> = (1..42).flat_map(|w| [0, w]).collect();
    assert_eq!(jdm(&mut both, &star, 41, 0), refused(19, 40, 0));
    assert_eq!(jdm(&mut both, &star, 42, 0), refused(20, 0, 0));
    assert_eq!(jdm(&mut both, &star[..80], 41, 3), refused(18, 0, 0));
    assert_eq!(jdm(&mut both, &star[..80], 41, 4), [0, 4, 0, 0, 0, 0]);
    assert_eq!(jdm(&mut both, &star[..80], 42, 8), [0, 8, 0, 0, 0, 0]);
    assert_eq!(both.output, [0, 0, 1, 0, 1, 40, 40, 0]);
}

#[test]
fn lengths() {
    let mut both = laid("lengths", &PAPER);
    let (number, block) = (0, Vec::new());
    let calls = [
        Call::Clear,
        Call::TakeBlock { number, block },
        Call::HeldBlock { number: 9 },
        Call::LayOut,
        Call::AddEdge { v: 9, w: 9 },
        Call::RemoveEdge { v: 9, w: 9 },
        Call::SwapEdges([9; 4]),
        Call::UndoSwap,
        Call::Complete { output: vec![1; 3] },
        Completing::Shuffled(9).call(vec![1; 3]),
        Call::EdgeList { output: vec![1; 3] },
        Call::Figures,
    ];
    let lengths = [
        (JOURNAL_BYTES - 1, ADJACENCY_BYTES, LOG_BYTES),
        (JOURNAL_BYTES + 1, ADJACENCY_BYTES, LOG_BYTES),
        (JOURNAL_BYTES, ADJACENCY_BYTES - 1, LOG_BYTES),
        (JOURNAL_BYTES, ADJACENCY_BYTES + 1, LOG_BYTES),
        (0, 0, 0),
        (ADJACENCY_BYTES, JOURNAL_BYTES, LOG_BYTES),
    ];
    // For the calls that are lent a log.
    let log_lengths = [
        0,
        1,
        2,
        LOG_BYTES - 4,
        LOG_BYTES - 1,
        LOG_BYTES + 1,
        JOURNAL_BYTES,
    ];
    let log_lengths = log_lengths.map(|length| (JOURNAL_BYTES, ADJACENCY_BYTES, length));
    for call in calls {
        let lent_log = call.entry().is_lent_log();
        let log_lengths = log_lengths.iter().filter(|_| lent_log);
        for &(journal, adjacency, log) in lengths.iter().chain(log_lengths) {
            // Bytes that are valid nowhere: lengths are looked at first.
            for byte in [0, 7] {
                let (journal, adjacency) = (vec![byte; journal], vec![byte; adjacency]);
                let log = vec![byte; log];
                let answer = both.call_on_all(journal, adjacency, log, call.clone());
                assert_eq!(answer, refused(1, 0, 0), "{call:?}");
            }
        }
        let (journal, adjacency) = (vec![7; JOURNAL_BYTES], vec![7; ADJACENCY_BYTES]);
        let answer = both.call_on_all(journal, adjacency, vec![7; LOG_BYTES], call.clone());
        match call {
            Call::Clear => assert_eq!(answer, DONE),
            _ => assert_eq!(answer, refused(2, 0, 0)),
        }
    }
}

/// Every byte of a small laid state, one at a time: what is not valid is refused by every entry.
#[test]
fn single_damaged_bytes() {
    let mut both = laid("single damaged bytes", &[(2, 2, 8)]);
    add(&mut both, 0, 1);
    add(&mut both, 0, 2);
    damage(&mut both);
    let mut both = laid("single damaged bytes, isolated", &[(2, 2, 8), (0, 0, 2)]);
    add(&mut both, 2, 3);
    add(&mut both, 2, 4);
    damage(&mut both);
    let mut both = Both::new("single damaged bytes, empty blocks");
    for (number, block) in (0..).zip([&[][..], &[2, 2, 8, 0], &[]]) {
        take(&mut both, number, block);
    }
    assert_eq!(both.call(Call::LayOut), [0, 4, 0, 0, 0, 0]);
    add(&mut both, 0, 1);
    damage(&mut both);
}

fn either_way(length: usize) -> [(usize, Completing); 2] {
    [Completing::Lowest, Completing::Shuffled(9)].map(|completing| (length, completing))
}

fn damage(both: &mut Both) {
    let near: Vec<usize> = (0..80).chain([2 + 65, 66, 67, 68, 131, 132]).collect();
    let far = [JOURNAL_BYTES - 66, JOURNAL_BYTES - 65, JOURNAL_BYTES - 1];
    for place in near.into_iter().chain(far) {
        for byte in [0, 1, 2, 4, 8, 40, 41, 64, 65, 255] {
            let mut journal = both.journal.clone();
            journal[place] = byte;
            both.call_on(journal.clone(), both.adjacency.clone(), Call::Figures);
            let needed = room(&journal, &both.adjacency);
            for (length, completing) in [0, needed].into_iter().flat_map(either_way) {
                let call = completing.call(vec![9; length]);
                both.call_on(journal.clone(), both.adjacency.clone(), call);
            }
        }
    }
    for v in [0, 1, 2, 3, 4, 5, 6, 199] {
        for w in [0, 1, 2, 3, 4, 5, 6, 199] {
            for byte in [0, 1, 2, 255] {
                let mut adjacency = both.adjacency.clone();
                adjacency[200 * v + w] = byte;
                both.call_on(both.journal.clone(), adjacency.clone(), Call::Figures);
                adjacency[200 * w + v] = byte;
                both.call_on(both.journal.clone(), adjacency, Call::Figures);
            }
        }
    }
}

/// A vertex above its degree while its cell is short, and a cell above while its vertices are not.
#[test]
fn bounds_of_a_valid_state() {
    let mut both = laid("a vertex above its degree", &[(2, 2, 8)]);
    let join = |adjacency: &mut Vec<u8>, v: usize, w: usize| {
        adjacency[200 * v + w] = 1;
        adjacency[200 * w + v] = 1;
    };
    let mut adjacency = both.adjacency.clone();
    join(&mut adjacency, 0, 1);
    join(&mut adjacency, 0, 2);
    let journal = both.journal.clone();
    let answer = both.call_on(journal.clone(), adjacency.clone(), Call::Figures);
    assert_eq!(answer, [0, 1, 1, 4, 4, 2]);
    join(&mut adjacency, 0, 3);
    let answer = both.call_on(journal, adjacency, Call::Figures);
    assert_eq!(answer, refused(2, 0, 0));

    let mut both = laid("a cell above the table", &[(1, 2, 4)]);
    let mut adjacency = both.adjacency.clone();
    join(&mut adjacency, 4, 5);
    let answer = both.call_on(both.journal.clone(), adjacency, Call::Figures);
    assert_eq!(answer, refused(2, 0, 0));
}

/// Each cell that a table lacks, the highest one among them: four vertices of degrees k and l, whose
/// edges are all to vertices of degree 1, and one edge between two of them.
#[test]
fn an_edge_in_each_cell_that_the_table_lacks() {
    for k in 2..=MAX_DEGREE {
        for l in k..=MAX_DEGREE {
            let cells = [(1, k, 2 * k as u64), (1, l, 2 * l as u64)];
            let mut both = laid("a cell that the table lacks", &cells);
            let first = 2 * (k + l);
            let second = if k == l { first + 1 } else { first + 2 };
            let mut adjacency = both.adjacency.clone();
            reference::adjacency::insert(&mut adjacency, first, second);
            let answer = both.call_on(both.journal.clone(), adjacency, Call::Figures);
            assert_eq!(answer, refused(2, 0, 0), "{k} {l}");
        }
    }
}

/// An edge at an isolated vertex, to another one or not, is in no valid state.
#[test]
fn edges_at_isolated_vertices() {
    let mut both = laid("edges at isolated vertices", &WITH_ISOLATED);
    let (number, block) = (0, record(0, 0, 3).to_vec());
    let calls = [
        Call::TakeBlock { number, block },
        Call::HeldBlock { number },
        Call::LayOut,
        Call::AddEdge { v: 3, w: 6 },
        Call::RemoveEdge { v: 0, w: 1 },
        Call::SwapEdges([0, 3, 1, 4]),
        Call::UndoSwap,
        Call::Complete { output: vec![9; 8] },
        Completing::Shuffled(9).call(vec![9; 8]),
        Call::EdgeList { output: vec![9; 8] },
        Call::Figures,
    ];
    for missing in [4, 0] {
        if missing == 0 {
            both.complete(4);
        }
        for (v, w) in [
            (0, 1),
            (0, 2),
            (1, 2),
            (0, 3),
            (2, 3),
            (1, 4),
            (2, 6),
            (0, 7),
        ] {
            let mut adjacency = both.adjacency.clone();
            adjacency[200 * v + w] = 1;
            adjacency[200 * w + v] = 1;
            for call in calls.clone() {
                let place = format!("{v}-{w}, {call:?}");
                let answer = both.call_on(both.journal.clone(), adjacency.clone(), call);
                assert_eq!(answer, refused(2, 0, 0), "{place}");
            }
        }
    }
}

/// A laid journal whose isolated vertices are others: 200 vertices are valid, 201 are not.
#[test]
fn laid_journals_with_other_counts() {
    let mut both = laid("laid journals", &[(0, 0, 1), (1, 1, 2)]);
    // The count of the first record, low byte and high byte, and the second record's.
    for (count, valid) in [
        (0, true),
        (198, true),
        (199, false),
        (256, false),
        (454, false),
    ] {
        let mut journal = both.journal.clone();
        journal[3..7].copy_from_slice(&record(0, 0, count));
        let answer = both.call_on(journal, both.adjacency.clone(), Call::Figures);
        match valid {
            true => assert_eq!(answer, [0, 1, 2, count + 2, 1, 0]),
            false => assert_eq!(answer, refused(2, 0, 0), "{count} isolated"),
        }
    }
}
