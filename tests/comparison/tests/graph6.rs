//! graph6 out and in: all small graphs, every size that can be said, texts damaged byte by byte,
//! and the order of checks, on both sides and against numbers written down here. What is written is
//! read again and what is read is written again, call by call.

use comparison::both::Both;
use comparison::call::Call;
use comparison::exchange::{in_bits, out_and_in, read, with, write};
use comparison::texts::text_length;
use reference::graphs::{self, pairs, Graph};
use reference::journal::record;
use reference::numbers::Numbers;
use reference::random::Random;
use reference::{graph6, refused, refused_at};

/// The four edges of document 004's table, as document 01 lists them.
const PAPER: [u8; 8] = [0, 3, 1, 2, 1, 3, 2, 3];
/// The longest text, and the longest list read from one.
const MAX_TEXT_BYTES: usize = 3_321;
const MAX_LIST_BYTES: usize = 39_800;

fn small_graphs(vertices: usize) -> impl Iterator<Item = Graph> {
    (0..1 << pairs(vertices)).map(move |bits| graphs::from_bits(vertices, bits))
}

/// Reads a text with more room than it can need.
fn read_freely(text: &[u8], both: &mut Both) -> Numbers {
    let most = 2 * pairs(text.len() * 6).min(19_900);
    read(text, vec![0xee; most], both)
}

/// So few edges that the reference does not take long.
fn sparse(vertices: usize, seed: u64) -> Graph {
    graphs::uniform(vertices, 30, &mut Random::new(seed))
}

#[test]
fn all_small_graphs() {
    let mut both = Both::without_state("all small graphs");
    for graph in (0..=5).flat_map(small_graphs) {
        out_and_in(&graph, &mut both);
    }
}

/// The largest graphs: no edge, one, and all of them. Degrees are up to 199.
#[test]
fn the_largest_graphs() {
    let mut both = Both::without_state("the largest graphs");
    for vertices in [61, 62, 63, 64, 127, 128, 199, 200] {
        let mut random = Random::new(vertices as u64);
        for edges in [0, 1, pairs(vertices) - 1, pairs(vertices)] {
            let graph = graphs::uniform(vertices, edges, &mut random);
            let text = out_and_in(&graph, &mut both);
            assert_eq!(text.len(), text_length(vertices));
        }
    }
    assert_eq!(text_length(200), MAX_TEXT_BYTES);
    assert_eq!(2 * pairs(200), MAX_LIST_BYTES);
}

/// How many of all texts that differ from this one in one place at most are accepted, each place
/// taken in turn.
fn accepted_around(text: &[u8], both: &mut Both) -> usize {
    let mut accepted = 0;
    for place in 0..text.len() {
        for byte in 0..=255 {
            let answer = read_freely(&with(text, place, |_| byte), both);
            accepted += usize::from(answer[0] == 0);
        }
    }
    accepted
}

/// Every byte of every text of up to five vertices, all 256 values. The first byte can say as many
/// sizes as have texts of that length; of the others, the bits are counted that are no padding.
#[test]
fn every_byte_of_small_texts() {
    let mut both = Both::without_state("every byte of small texts");
    for (vertices, expected) in [(0, 2), (1, 2), (4, 3 + 64), (5, 1 + 64 + 16)] {
        for graph in small_graphs(vertices) {
            let text = graph6::text(&graph);
            let accepted = accepted_around(&text, &mut both);
            // Fewer than three sizes fit where the bits are the padding of a smaller one.
            match vertices {
                4 => assert!((1 + 64..=expected).contains(&accepted), "{text:?}"),
                _ => assert_eq!(accepted, expected, "{text:?}"),
            }
        }
    }
    for graph in [2, 3].into_iter().flat_map(small_graphs) {
        accepted_around(&graph6::text(&graph), &mut both);
    }
}

/// Every byte of larger texts: each bit in turn is another one, and bytes that graph6 has not.
#[test]
fn every_byte_of_large_texts() {
    let mut both = Both::without_state("every byte of large texts");
    for vertices in [30, 61, 62, 63, 64] {
        let text = graph6::text(&sparse(vertices, 1));
        for place in 0..text.len() {
            let bits = (0..6).map(|bit| in_bits(text[place], |six| six ^ (1 << bit)));
            for byte in bits.chain([0, 10, 62, 127, 128, 255]) {
                let answer = read_freely(&with(&text, place, |_| byte), &mut both);
                let outside = !(63..=126).contains(&byte);
                assert!(!outside || answer == refused(21), "{place}, {byte}");
            }
        }
    }
}

#[test]
fn every_byte_of_the_largest_text() {
    let mut both = Both::without_state("every byte of the largest text");
    let text = graph6::text(&sparse(200, 2));
    for place in 0..text.len() {
        let turned = in_bits(text[place], |six| six ^ (1 << (place % 6)));
        for byte in [turned, [62, 127][place % 2]] {
            read_freely(&with(&text, place, |_| byte), &mut both);
        }
    }
    assert!(both.count.texts.long_read > 3_000 && both.count.texts.outside > 3_000);
}

/// Three bytes of all values, each pair of them, behind byte 126 and with nothing behind: none is a
/// text.
#[test]
fn every_size_in_four_bytes() {
    let mut both = Both::without_state("every size in four bytes");
    let sixes = || 63..=126;
    for (a, b) in sixes().flat_map(|a| sixes().map(move |b| (a, b))) {
        for c in sixes() {
            let size = [a, b, c].map(|byte| u32::from(byte) - 63);
            let size = 64 * (64 * size[0] + size[1]) + size[2];
            let expected = if a == 126 || size > 200 { 22 } else { 21 };
            let answer = read(&[126, a, b, c], vec![9; 8], &mut both);
            assert_eq!(answer, refused(expected), "{a}, {b}, {c}");
        }
    }
    for place in 1..4 {
        for byte in 0..=255 {
            for head in [b"~?BG", b"~?BH", b"~}~~", b"~~~~", b"~???"] {
                read(&with(head, place, |_| byte), vec![9; 8], &mut both);
            }
        }
    }
}

/// Every beginning of a text, and texts with something behind.
#[test]
fn shorter_and_longer_texts() {
    let mut both = Both::without_state("shorter and longer texts");
    for vertices in [0, 1, 2, 3, 4, 5, 12, 13, 61, 62, 63, 64, 200] {
        let edges = pairs(vertices).min(20);
        let graph = graphs::uniform(vertices, edges, &mut Random::new(3));
        let text = graph6::text(&graph);
        for length in 0..text.len() {
            let answer = read_freely(&text[..length], &mut both);
            assert_eq!(answer, refused(21), "{length} of {vertices}");
        }
        let behind: [&[u8]; 9] = [
            b"?",
            b"~",
            b"\n",
            b"\r\n",
            b" ",
            b"\0",
            b"??",
            &text,
            &[b'?'; 4_000],
        ];
        for behind in behind {
            let answer = read_freely(&[&text, behind].concat(), &mut both);
            // A text without a body may begin that of a larger graph.
            assert!(answer == refused(21) || text.len() == 1, "{vertices}");
        }
        for before in [&b">>graph6<<"[..], b" ", b"\n", b":", b"&", b";"] {
            let answer = read_freely(&[before, &text].concat(), &mut both);
            assert_eq!(answer, refused(21), "{before:?} before {vertices}");
        }
    }
}

/// A size of 62 or less in its longer form, with the body that the size asks for, and without.
#[test]
fn a_longer_form_without_need() {
    let mut both = Both::without_state("a longer form without need");
    for vertices in 0..=62 {
        let edges = pairs(vertices).min(20);
        let graph = graphs::uniform(vertices, edges, &mut Random::new(4));
        let text = graph6::text(&graph);
        let size = [126, 63, 63, text[0]];
        for longer in [&[&size, &text[1..]].concat()[..], &size] {
            let answer = read_freely(longer, &mut both);
            assert_eq!(answer, refused(21), "{vertices}");
        }
    }
    assert_eq!(both.count.texts.without_need, 2 * 63);
}

/// 22 is said of the first bytes alone, whatever follows, and whatever the output.
#[test]
fn sizes_above_200() {
    let mut both = Both::without_state("sizes above 200");
    let mut random = Random::new(5);
    for head in [
        &b"~~"[..],
        b"~?BH",
        b"~?C?",
        b"~@??",
        b"~B?x",
        b"~}~~",
        b"~~?ZZZZZ",
    ] {
        let mut behind = vec![vec![], vec![b'?'], vec![b'\n'], vec![0], vec![126; 3_317]];
        behind.extend((1..60).map(|length| random.bytes(length)));
        for behind in behind {
            let text = [head, &behind].concat();
            for length in [0, 8] {
                let answer = read(&text, vec![9; length], &mut both);
                assert_eq!(answer, refused(22), "{text:?}");
            }
        }
    }
    // Not above, not said in full, or not by the bytes of a size.
    for text in [
        &b"~"[..],
        b"~}",
        b"~}~",
        b"~?BG",
        b"~}~\n",
        b"~}\x7f~",
        b"~>~~",
        b"~\x7f~~",
    ] {
        assert_eq!(read(text, vec![], &mut both), refused(21), "{text:?}");
    }
}

#[test]
fn the_order_of_checks() {
    let mut both = Both::without_state("the order of checks");
    let mut answer = |edges: &[u8], total, length| write(edges, total, vec![9; length], &mut both);
    // The total, an odd length, the first bad edge, and the output last.
    assert_eq!(answer(&[9, 9, 9], 201, 0), refused(19));
    assert_eq!(answer(&[9, 9, 9], u64::MAX, 9), refused(19));
    assert_eq!(answer(&[9, 9, 9], 200, 0), refused_at(19, 1, 0));
    assert_eq!(answer(&[0, 1, 9, 9, 8, 7], 200, 0), refused_at(19, 1, 0));
    assert_eq!(answer(&[0, 1, 0, 2], 2, 0), refused_at(19, 1, 0));
    assert_eq!(answer(&PAPER, 4, 0), refused(18));
    assert_eq!(answer(&PAPER, 4, 1), refused(18));
    assert_eq!(answer(&PAPER, 4, 2), [0, 2, 0, 0, 0, 0]);
    assert_eq!(answer(&[], 0, 0), refused(18));
    assert_eq!(answer(&[], 0, 1), [0, 1, 0, 0, 0, 0]);
    assert_eq!(answer(&[], 200, MAX_TEXT_BYTES - 1), refused(18));
    assert_eq!(answer(&[], 200, MAX_TEXT_BYTES), [0, 3_321, 0, 0, 0, 0]);
    assert_eq!(answer(&[], 201, MAX_TEXT_BYTES), refused(19));

    let mut answer = |text: &[u8], length| read(text, vec![9; length], &mut both);
    assert_eq!(answer(b"~~", 0), refused(22));
    assert_eq!(answer(b"", 0), refused(21));
    assert_eq!(answer(b"CN\n", 0), refused(21));
    assert_eq!(answer(b"CN", 7), refused(18));
    assert_eq!(answer(b"CN", 8), [0, 8, 4, 0, 0, 0]);
    assert_eq!(answer(b"?", 0), [0, 0, 0, 0, 0, 0]);
    assert_eq!(answer(b"@", 0), [0, 0, 1, 0, 0, 0]);
    assert_eq!(answer(b"C?", 0), [0, 0, 4, 0, 0, 0]);
}

/// Every list of two edges among few numbers, with every total around them: refused where a survey
/// of it is refused with 19, which each call sees to.
#[test]
fn lists_of_two_edges() {
    let mut both = Both::without_state("lists of two edges");
    let numbers = 0..6u32.pow(4);
    for list in numbers.map(|n| [n % 6, n / 6 % 6, n / 36 % 6, n / 216].map(|byte| byte as u8)) {
        for total in [0, 1, 3, 5, 6, 200, 201] {
            for edges in [&list[..], &list[..3], &list[..2]] {
                write(edges, total, vec![9; text_length(200)], &mut both);
            }
        }
    }
    let count = &both.count.texts;
    assert!(count.odd > 5_000 && count.edge > 5_000 && count.total > 2_000 && count.short > 500);
}

/// A total that a careless cast would take for 4.
#[test]
fn totals_of_64_bits() {
    let mut both = Both::without_state("totals of 64 bits");
    for total in [8, 16, 32, 48, 63].map(|bit| (1 << bit) + 4) {
        for length in [0, 2, MAX_TEXT_BYTES] {
            let answer = write(&PAPER, total, vec![9; length], &mut both);
            assert_eq!(answer, refused(19), "{total}");
        }
    }
}

/// What a survey refuses with 20 is written.
#[test]
fn degrees_over_40() {
    let mut both = Both::without_state("degrees over 40");
    for total in [42, 62, 63, 200] {
        let star: Vec<u8> = (1..total as u8).flat_map(|w| [0, w]).collect();
        let survey = Call::JdmOfEdges {
            edges: star.clone(),
            total,
            output: vec![9; 8],
        };
        assert_eq!(both.call(survey), refused_at(20, 0, 0));
        let length = text_length(total as usize);
        let answer = write(&star, total, vec![9; length], &mut both);
        assert_eq!(answer, [0, length as u64, 0, 0, 0, 0]);
    }
    assert_eq!(both.count.texts.high, 4);
}

/// Edge by edge, a state's list with its number of vertices is its graph; isolated vertices count.
/// Both calls leave the state as it is, which each call sees to.
#[test]
fn a_state() {
    let mut both = Both::new("a state");
    for (number, (k, l, count)) in (0..).zip([(0, 0, 1), (1, 3, 1), (2, 2, 2), (2, 3, 2)]) {
        let block = record(k, l, count).to_vec();
        both.call(Call::TakeBlock { number, block });
    }
    assert_eq!(both.call(Call::LayOut), [0, 5, 0, 0, 0, 0]);
    for ((v, w), text) in [
        ((1, 4), b"D?O"),
        ((2, 3), b"D@O"),
        ((2, 4), b"D@W"),
        ((3, 4), b"D@["),
    ] {
        assert_eq!(both.call(Call::AddEdge { v, w })[0], 0);
        let output = vec![9; 8];
        let listed = both.call(Call::EdgeList { output })[1] as usize;
        let edges = both.output[..listed].to_vec();
        assert_eq!(write(&edges, 5, vec![9; 3], &mut both), [0, 3, 0, 0, 0, 0]);
        assert_eq!(both.output, text);
        let answer = read(text, vec![9; listed], &mut both);
        assert_eq!(answer, [0, listed as u64, 5, 0, 0, 0]);
        assert_eq!(both.output, edges);
    }
}
