//! Graphs as graph6 and back (document 02, P5): texts known from elsewhere, sizes on both sides of
//! the longer form, every short text, and each refusal in its turn.

use reference::graphs::{self, pairs, Graph};
use reference::program::{graph6_output, output};
use reference::random::Random;
use reference::{graph6, graph6_read, graph6_write, jdm_of_edges, refused, refused_at, Refused};

/// The longest text and the longest list read from one: 200 vertices.
const MAX_TEXT_BYTES: usize = 3_321;
const MAX_LIST_BYTES: usize = 39_800;

/// The four edges of document 004's table, as document 01 lists them.
const PAPER: [u8; 8] = [0, 3, 1, 2, 1, 3, 2, 3];

fn written(edges: &[u8], total: u64) -> Result<Vec<u8>, Refused> {
    let mut output = vec![7; MAX_TEXT_BYTES + 1];
    let length = graph6_write(edges, total, &mut output)? as usize;
    assert!(output[length..].iter().all(|&byte| byte == 7));
    output.truncate(length);
    Ok(output)
}

fn read(text: &[u8]) -> Result<(Vec<u8>, u64), Refused> {
    let mut output = vec![7; MAX_LIST_BYTES + 1];
    let (length, total) = graph6_read(text, &mut output)?;
    assert!(output[length as usize..].iter().all(|&byte| byte == 7));
    output.truncate(length as usize);
    Ok((output, total))
}

/// Written, the edges are this text; read, they are back.
fn both_ways(edges: &[u8], total: u64, text: &[u8]) {
    assert_eq!(written(edges, total).as_deref(), Ok(text), "{edges:?}");
    assert_eq!(read(text), Ok((edges.to_vec(), total)), "{text:?}");
}

/// Document 02's text, those of the format's own description, and others in use.
#[test]
fn known_texts() {
    both_ways(&PAPER, 4, b"CN");
    both_ways(&[0, 2, 0, 4, 1, 3, 3, 4], 5, b"DQc");
    both_ways(&[], 0, b"?");
    both_ways(&[], 1, b"@");
    both_ways(&[], 2, b"A?");
    both_ways(&[0, 1], 2, b"A_");
    both_ways(&[0, 1, 0, 2, 1, 2], 3, b"Bw");
    both_ways(&[0, 1, 0, 4, 1, 2, 2, 3, 3, 4], 5, b"Dhc");
    let petersen = [
        [0, 1, 0, 4, 0, 5, 1, 2, 1, 6],
        [2, 3, 2, 7, 3, 4, 3, 8, 4, 9],
        [5, 7, 5, 8, 6, 8, 6, 9, 7, 9],
    ];
    both_ways(&petersen.concat(), 10, b"IheA@GUAo");
}

/// The bytes of a size, and how many follow it.
#[test]
fn sizes() {
    let sizes: [(u64, &[u8], usize); 10] = [
        (0, b"?", 0),
        (1, b"@", 0),
        (2, b"A", 1),
        (3, b"B", 1),
        (5, b"D", 2),
        (30, b"]", 73),
        (62, b"}", 316),
        (63, b"~??~", 326),
        (64, b"~?@?", 336),
        (200, b"~?BG", 3_317),
    ];
    for (total, size, length) in sizes {
        let text = [size, &vec![b'?'; length]].concat();
        both_ways(&[], total, &text);
        // All edges: every bit is 1, but for the padding.
        let complete = graphs::uniform(
            total as usize,
            pairs(total as usize),
            &mut Random::new(total),
        );
        let mut text = [size, &vec![b'~'; length]].concat();
        let padding = 6 * length - pairs(total as usize);
        *text.last_mut().unwrap() -= (1 << padding) - 1;
        both_ways(&complete.edge_list(), total, &text);
    }
}

/// A single edge is a single bit: that of its pair, the columns one after the other.
#[test]
fn every_pair() {
    for total in [2, 3, 4, 5, 9, 62, 63, 64, 200] {
        let empty = written(&[], total as u64).unwrap();
        let size = if total > 62 { 4 } else { 1 };
        let columns = (0..total).flat_map(|w| (0..w).map(move |v| (v, w)));
        // All pairs of the largest would take a while.
        let some = |v: usize, w: usize| total < 200 || v < 3 || v + 3 > w || w % 50 == 0;
        for (place, (v, w)) in columns.enumerate().filter(|&(_, (v, w))| some(v, w)) {
            let mut text = empty.clone();
            text[size + place / 6] += 32 >> (place % 6);
            both_ways(&[v as u8, w as u8], total as u64, &text);
        }
    }
}

#[test]
fn all_small_graphs() {
    for vertices in 0..=5 {
        for bits in 0..1 << pairs(vertices) {
            let graph = graphs::from_bits(vertices, bits);
            let text = graph6::text(&graph);
            assert_eq!(graph6::graph(&text), Ok(graph.clone()));
            both_ways(&graph.edge_list(), vertices as u64, &text);
        }
    }
}

#[test]
fn random_graphs() {
    let mut random = Random::new(11);
    for _ in 0..200 {
        let vertices = random.below(201);
        let edges = random.below(pairs(vertices) + 1);
        let graph = graphs::uniform(vertices, edges, &mut random);
        let text = graph6::text(&graph);
        assert!(text.iter().all(|byte| (63..=126).contains(byte)));
        both_ways(&graph.edge_list(), vertices as u64, &text);
    }
}

/// Accepted or 21: 22 is only for what begins with byte 126 and goes on.
fn is_accepted(text: &[u8]) -> bool {
    match read(text) {
        Ok((edges, total)) => {
            assert_eq!(written(&edges, total).as_deref(), Ok(text));
            true
        }
        Err(why) => {
            assert_eq!(why, refused(21), "{text:?}");
            false
        }
    }
}

/// Of all texts of up to two bytes, and of all those of three that say five vertices, as many are
/// accepted as there are graphs.
#[test]
fn every_short_text() {
    let bytes = || 0..=255u8;
    let one = bytes().filter(|&a| is_accepted(&[a])).count();
    assert_eq!(one, 2, "without a vertex, or with one");
    let two = bytes().flat_map(|a| bytes().map(move |b| [a, b]));
    let two = two.filter(|text| *text != [126, 126]);
    let two = two.filter(|text| is_accepted(text)).count();
    assert_eq!(two, 2 + 8 + 64, "two to four vertices");
    let five = bytes().flat_map(|a| bytes().map(move |b| [b'D', a, b]));
    let five = five.filter(|text| is_accepted(text)).count();
    assert_eq!(five, 1_024);
}

/// One bit more is one graph more, until the bits are padding.
#[test]
fn padding() {
    for (total, used) in [(2, 1), (3, 3), (4, 6), (5, 10), (62, 1_891), (63, 1_953)] {
        let empty = written(&[], total).unwrap();
        let size = if total > 62 { 4 } else { 1 };
        for place in 0..6 * (empty.len() - size) {
            let mut text = empty.clone();
            text[size + place / 6] += 32 >> (place % 6);
            match read(&text) {
                Ok((edges, _)) => assert!(place < used && edges.len() == 2),
                Err(why) => assert!(place >= used && why == refused(21)),
            }
        }
    }
}

#[test]
fn malformed_texts() {
    let cn = |bytes: &[u8]| [b"CN", bytes].concat();
    let path = written(&[0, 1, 1, 2], 63).unwrap();
    let texts: [&[u8]; 19] = [
        b"",
        b"\n",
        b">",
        &[127],
        b"A",
        b"C",
        &cn(b"?"),
        &cn(b"\n"),
        &cn(b"\r\n"),
        &cn(b"\0"),
        b" CN",
        b">>graph6<<CN",
        b"A`",
        b"A__",
        b"C>",
        b"C\x7f",
        b"~",
        &path[..path.len() - 1],
        &[&path[..], b"?"].concat(),
    ];
    for text in texts {
        assert_eq!(read(text), Err(refused(21)), "{text:?}");
    }
}

/// A size of 62 or less in its longer form, with the bytes that either form would have.
#[test]
fn a_longer_form_without_need() {
    for size in 0..=62 {
        let short = written(&[], size).unwrap();
        let long = [&[126, 63, 63, 63 + size as u8], &short[1..]].concat();
        assert_eq!(read(&long), Err(refused(21)), "{size}");
        assert_eq!(read(&long[..4]), Err(refused(21)), "{size}");
    }
    let least = [&b"~??~"[..], &[b'?'; 326]].concat();
    assert_eq!(read(&least), Ok((vec![], 63)));
}

/// 22 is said of the first two or four bytes, whatever follows.
#[test]
fn sizes_above_200() {
    let behind: [&[u8]; 5] = [b"", b"?", b"\n", &[0; 9], &[126; 4_000]];
    let large: [&[u8]; 9] = [
        b"~~",
        b"~?BH",
        b"~?B~",
        b"~?C?",
        b"~@??",
        b"~B?x",
        b"~}~~",
        b"~~?ZZZZZ",
        b"~~\n",
    ];
    for large in large {
        for behind in behind {
            let text = [large, behind].concat();
            assert_eq!(read(&text), Err(refused(22)), "{text:?}");
        }
    }
}

/// Too few bytes to say a size above 200, others than the three may be, or 200 itself.
#[test]
fn no_size_above_200() {
    let texts: [&[u8]; 12] = [
        b"~",
        b"~}",
        b"~}~",
        b"~}~\n",
        b"~}\x7f~",
        b"~>~~",
        b"~\x7f~~",
        b" ~~",
        b">>graph6<<~~",
        b"~?BG",
        &[&b"~?BG"[..], &[b'?'; 3_316]].concat(),
        &[&b"~?BG"[..], &[b'?'; 3_318]].concat(),
    ];
    for text in texts {
        assert_eq!(read(text), Err(refused(21)), "{text:?}");
    }
}

/// A short output comes last, and nothing is written then.
#[test]
fn room() {
    for length in 0..10 {
        let mut output = vec![7; length];
        let answer = graph6_write(&PAPER, 4, &mut output);
        assert_eq!(answer, if length < 2 { Err(refused(18)) } else { Ok(2) });
        assert_eq!(output.starts_with(b"CN"), length >= 2);
        assert!(output.iter().skip(2).all(|&byte| byte == 7));

        let mut output = vec![7; length];
        let answer = graph6_read(b"CN", &mut output);
        assert_eq!(
            answer,
            if length < 8 {
                Err(refused(18))
            } else {
                Ok((8, 4))
            }
        );
        assert_eq!(output.starts_with(&PAPER), length >= 8);
        assert!(output[length.min(8) / 8 * 8..]
            .iter()
            .all(|&byte| byte == 7));
    }
    assert_eq!(graph6_read(b"C@?", &mut []), Err(refused(21)));
    assert_eq!(graph6_read(b"~~", &mut []), Err(refused(22)));
    assert_eq!(graph6_read(b"?", &mut []), Ok((0, 0)));
    assert_eq!(graph6_read(b"A?", &mut []), Ok((0, 2)));
    assert_eq!(graph6_write(&[], 0, &mut []), Err(refused(18)));
    assert_eq!(graph6_write(&[], 201, &mut []), Err(refused(19)));
}

/// 19 where a survey has it, with its places and in its order; a survey's 20 is none here.
#[test]
fn lists_that_are_not_written() {
    let lists: [(&[u8], u64, Result<(), Refused>); 12] = [
        (&[5], 201, Err(refused(19))),
        (&[], u64::MAX, Err(refused(19))),
        (&[], 256, Err(refused(19))),
        (&[9, 9, 9, 9, 9], 200, Err(refused_at(19, 2, 0))),
        (&[0], 0, Err(refused_at(19, 0, 0))),
        (&[1, 1], 2, Err(refused_at(19, 0, 0))),
        (&[0, 1, 2, 1], 3, Err(refused_at(19, 1, 0))),
        (&[0, 1, 0, 2], 2, Err(refused_at(19, 1, 0))),
        (&[0, 1, 0, 1], 2, Err(refused_at(19, 1, 0))),
        (&[0, 2, 0, 1, 3, 3], 4, Err(refused_at(19, 1, 0))),
        (&[0, 1], 2, Ok(())),
        (&[198, 199], 200, Ok(())),
    ];
    for (edges, total, expected) in lists {
        assert_eq!(written(edges, total).map(drop), expected, "{edges:?}");
        let surveyed = jdm_of_edges(edges, total, &mut [0; 64]);
        assert_eq!(surveyed.map(drop), expected, "{edges:?}");
    }
    for total in [42, 62, 63, 200] {
        let mut star = Graph::new(total);
        (1..total).for_each(|w| star.join(0, w));
        let surveyed = jdm_of_edges(&star.edge_list(), total as u64, &mut [0; 64]);
        assert_eq!(surveyed, Err(refused_at(20, 0, 0)));
        both_ways(&star.edge_list(), total as u64, &graph6::text(&star));
    }
}

#[test]
fn what_the_program_prints() {
    let paper = [1, 3, 1, 0, 2, 2, 2, 0, 2, 3, 2, 0];
    assert_eq!(graph6_output(&paper), "CN\n");
    assert_eq!(graph6_output(&[]), "?\n");
    assert_eq!(graph6_output(&[0, 0, 2, 0]), "A?\n");
    assert_eq!(graph6_output(&[0, 0, 1, 0, 1, 1, 2, 0]), "BG\n");
    for refused in [&[2, 2, 5, 0][..], &[1, 1, 202, 0], &[9]] {
        assert_eq!(graph6_output(refused), output(refused));
        assert!(output(refused).starts_with("refused "));
    }
}
