//! Graphs of any density written as graph6 and read from it, with room and without, and texts and
//! lists that are spoiled.

use crate::both::Both;
use crate::call::{any_output, Call};
use crate::edge_lists;
use reference::graphs::{self, pairs, Graph};
use reference::numbers::Numbers;
use reference::random::Random;
use reference::{refused, MAX_VERTICES};

/// Spoiled texts and lists of each graph.
const SPOILED: usize = 12;

/// Writes and reads a random graph of up to so many vertices, and spoils both.
pub fn run(seed: u64, most: usize, both: &mut Both) {
    let mut random = Random::new(seed);
    let graph = any_graph(most, &mut random);
    let text = out_and_in(&graph, both);
    for _ in 0..SPOILED {
        let spoiled = spoil(&text, &mut random);
        let output = any_output(2 * graph.edges().len(), &mut random);
        read(&spoiled, output, both);
        let mut edges = graph.edge_list();
        edge_lists::spoil(&mut edges, &mut random);
        let total = graph.vertices() as u64 + *random.pick(&[0, 0, 1, 200]);
        let output = any_output(text.len(), &mut random);
        write(&edges, total, output, both);
    }
}

/// Without an edge, with a few, with any number of them, with nearly all and with all. The sizes
/// around the longer form and the largest come often.
pub fn any_graph(most: usize, random: &mut Random) -> Graph {
    let most = most.min(MAX_VERTICES);
    let vertices = match random.below(4) {
        0 => *random.pick(&[61, 62, 63, 64, 199, 200]),
        _ => random.below(most + 1),
    };
    let vertices = vertices.min(most);
    let all = pairs(vertices);
    let edges = match random.below(8) {
        0 => 0,
        1 => all,
        2 => all - random.below(all + 1).min(3),
        3 => random.below(vertices + 1).min(all),
        _ => random.below(all + 1),
    };
    graphs::uniform(vertices, edges, random)
}

pub fn write(edges: &[u8], total: u64, output: Vec<u8>, both: &mut Both) -> Numbers {
    both.call(Call::Graph6Write {
        edges: edges.to_vec(),
        total,
        output,
    })
}

pub fn read(text: &[u8], output: Vec<u8>, both: &mut Both) -> Numbers {
    let text = text.to_vec();
    both.call(Call::Graph6Read { text, output })
}

/// Writes the graph and reads it, each refused for want of a byte, with just the room it needs and
/// with more. Returns the text.
pub fn out_and_in(graph: &Graph, both: &mut Both) -> Vec<u8> {
    let (edges, total) = (graph.edge_list(), graph.vertices() as u64);
    let text = reference::graph6::text(graph);
    let filled = |length| vec![0xee; length];
    let (written, listed) = (text.len() as u64, edges.len() as u64);

    let answer = write(&edges, total, filled(text.len() - 1), both);
    assert_eq!(answer, refused(18));
    for more in [9, 0] {
        let answer = write(&edges, total, filled(text.len() + more), both);
        assert_eq!(answer, [0, written, 0, 0, 0, 0]);
        assert_eq!(both.output, [&text[..], &filled(more)].concat());
    }
    if !edges.is_empty() {
        let answer = read(&text, filled(edges.len() - 1), both);
        assert_eq!(answer, refused(18));
    }
    for more in [9, 0] {
        let answer = read(&text, filled(edges.len() + more), both);
        assert_eq!(answer, [0, listed, total, 0, 0, 0]);
        assert_eq!(both.output, [&edges[..], &filled(more)].concat());
    }
    text
}

/// A text with one thing changed. It may be well-formed still, but another one.
pub fn spoil(text: &[u8], random: &mut Random) -> Vec<u8> {
    let [first, rest @ ..] = text else {
        return random.bytes(2);
    };
    let place = random.below(text.len());
    let behind = random.below(9);
    match random.below(14) {
        0 => Vec::new(),
        1 => text[..place].to_vec(),
        2 => [text, b"?"].concat(),
        3 => [text, b"\n"].concat(),
        4 => [text, &random.bytes(behind)].concat(),
        5 => [b">>graph6<<", text].concat(),
        6 => [b"~~", rest].concat(),
        7 => [&above_200(random), rest].concat(),
        8 => [&above_200(random)[..], &random.bytes(behind)].concat(),
        // The longer form of a size up to 62.
        9 => [&[126, 63, 63, *first.min(&125)], rest].concat(),
        10 => with(text, text.len() - 1, |byte| in_bits(byte, |six| six | 1)),
        11 => with(text, place, |_| random.byte()),
        12 => with(text, place, |_| {
            *random.pick(&[0, 62, 63, 126, 127, 128, 255])
        }),
        _ => {
            let bit = 1 << random.below(6);
            with(text, place, |byte| in_bits(byte, |six| six ^ bit))
        }
    }
}

/// The byte with other six bits.
pub fn in_bits(byte: u8, change: impl Fn(u8) -> u8) -> u8 {
    change(byte.wrapping_sub(63)).wrapping_add(63)
}

/// The text with one byte changed.
pub fn with(text: &[u8], place: usize, change: impl FnOnce(u8) -> u8) -> Vec<u8> {
    let mut changed = text.to_vec();
    changed[place] = change(text[place]);
    changed
}

/// A size above 200, as far as four bytes can say one.
fn above_200(random: &mut Random) -> [u8; 4] {
    let most = 62 << 12 | 63 << 6 | 63;
    let size = match random.below(3) {
        0 => *random.pick(&[201, 202, 255, 256, 4_095, 4_096, most]),
        1 => random.between(201, 400),
        _ => random.between(201, most),
    };
    let six = |places: usize| 63 + (size >> places & 63) as u8;
    [126, six(12), six(6), six(0)]
}
