//! McKay's graph6 (document 02, P5): a graph as one line of printable bytes. Its size and its upper
//! triangle are strings of bits here, cut into sixes; each six is a number, and its byte is 63
//! more.

use crate::graphs::Graph;
use crate::{refused, Refused, MAX_VERTICES};

/// Added to six bits, so that bytes are 63 to 126.
const BASE: u8 = 63;
/// The first byte of a size in its longer form.
const LONG: u8 = 126;
/// The largest size that has the shorter form: 6 bits instead of 18.
const MAX_SHORT: usize = 62;

/// The graph's text.
pub fn text(graph: &Graph) -> Vec<u8> {
    let vertices = graph.vertices();
    let triangle: Vec<bool> = columns(vertices)
        .into_iter()
        .map(|(v, w)| graph.joined(v, w))
        .collect();
    [size(vertices), bytes(&triangle)].concat()
}

/// The graph of a text, or why there is none: 22 is looked for first, and 21 is all the rest.
pub fn graph(text: &[u8]) -> Result<Graph, Refused> {
    if too_large(text) {
        return Err(refused(22));
    }
    well_formed(text).ok_or(refused(21))
}

/// The pairs of the upper triangle, column by column: (0, 1), (0, 2), (1, 2), (0, 3), ...
fn columns(vertices: usize) -> Vec<(usize, usize)> {
    (0..vertices)
        .flat_map(|w| (0..w).map(move |v| (v, w)))
        .collect()
}

/// The bytes of a size: a single one, or byte 126 and three.
fn size(vertices: usize) -> Vec<u8> {
    if vertices <= MAX_SHORT {
        return bytes(&binary(vertices, 6));
    }
    [vec![LONG], bytes(&binary(vertices, 18))].concat()
}

/// A number in so many binary places, the highest first.
fn binary(number: usize, places: usize) -> Vec<bool> {
    let digit = |place: usize| number / 2usize.pow(place as u32) % 2 == 1;
    (0..places).rev().map(digit).collect()
}

/// The number that these binary places make, the highest first.
fn number(bits: &[bool]) -> usize {
    bits.iter()
        .fold(0, |number, &bit| 2 * number + usize::from(bit))
}

/// Six bits a byte; the last byte is filled up with zeros.
fn bytes(bits: &[bool]) -> Vec<u8> {
    let byte = |six: &[bool]| {
        let mut six = six.to_vec();
        six.resize(6, false);
        BASE + number(&six) as u8
    };
    bits.chunks(6).map(byte).collect()
}

/// The bits of some bytes, if each is one of 63 to 126.
fn bits(bytes: &[u8]) -> Option<Vec<bool>> {
    if bytes.iter().any(|byte| !(BASE..=LONG).contains(byte)) {
        return None;
    }
    let six = |byte: &u8| binary(usize::from(byte - BASE), 6);
    Some(bytes.iter().flat_map(six).collect())
}

/// 22: two bytes 126, or a longer form that says more than 200. What follows is not looked at.
fn too_large(text: &[u8]) -> bool {
    match *text {
        [LONG, LONG, ..] => true,
        [LONG, a, b, c, ..] => bits(&[a, b, c]).is_some_and(|bits| number(&bits) > MAX_VERTICES),
        _ => false,
    }
}

/// The graph of a text by the rules: the size in the form it needs, then exactly the bytes of its
/// triangle, with zeros behind the last pair.
fn well_formed(text: &[u8]) -> Option<Graph> {
    let (size, triangle) = match text {
        [LONG, rest @ ..] => rest.split_at_checked(3)?,
        _ => text.split_at_checked(1)?,
    };
    let vertices = number(&bits(size)?);
    let needed = if size.len() == 1 { 0 } else { MAX_SHORT + 1 };
    let columns = columns(vertices);
    if vertices < needed || triangle.len() != columns.len().div_ceil(6) {
        return None;
    }
    let triangle = bits(triangle)?;
    let (pairs, padding) = triangle.split_at(columns.len());
    if padding.contains(&true) {
        return None;
    }
    let mut graph = Graph::new(vertices);
    for (&(v, w), _) in columns.iter().zip(pairs).filter(|(_, &bit)| bit) {
        graph.join(v, w);
    }
    Some(graph)
}
