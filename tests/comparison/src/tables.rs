//! Tables laid out and completed, from empty and from starts made by hand, and checked by a count
//! that uses neither the library nor the reference.

use crate::blocks;
use crate::both::Both;
use crate::call::{Call, Completing};
use crate::texts::text_length;
use reference::adjacency;
use reference::graphs::{self, Graph};
use reference::numbers::refusal;
use reference::random::Random;
use reference::{refused, Matrix, Table, MAX_BLOCKS};
use std::collections::{BTreeMap, BTreeSet};

/// Cells (k, l) with k at most l that are not 0.
pub type Cells = BTreeMap<(usize, usize), u64>;

/// How a state comes to its first edges.
#[derive(Clone, Copy, Debug, PartialEq, Eq)]
pub enum Start {
    Empty,
    /// Joins and removals of random pairs.
    ByHand,
}

/// What records add up to, or what a graph has: its cells, and beside them its isolated vertices.
#[derive(Clone, Debug, Default, PartialEq, Eq)]
pub struct Sum {
    pub cells: Cells,
    pub isolated: u64,
}

impl Sum {
    /// Half the sum of all cells, (k, l) and (l, k) both counted.
    pub fn edges(&self) -> u64 {
        let ends =
            |(&(k, l), &count): (&(usize, usize), &u64)| if k == l { count } else { 2 * count };
        self.cells.iter().map(ends).sum::<u64>() / 2
    }

    /// How many records write it down.
    fn records(&self) -> usize {
        self.cells.len() + usize::from(self.isolated > 0)
    }

    /// The same for the reference.
    pub fn table(&self) -> Table {
        let cells: Vec<_> = self.cells.iter().map(|(&(k, l), &n)| (k, l, n)).collect();
        Table::of(&cells, self.isolated)
    }
}

/// The sum of all records.
pub fn sum_of(blocks: &[Vec<u8>]) -> Sum {
    let mut sum = Sum::default();
    for record in blocks.iter().flat_map(|block| block.chunks(4)) {
        let count = u64::from(record[2]) + 256 * u64::from(record[3]);
        match (record[0] as usize, record[1] as usize) {
            (0, 0) => sum.isolated += count,
            cell if count > 0 => *sum.cells.entry(cell).or_default() += count,
            _ => {}
        }
    }
    sum
}

/// Equation (1) at the degrees the graph itself has, and how many of its vertices have no edge.
pub fn sum_of_graph(adjacency: &[u8], vertices: usize) -> Sum {
    let rows: Vec<&[u8]> = adjacency.chunks(200).collect();
    let degrees: Vec<usize> = rows
        .iter()
        .map(|row| row.iter().map(|&byte| byte as usize).sum())
        .collect();
    let mut sum = Sum::default();
    for v in 0..200 {
        for w in (0..200).filter(|&w| rows[v][w] == 1) {
            // From v's side: cell (k, k) is met from both ends, any other once with k below l.
            if degrees[v] <= degrees[w] {
                *sum.cells.entry((degrees[v], degrees[w])).or_default() += 1;
            }
        }
    }
    let without = degrees[..vertices].iter().filter(|&&degree| degree == 0);
    sum.isolated = without.count() as u64;
    sum
}

/// Whether the bytes are a simple graph: 0 or 1, symmetric, no loops.
pub fn simple(adjacency: &[u8]) -> bool {
    (0..200).all(|v| {
        adjacency[201 * v] == 0
            && (0..v).all(|w| {
                let byte = adjacency[200 * v + w];
                byte <= 1 && byte == adjacency[200 * w + v]
            })
    })
}

/// Lays a table out and completes it, or sees it refused. Returns whether it was laid.
pub fn run(table: &Table, start: Start, random: &mut Random, both: &mut Both) -> bool {
    let blocks = take_all(table, random, both);
    let numbers = both.call(Call::LayOut);
    read_all_back(&blocks, both);
    if numbers[0] != 0 {
        assert!((9..=12).contains(&numbers[0]));
        both.count.tables_refused += 1;
        return false;
    }
    let vertices = numbers[1] as usize;
    let laid = match start {
        Start::Empty => 0,
        Start::ByHand => edges_by_hand(vertices, random, both),
    };
    finish(&sum_of(&blocks), vertices, laid, random, both);
    true
}

/// Lays out the table of a graph, lays some of the graph's own edges by hand, and completes.
pub fn run_from_part_of(graph: &Graph, random: &mut Random, both: &mut Both) {
    let graph = graph.by_rising_degree();
    let blocks = take_all(&graph.table(), random, both);
    let vertices = graph.vertices();
    assert_eq!(both.call(Call::LayOut), [0, vertices as u64, 0, 0, 0, 0]);
    read_all_back(&blocks, both);
    let percent = random.between(1, 99);
    let mut edges: Vec<(usize, usize)> = graph.edges().iter().copied().collect();
    edges.retain(|_| random.chance(percent));
    random.shuffle(&mut edges);
    for (i, &(v, w)) in edges.iter().enumerate() {
        if i < MAX_BY_CALLS {
            // No vertex and no cell is above what the graph itself has, so nothing is switched.
            let (v, w) = (v as u64, w as u64);
            let answer = both.call(Call::AddEdge { v, w });
            assert_eq!(answer, [0, 0, 0, 255, 255, 255, 255, 255, 255]);
        } else {
            adjacency::insert(&mut both.adjacency, v, w);
        }
    }
    finish(&sum_of(&blocks), vertices, edges.len() as u64, random, both);
}

/// Edges of a large start beyond these are written as bytes, to save time.
const MAX_BY_CALLS: usize = 100;

/// Clears, and takes the table's blocks, some of them twice.
pub fn take_all(table: &Table, random: &mut Random, both: &mut Both) -> Vec<Vec<u8>> {
    both.call(Call::Clear);
    let blocks = blocks::cut(table, random);
    for (number, block) in (0..).zip(&blocks) {
        take(both, number, block, [0, 0, number + 1, 0, 0, 0]);
        if random.chance(20) {
            take(both, number, block, [0, 1, 0, 0, 0, 0]);
        }
    }
    if blocks.len() == MAX_BLOCKS {
        refuse_one_more(both);
    }
    blocks
}

/// A full journal takes no more, not even an empty block.
fn refuse_one_more(both: &mut Both) {
    let number = MAX_BLOCKS as u64;
    for block in [&[][..], &[1, 1, 2, 0]] {
        take(both, number, block, refusal(refused(8)));
    }
}

/// Every block lies in the journal as it was sent.
fn read_all_back(blocks: &[Vec<u8>], both: &mut Both) {
    for (number, block) in (0..).zip(blocks) {
        both.read_back(number, block);
    }
}

fn take(both: &mut Both, number: u64, block: &[u8], expected: [u64; 6]) {
    let block = block.to_vec();
    assert_eq!(both.call(Call::TakeBlock { number, block }), expected);
}

/// Tries random joins and some removals. Returns the edges laid.
fn edges_by_hand(vertices: usize, random: &mut Random, both: &mut Both) -> u64 {
    let mut laid = 0;
    if vertices < 2 {
        return laid;
    }
    for _ in 0..random.between(1, 3 * vertices.min(30)) {
        let v = random.below(vertices) as u64;
        let w = random.below(vertices) as u64;
        if both.call(Call::AddEdge { v, w })[0] == 0 {
            laid += 1;
        }
        let v = random.below(vertices) as u64;
        if random.chance(20) && both.call(Call::RemoveEdge { v, w })[0] == 0 {
            laid -= 1;
        }
    }
    laid
}

/// Completes, finds nothing more to complete, and checks the graph by its own count.
fn complete(completing: Completing, wanted: &Sum, vertices: usize, laid: u64, both: &mut Both) {
    both.complete_by(completing, wanted.edges() - laid);
    assert!(simple(&both.adjacency));
    assert_eq!(&sum_of_graph(&both.adjacency, vertices), wanted);
    // The isolated vertices are the first ones.
    let rows = &both.adjacency[..200 * wanted.isolated as usize];
    assert!(rows.iter().all(|&byte| byte == 0), "isolated, but joined");
    both.complete_by(completing, 0);
}

/// Where more edges are missing, the reference takes its time: some starts are completed shuffled too.
const MAX_SHUFFLED: u64 = 200;

/// Completes in either way, and checks the graph by its list too, and by the list's survey and text.
fn finish(wanted: &Sum, vertices: usize, laid: u64, random: &mut Random, both: &mut Both) {
    let edges = wanted.edges();
    if edges - laid <= MAX_SHUFFLED || random.chance(20) {
        let start = both.adjacency.clone();
        let shuffled = Completing::any_shuffled(random);
        complete(shuffled, wanted, vertices, laid, both);
        both.adjacency = start;
    }
    complete(Completing::Lowest, wanted, vertices, laid, both);

    let output = vec![0xee; 2 * edges as usize];
    let numbers = both.call(Call::EdgeList { output });
    assert_eq!(numbers, [0, 2 * edges, 0, 0, 0, 0]);
    let (edges, total) = (both.output.clone(), vertices as u64);
    let length = 4 * wanted.records();
    let call = Call::JdmOfEdges {
        edges: edges.clone(),
        total,
        output: vec![0xee; length],
    };
    assert_eq!(both.call(call), [0, length as u64, 0, 0, 0, 0]);
    assert_eq!(&sum_of(std::slice::from_ref(&both.output)), wanted);

    let length = text_length(vertices);
    let call = Call::Graph6Write {
        edges,
        total,
        output: vec![0xee; length],
    };
    assert_eq!(both.call(call), [0, length as u64, 0, 0, 0, 0]);
    assert!(is_text_of(&both.output, &both.adjacency, vertices));
    both.count.tables_laid += 1;
}

/// Whether a graph6 text says this number of vertices and has a bit for each pair, column by column,
/// 1 where the matrix is, and zeros behind.
fn is_text_of(text: &[u8], adjacency: &[u8], vertices: usize) -> bool {
    let six = |byte: &u8| usize::from(byte - 63);
    let (size, body) = match text {
        [126, a, b, c, body @ ..] => (six(a) << 12 | six(b) << 6 | six(c), body),
        [n, body @ ..] => (six(n), body),
        [] => return false,
    };
    let bit = |place: usize| six(&body[place / 6]) >> (5 - place % 6) & 1;
    let place = |v: usize, w: usize| w * (w - 1) / 2 + v;
    let pairs = graphs::pairs(vertices);
    size == vertices
        && (1..vertices)
            .all(|w| (0..w).all(|v| bit(place(v, w)) == usize::from(adjacency[200 * v + w])))
        && (pairs..6 * body.len()).all(|place| bit(place) == 0)
}

/// Some degrees, and a most for each cell among them.
const FAMILIES: [(&[usize], u64); 9] = [
    (&[1, 2, 3], 3),
    (&[1, 2], 10),
    (&[2, 3], 9),
    (&[1, 4], 8),
    (&[2, 4], 8),
    (&[3, 4], 12),
    (&[1], 204),
    (&[2], 60),
    (&[4], 100),
];

/// Every table of small families, whether it has a graph or not; every third has isolated vertices.
pub fn exhaustive() -> Vec<Table> {
    let mut matrices = Vec::new();
    for (degrees, most) in FAMILIES {
        let mut pairs = Vec::new();
        for (i, &k) in degrees.iter().enumerate() {
            pairs.extend(degrees[i..].iter().map(|&l| (k, l)));
        }
        fill(&pairs, most, &Matrix::new(), &mut matrices);
    }
    let isolated = [0, 0, 1, 0, 0, 2, 0, 0, 7].into_iter().cycle();
    let both = matrices.into_iter().zip(isolated);
    both.map(|(matrix, isolated)| Table::new(matrix, isolated))
        .collect()
}

fn fill(pairs: &[(usize, usize)], most: u64, matrix: &Matrix, matrices: &mut Vec<Matrix>) {
    let Some((&(k, l), rest)) = pairs.split_first() else {
        matrices.push(matrix.clone());
        return;
    };
    for count in 0..=most {
        let mut with_count = matrix.clone();
        with_count.add(k, l, count);
        fill(rest, most, &with_count, matrices);
    }
}

/// Tables at the bounds: most vertices, most edges, most cells, cells as large as they can be, each
/// without isolated vertices, with as many as there is room for, and with one more.
pub fn at_the_bounds() -> Vec<Table> {
    let mut tables = Vec::new();
    for matrix in matrices_at_the_bounds() {
        let vertices = Table::new(matrix.clone(), 0).vertex_count();
        let room = 200u64.saturating_sub(vertices);
        let isolated = BTreeSet::from([0, room, room + 1]);
        tables.extend(isolated.iter().map(|&n| Table::new(matrix.clone(), n)));
    }
    for isolated in [1, 199, 256, 65_535, 65_536, 65_736, 131_072, 67_000_000] {
        tables.push(Table::of(&[], isolated));
    }
    tables
}

/// All 820 cells on 198 vertices, so that with isolated ones a survey writes 821 records: each row
/// has 41 in its cells, and what is left of k x D(k) goes, from the row that has most left, to the
/// one that has least.
pub fn every_cell() -> Matrix {
    let mut matrix = Matrix::new();
    let mut left = [0; 41];
    for (k, left) in left.iter_mut().enumerate().skip(1) {
        (k..=40).for_each(|l| matrix.add(k, l, if k == l { 2 } else { 1 }));
        *left = k * 41usize.div_ceil(k) - 41;
    }
    let count = |k: usize| 41u64.div_ceil(k as u64);
    while let Some(k) = (1..=40).filter(|&k| left[k] > 0).max_by_key(|&k| left[k]) {
        let open = |&l: &usize| l != k && left[l] > 0 && matrix.cell(k, l) < count(k) * count(l);
        let l = (1..=40).filter(open).min_by_key(|&l| left[l]);
        let l = l.expect("a row to share with");
        matrix.add(k, l, 1);
        left[k] -= 1;
        left[l] -= 1;
    }
    matrix
}

fn matrices_at_the_bounds() -> Vec<Matrix> {
    vec![
        Matrix::new(),
        every_cell(),
        Matrix::of(&[(40, 40, 8_000)]),
        Matrix::of(&[(40, 40, 8_040)]),
        Matrix::of(&[(40, 40, 1_640)]),
        Matrix::of(&[(40, 40, 1_600)]),
        Matrix::of(&[(1, 1, 200)]),
        Matrix::of(&[(1, 1, 202)]),
        Matrix::of(&[(1, 40, 160)]),
        Matrix::of(&[(39, 40, 1_560)]),
        Matrix::of(&[(39, 40, 3_120)]),
        Matrix::of(&[(20, 40, 2_640)]),
        Matrix::of(&[(20, 40, 40)]),
        Matrix::of(&[(39, 39, 7_800)]),
        graphs::spread(200, 40, &mut Random::new(3)).matrix(),
        graphs::cliques(200, 41).matrix(),
        graphs::cliques(200, 40).matrix(),
    ]
}
