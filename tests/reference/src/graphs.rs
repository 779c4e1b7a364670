//! Simple graphs whose joint degree matrix is counted directly, so that it is known to be
//! realizable without any of the tests of document 01.

use crate::random::Random;
use crate::{adjacency, Matrix, Table, ADJACENCY_BYTES, MAX_DEGREE, MAX_VERTICES};
use std::collections::BTreeSet;

/// A simple graph: edges (v, w) with v below w.
#[derive(Clone, Debug, PartialEq, Eq)]
pub struct Graph {
    vertices: usize,
    edges: BTreeSet<(usize, usize)>,
}

impl Graph {
    /// No edges yet.
    pub fn new(vertices: usize) -> Graph {
        Graph {
            vertices,
            edges: BTreeSet::new(),
        }
    }

    pub fn vertices(&self) -> usize {
        self.vertices
    }

    pub fn edges(&self) -> &BTreeSet<(usize, usize)> {
        &self.edges
    }

    pub fn joined(&self, v: usize, w: usize) -> bool {
        self.edges.contains(&(v.min(w), v.max(w)))
    }

    /// Joins two different vertices.
    pub fn join(&mut self, v: usize, w: usize) {
        assert!(v != w && v < self.vertices && w < self.vertices);
        self.edges.insert((v.min(w), v.max(w)));
    }

    /// The same edges on more vertices, the new ones isolated.
    pub fn widened(mut self, vertices: usize) -> Graph {
        assert!(vertices >= self.vertices);
        self.vertices = vertices;
        self
    }

    /// The number of edges at each vertex.
    pub fn degrees(&self) -> Vec<usize> {
        let mut degrees = vec![0; self.vertices];
        for &(v, w) in &self.edges {
            degrees[v] += 1;
            degrees[w] += 1;
        }
        degrees
    }

    /// Equation (1) at the graph's own degrees, none of them above 40.
    pub fn matrix(&self) -> Matrix {
        let degrees = self.degrees();
        let mut matrix = Matrix::new();
        for &(v, w) in &self.edges {
            matrix.add_edge(degrees[v], degrees[w]);
        }
        matrix
    }

    /// The number of vertices without an edge.
    pub fn isolated(&self) -> usize {
        self.degrees().iter().filter(|&&degree| degree == 0).count()
    }

    /// Its matrix and its isolated vertices.
    pub fn table(&self) -> Table {
        Table::new(self.matrix(), self.isolated() as u64)
    }

    /// The same graph numbered by rising degree, as laid out: isolated vertices come first.
    pub fn by_rising_degree(&self) -> Graph {
        let degrees = self.degrees();
        let mut order: Vec<usize> = (0..self.vertices).collect();
        order.sort_by_key(|&v| degrees[v]);
        self.numbered(&order)
    }

    /// The same graph without its isolated vertices, the others in their order.
    pub fn without_isolated(&self) -> Graph {
        let degrees = self.degrees();
        let linked: Vec<usize> = (0..self.vertices).filter(|&v| degrees[v] > 0).collect();
        self.numbered(&linked)
    }

    /// The same graph with the numbers of two vertices exchanged.
    pub fn exchanged(&self, v: usize, w: usize) -> Graph {
        let mut order: Vec<usize> = (0..self.vertices).collect();
        order.swap(v, w);
        self.numbered(&order)
    }

    /// A graph with the same degrees and the same matrix, mostly another one: edges a-b and c-d become
    /// a-d and c-b where a and c are of one degree and neither is joined to its new end. So many pairs
    /// of edges are tried.
    pub fn rewired(&self, tries: usize, random: &mut Random) -> Graph {
        let degrees = self.degrees();
        let mut graph = self.clone();
        let mut edges: Vec<(usize, usize)> = self.edges.iter().copied().collect();
        for _ in 0..tries {
            if edges.is_empty() {
                break;
            }
            let (i, j) = (random.below(edges.len()), random.below(edges.len()));
            let ((a, b), (c, d)) = (random.either_way(edges[i]), random.either_way(edges[j]));
            let new = |v, w| v != w && !graph.joined(v, w);
            if i != j && degrees[a] == degrees[c] && new(a, d) && new(c, b) {
                for (v, w) in [(a, b), (c, d)] {
                    graph.edges.remove(&(v.min(w), v.max(w)));
                }
                graph.join(a, d);
                graph.join(c, b);
                (edges[i], edges[j]) = ((a, d), (c, b));
            }
        }
        graph
    }

    /// The vertices in this order, which leaves out isolated ones at most.
    fn numbered(&self, order: &[usize]) -> Graph {
        let mut number = vec![0; self.vertices];
        for (new, &old) in order.iter().enumerate() {
            number[old] = new;
        }
        let mut graph = Graph::new(order.len());
        for &(v, w) in &self.edges {
            graph.join(number[v], number[w]);
        }
        graph
    }

    /// The bytes of its adjacency matrix.
    pub fn adjacency(&self) -> Vec<u8> {
        let mut bytes = vec![0; ADJACENCY_BYTES];
        for &(v, w) in &self.edges {
            adjacency::insert(&mut bytes, v, w);
        }
        bytes
    }

    /// The bytes of its edge list, 2 an edge.
    pub fn edge_list(&self) -> Vec<u8> {
        self.edges
            .iter()
            .flat_map(|&(v, w)| [v as u8, w as u8])
            .collect()
    }
}

/// A graph on at most 16 vertices from the bits of a number, one bit a pair.
pub fn from_bits(vertices: usize, bits: u64) -> Graph {
    let mut graph = Graph::new(vertices);
    for (bit, (v, w)) in all_pairs(vertices).into_iter().enumerate() {
        if bits >> bit & 1 == 1 {
            graph.join(v, w);
        }
    }
    graph
}

/// All pairs among some vertices, ascending.
pub fn all_pairs(vertices: usize) -> Vec<(usize, usize)> {
    (0..vertices)
        .flat_map(|v| (v + 1..vertices).map(move |w| (v, w)))
        .collect()
}

/// The number of pairs among some vertices.
pub fn pairs(vertices: usize) -> usize {
    vertices * vertices.saturating_sub(1) / 2
}

/// Joins random pairs that stay within the degree caps, until `edges` are there or luck runs out.
fn join_at_random(graph: &mut Graph, caps: &[usize], edges: usize, random: &mut Random) {
    let mut degrees = graph.degrees();
    let mut tries = 40 * edges + 400;
    while graph.edges.len() < edges && tries > 0 {
        tries -= 1;
        let v = random.below(graph.vertices);
        let w = random.below(graph.vertices);
        if v != w && degrees[v] < caps[v] && degrees[w] < caps[w] && !graph.joined(v, w) {
            graph.join(v, w);
            degrees[v] += 1;
            degrees[w] += 1;
        }
    }
}

/// About `edges` edges spread evenly, no degree above 40.
pub fn even(vertices: usize, edges: usize, random: &mut Random) -> Graph {
    let mut graph = Graph::new(vertices);
    join_at_random(&mut graph, &vec![MAX_DEGREE; vertices], edges, random);
    graph
}

/// So many edges of all pairs alike, whatever the degrees.
pub fn uniform(vertices: usize, edges: usize, random: &mut Random) -> Graph {
    let mut pairs = all_pairs(vertices);
    random.shuffle(&mut pairs);
    let mut graph = Graph::new(vertices);
    for &(v, w) in &pairs[..edges] {
        graph.join(v, w);
    }
    graph
}

/// Degrees spread from 1 to `most`, so that many cells are used.
pub fn spread(vertices: usize, most: usize, random: &mut Random) -> Graph {
    let caps: Vec<usize> = (0..vertices).map(|v| 1 + v * most / vertices).collect();
    let edges = caps.iter().sum::<usize>() / 2;
    let mut graph = Graph::new(vertices);
    join_at_random(&mut graph, &caps, edges, random);
    graph
}

/// Each new vertex joins up to `each` earlier ones, preferring those with many edges.
pub fn hubs(vertices: usize, each: usize, random: &mut Random) -> Graph {
    let mut graph = Graph::new(vertices);
    let mut degrees = vec![0; vertices];
    let mut ends = vec![0];
    for v in 1..vertices {
        for _ in 0..each {
            let w = *random.pick(&ends);
            let room = degrees[v] < MAX_DEGREE && degrees[w] < MAX_DEGREE;
            if w != v && room && !graph.joined(v, w) {
                graph.join(v, w);
                degrees[v] += 1;
                degrees[w] += 1;
                ends.push(w);
            }
        }
        ends.push(v);
    }
    graph
}

/// Edges between two sides only, about `percent` of all such pairs, no degree above 40.
pub fn bipartite(left: usize, right: usize, percent: usize, random: &mut Random) -> Graph {
    let mut graph = Graph::new(left + right);
    let mut degrees = vec![0; left + right];
    for v in 0..left {
        for w in left..left + right {
            let room = degrees[v] < MAX_DEGREE && degrees[w] < MAX_DEGREE;
            if room && random.chance(percent) {
                graph.join(v, w);
                degrees[v] += 1;
                degrees[w] += 1;
            }
        }
    }
    graph
}

/// Every vertex joined to the `degree` nearest on a circle; `degree` is even.
pub fn regular(vertices: usize, degree: usize) -> Graph {
    assert!(degree % 2 == 0 && degree < vertices);
    let mut graph = Graph::new(vertices);
    for v in 0..vertices {
        for step in 1..=degree / 2 {
            graph.join(v, (v + step) % vertices);
        }
    }
    graph
}

/// Separate cliques of `size` vertices, as many as fit.
pub fn cliques(vertices: usize, size: usize) -> Graph {
    let mut graph = Graph::new(vertices);
    for start in (0..=vertices - size).step_by(size) {
        for v in start..start + size {
            for w in v + 1..start + size {
                graph.join(v, w);
            }
        }
    }
    graph
}

/// A random graph of any of the kinds above with at most `most` vertices, widened in every second
/// case by isolated ones.
pub fn any(most: usize, random: &mut Random) -> Graph {
    let most = most.min(MAX_VERTICES);
    let vertices = random.between(2, most);
    let graph = any_kind(vertices, random);
    match random.below(8) {
        0 => graph.widened(most),
        1..=3 => graph.widened(random.between(vertices, most)),
        _ => graph,
    }
}

fn any_kind(vertices: usize, random: &mut Random) -> Graph {
    match random.below(6) {
        0 => {
            let edges = random.below(pairs(vertices) + 1).min(4_000);
            even(vertices, edges, random)
        }
        1 => {
            let highest = random.between(1, MAX_DEGREE.min(vertices));
            spread(vertices, highest, random)
        }
        2 => {
            let each = random.between(1, 8);
            hubs(vertices, each, random)
        }
        3 => {
            let left = random.between(1, vertices - 1);
            let percent = random.between(1, 100);
            bipartite(left, vertices - left, percent, random)
        }
        4 => regular(vertices, 2 * random.below(1 + (vertices - 1).min(40) / 2)),
        _ => {
            let size = random.between(2, vertices.min(41));
            cliques(vertices, size)
        }
    }
}
