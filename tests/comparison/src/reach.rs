//! Laid states brought to given graphs (document 02, P6): adding the edges of a graph that has the
//! table and the degrees laid out is never refused and moves no edge, in any order, from empty or
//! once the other edges are removed. What must be in the state is kept beside it and compared after
//! every call, byte for byte.

use crate::both::Both;
use crate::call::{Call, Completing};
use crate::swaps;
use crate::tables::{sum_of, take_all};
use reference::graphs::Graph;
use reference::numbers::Numbers;
use reference::random::Random;
use reference::{adjacency, graph6, log, refused, ADJACENCY_BYTES};
use std::fmt;

named_counts! {
    /// What was tried: how often a state of each kind was brought to a graph, and graphs of which
    /// kinds.
    Reached {
        graphs: "graphs",
        /// Orders in which edges were removed and added.
        orders: "orders",
        calls: "calls",
        empty: "from empty",
        completed: "from a completed state",
        /// Among them: edges were swapped afterwards.
        swapped: "completed with swaps",
        half_laid: "from a half laid one",
        /// Among them: edges have moved on the way to the half laid one.
        switched: "half laid with switches",
        another: "from another graph of the table",
        /// All edges were removed first.
        all: "all edges removed first",
        /// Only those were removed that are not in the graph, and only missing ones added.
        differing: "only what differs",
        isolated: "graphs with isolated vertices",
        diagonal: "graphs with a cell (k, k)",
        degrees: "graphs with several degrees",
        /// Graphs of the table at other degrees: an edge was refused.
        refused: "at other degrees, refused",
        /// The same: an edge moved another one.
        moved: "at other degrees, moved",
        twice: "edges named twice",
        /// Steps of small graphs' orders, each tried once.
        steps_added: "steps adding",
        steps_removed: "steps removing",
    }
}

impl Reached {
    /// Counts a graph by its kinds.
    pub fn graph(&mut self, graph: &Graph) {
        let cells = graph.matrix().nonzero_cells();
        let degrees = graph.degrees();
        let least = degrees.iter().find(|&&degree| degree > 0);
        self.graphs += 1;
        self.isolated += u64::from(graph.isolated() > 0);
        self.diagonal += u64::from(cells.iter().any(|&(k, l, _)| k == l));
        self.degrees += u64::from(least.is_some() && least != degrees.last());
    }

    /// What was never tried, in words.
    pub fn missing(&self) -> Vec<String> {
        let named = self.named().into_iter();
        let never = named.filter(|(_, count)| *count == 0);
        never.map(|(name, _)| format!("never: {name}")).collect()
    }

    pub fn print(&self) {
        for (name, count) in self.named() {
            println!("{count:>9} {name}");
        }
    }
}

/// The state that a graph is reached from.
#[derive(Clone, Copy, Debug)]
pub enum Start<'a> {
    Empty,
    Completed,
    /// Some edges joined by hand, others moved or removed.
    HalfLaid,
    /// Another graph of the same table and degrees.
    Another(&'a Graph),
}

/// Which edges are removed before those of the graph are added.
#[derive(Clone, Copy, Debug, PartialEq, Eq)]
pub enum Removal {
    /// All of them: the matrix is empty then.
    All,
    /// Those that are not in the graph; the others stay.
    Differing,
}

/// How much is done besides the calls of an order, in percent of them.
#[derive(Clone, Copy, Debug)]
pub struct Effort {
    /// Calls that go to the reference too.
    pub compared: usize,
    /// Calls after which figures are asked for.
    pub figures: usize,
}

/// A state laid out for the table of some graphs, and what must be in it.
pub struct Laid<'a> {
    pub count: Reached,
    both: Both,
    random: &'a mut Random,
    effort: Effort,
    /// The journal, which no call changes any more.
    journal: Vec<u8>,
    /// The matrix as it must be.
    adjacency: Vec<u8>,
    /// The log as it must be: empty once an edge was added or removed.
    log: Vec<u8>,
    /// Of figures: blocks, vertices and edges wanted.
    figures: [u64; 3],
    /// Document 01's missing edges: half the sum of all cells, less the edges.
    missing: u64,
    graph: String,
    steps: Vec<Step>,
}

/// One call of an order.
struct Step {
    adds: bool,
    v: u64,
    w: u64,
}

impl fmt::Debug for Step {
    fn fmt(&self, f: &mut fmt::Formatter<'_>) -> fmt::Result {
        let sign = if self.adds { '+' } else { '-' };
        write!(f, "{sign}({}, {})", self.v, self.w)
    }
}

/// The answer to an edge that was added and moved no other.
pub const NO_SWITCH: [u64; 9] = [0, 0, 0, 255, 255, 255, 255, 255, 255];

impl<'a> Laid<'a> {
    /// Takes the graph's table in blocks and lays it out. The label tells in messages which test it
    /// belongs to.
    pub fn new(label: &str, graph: &Graph, effort: Effort, random: &'a mut Random) -> Laid<'a> {
        let mut both = Both::new(label);
        let blocks = take_all(&graph.table(), random, &mut both);
        let vertices = graph.vertices() as u64;
        assert_eq!(both.call(Call::LayOut), [0, vertices, 0, 0, 0, 0]);
        let edges = sum_of(&blocks).edges();
        Laid {
            count: Reached::default(),
            random,
            effort,
            journal: both.journal.clone(),
            adjacency: vec![0; ADJACENCY_BYTES],
            log: log::empty(),
            both,
            figures: [blocks.len() as u64, vertices, edges],
            missing: edges,
            graph: String::new(),
            steps: Vec::new(),
        }
    }

    /// Brings the state from its start to the graph, in a random order of edges, each named either
    /// way round.
    pub fn bring(&mut self, start: Start, removal: Removal, graph: &Graph) {
        self.begin(start, graph);
        self.count_start(start);
        let mut laid = self.laid();
        if removal == Removal::Differing {
            laid.retain(|&(v, w)| !graph.joined(v, w));
            self.count.differing += 1;
        }
        let removes = u64::from(!laid.is_empty());
        for (v, w) in self.in_any_order(laid) {
            self.remove(v, w);
        }
        if removal == Removal::All {
            let zero = self.both.adjacency.iter().all(|&byte| byte == 0);
            assert!(zero, "{}: an edge is left", self.place());
            self.count.all += removes;
        }
        let mut missing: Vec<_> = graph.edges().iter().copied().collect();
        missing.retain(|&(v, w)| !adjacency::joined(&self.adjacency, v, w));
        let order = self.in_any_order(missing);
        self.add_all(&order);
        self.end(graph);
    }

    /// Adds the graph's edges in this order, each named as it stands there, onto the empty matrix.
    pub fn bring_in_order(&mut self, order: &[(u64, u64)], graph: &Graph) {
        self.begin(Start::Empty, graph);
        self.count_start(Start::Empty);
        self.add_all(order);
        self.end(graph);
    }

    /// A graph of the same table with other degrees: one of its edges is refused or moves another.
    pub fn never_reach(&mut self, graph: &Graph) {
        self.begin(Start::Empty, graph);
        let edges = graph.edges().iter().copied().collect();
        for (v, w) in self.in_any_order(edges) {
            self.steps.push(Step { adds: true, v, w });
            let answer = self.both.call(Call::AddEdge { v, w });
            match (answer[0], answer[1]) {
                (0, 0) => {}
                (0, _) => {
                    self.count.moved += 1;
                    return;
                }
                _ => {
                    self.count.refused += 1;
                    return;
                }
            }
        }
        panic!("{}: reached, with other degrees", self.place());
    }

    /// The counts, those of calls included.
    pub fn counted(mut self) -> Reached {
        self.count.calls += self.both.count.calls();
        self.count
    }

    /// Makes the start, and an order that will be named in messages.
    fn begin(&mut self, start: Start, graph: &Graph) {
        self.graph = graph6::text(graph).escape_ascii().to_string();
        self.steps.clear();
        self.set(vec![0; ADJACENCY_BYTES]);
        match start {
            Start::Empty => {}
            Start::Completed => {
                self.complete();
                let swaps = self.swap_some(&graph.degrees());
                self.count.swapped += u64::from(swaps > 0);
            }
            Start::HalfLaid => {
                let switches = self.lay_half();
                self.count.switched += u64::from(switches > 0);
            }
            Start::Another(other) => self.set(other.adjacency()),
        }
        self.check();
    }

    fn count_start(&mut self, start: Start) {
        let count = &mut self.count;
        count.orders += 1;
        *match start {
            Start::Empty => &mut count.empty,
            Start::Completed => &mut count.completed,
            Start::HalfLaid => &mut count.half_laid,
            Start::Another(_) => &mut count.another,
        } += 1;
    }

    /// The state holds these edges, and no swap to take back.
    fn set(&mut self, adjacency: Vec<u8>) {
        self.log.fill(0);
        self.both.log.fill(0);
        self.both.adjacency.clone_from(&adjacency);
        let ends: u64 = adjacency.iter().map(|&byte| u64::from(byte)).sum();
        self.missing = self.figures[2] - ends / 2;
        self.adjacency = adjacency;
    }

    fn laid(&self) -> Vec<(usize, usize)> {
        adjacency::edges(&self.adjacency)
    }

    /// Completes in either way, which the reference does too. Returns the switches.
    fn complete(&mut self) -> u64 {
        let completing = Completing::any(self.random);
        let switches = self.both.complete_by(completing, self.missing)[2];
        self.set(self.both.adjacency.clone());
        assert_eq!(self.missing, 0, "{}", self.place());
        switches
    }

    /// Swaps some edges where that is allowed, in every second case; the log keeps them. Returns
    /// how many.
    fn swap_some(&mut self, degrees: &[usize]) -> usize {
        for _ in 0..self.random.below(2) * self.random.between(1, 4) {
            let found = swaps::any_allowed(&self.adjacency, degrees, self.random);
            if let Some(swap) = found {
                let answer = self.both.call(swaps::swap_call(swap));
                assert_eq!(answer, [0; 6], "{}", self.place());
                self.adjacency.clone_from(&self.both.adjacency);
                log::push(&mut self.log, swap);
            }
        }
        log::count(&self.log)
    }

    /// Joins some random pairs, in every second case after completing and removing some edges.
    /// Returns the switches.
    fn lay_half(&mut self) -> u64 {
        let mut switches = 0;
        if self.random.chance(50) {
            switches += self.complete();
            let percent = self.random.below(100);
            let mut some = self.laid();
            some.retain(|_| self.random.chance(percent));
            for (v, w) in self.in_any_order(some) {
                self.remove(v, w);
            }
        }
        let vertices = self.figures[1] as usize;
        for _ in 0..self.random.between(1, 2 * vertices.clamp(1, 20)) {
            let v = self.random.below(vertices.max(1)) as u64;
            let w = self.random.below(vertices.max(1)) as u64;
            let answer = self.both.call(Call::AddEdge { v, w });
            if answer[0] == 0 {
                switches += answer[1];
                self.steps.push(Step { adds: true, v, w });
            }
        }
        self.set(self.both.adjacency.clone());
        switches
    }

    /// The edges shuffled, each either way round.
    fn in_any_order(&mut self, mut edges: Vec<(usize, usize)>) -> Vec<(u64, u64)> {
        self.random.shuffle(&mut edges);
        let named = |(v, w)| self.random.either_way((v as u64, w as u64));
        edges.into_iter().map(named).collect()
    }

    /// Adds the edges in this order. Now and then one that is there is named again.
    fn add_all(&mut self, order: &[(u64, u64)]) {
        for (place, &(v, w)) in order.iter().enumerate() {
            self.add(v, w);
            if self.random.chance(4) {
                let again = *self.random.pick(&order[..=place]);
                self.refuse_again(again);
            }
        }
    }

    fn add(&mut self, v: u64, w: u64) {
        self.steps.push(Step { adds: true, v, w });
        let answer = self.call(Call::AddEdge { v, w });
        assert_eq!(answer, NO_SWITCH, "{}", self.place());
        adjacency::insert(&mut self.adjacency, v as usize, w as usize);
        self.log.fill(0);
        self.missing -= 1;
        self.check();
    }

    fn remove(&mut self, v: u64, w: u64) {
        self.steps.push(Step { adds: false, v, w });
        let answer = self.call(Call::RemoveEdge { v, w });
        assert_eq!(answer, [0; 6], "{}", self.place());
        adjacency::remove(&mut self.adjacency, v as usize, w as usize);
        self.log.fill(0);
        self.missing += 1;
        self.check();
    }

    /// An edge that is there is refused, either way round.
    fn refuse_again(&mut self, edge: (u64, u64)) {
        let (v, w) = self.random.either_way(edge);
        let answer = self.call(Call::AddEdge { v, w });
        assert_eq!(answer, refused(15), "{}: ({v}, {w}) again", self.place());
        self.check();
        self.count.twice += 1;
    }

    /// The matrix is the graph's, no edge is missing, and completing finds nothing to do.
    fn end(&mut self, graph: &Graph) {
        assert_eq!(self.missing, 0, "{}", self.place());
        let reached = self.both.adjacency == graph.adjacency();
        assert!(reached, "{}: another graph", self.place());
        let output = Vec::new();
        let answer = self.call(Call::Complete { output });
        assert_eq!(answer, [0; 6], "{}", self.place());
        self.check_figures();
        self.check();
    }

    /// Journal, matrix and log are as they must be, and so are the figures if they are asked for.
    fn check(&mut self) {
        if self.random.chance(self.effort.figures) {
            self.check_figures();
        }
        let same_journal = self.both.journal == self.journal;
        assert!(same_journal, "{}: the journal changed", self.place());
        let same_matrix = self.both.adjacency == self.adjacency;
        assert!(same_matrix, "{}: other edges", self.place());
        let same_log = self.both.log == self.log;
        assert!(same_log, "{}: another log", self.place());
    }

    fn check_figures(&mut self) {
        let [blocks, vertices, wanted] = self.figures;
        let answer = self.call(Call::Figures);
        let expected = [0, 1, blocks, vertices, wanted, wanted - self.missing];
        assert_eq!(answer, expected, "{}: figures", self.place());
    }

    /// On the library, and in some cases on the reference too.
    fn call(&mut self, call: Call) -> Numbers {
        if self.random.chance(self.effort.compared) {
            self.both.call(call)
        } else {
            self.both.call_library(call)
        }
    }

    /// Where a message comes from: the last step first, since an order may be long.
    fn place(&self) -> String {
        let (label, graph, steps) = (self.both.label(), &self.graph, &self.steps);
        let last = steps.last();
        let number = steps.len();
        format!("{label}, step {number}, {last:?}, graph {graph}, order {steps:?}")
    }
}
