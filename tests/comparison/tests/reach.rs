//! Every graph that has the table and the degrees laid out can be reached (document 02, P6): its edges
//! are added in any order, named either way round, without a refusal or a switch; from any other laid
//! state once the other edges are removed. Runs on all cores, prints what was tried, and fails if
//! something was never tried. The settings are those of [`comparison::jobs`].

use comparison::jobs::{self, effort, first_seed, seeds};
use comparison::reach::{Effort, Laid, Reached, Removal, Start};
use comparison::steps;
use reference::graphs::{self, Graph};
use reference::random::Random;
use reference::search::realizations_by_table;

/// Graphs of up to so many edges are reached in every order and named every way round.
const FEW_EDGES: usize = 4;
/// Random orders of each small graph and start.
const ROUNDS: u64 = 2;
const SMALL: Effort = Effort {
    compared: 5,
    figures: 100,
};
const LARGE: Effort = Effort {
    compared: 3,
    figures: 20,
};

/// One independent piece of work, reproducible from its name. The graphs of one piece are all those
/// of a table, at the degrees laid out.
enum Job {
    Steps(u64, Vec<Graph>),
    Small(u64, Vec<Graph>),
    Large(u64, fn(&mut Random) -> Graph),
}

impl jobs::Job for Job {
    type Count = Reached;

    fn name(&self) -> String {
        match self {
            Job::Steps(number, _) => format!("steps {number}"),
            Job::Small(number, _) => format!("small graphs {number}"),
            Job::Large(seed, _) => format!("large graph {seed}"),
        }
    }

    fn run(&self) -> Reached {
        let name = self.name();
        match self {
            Job::Steps(number, graphs) => {
                let mut random = Random::new(*number);
                steps::run(&name, graphs, share(graphs[0].vertices()), &mut random)
            }
            Job::Small(number, graphs) => small(&name, graphs, &mut Random::new(*number)),
            Job::Large(seed, kind) => {
                let mut random = Random::new(*seed);
                let graph = kind(&mut random).by_rising_degree();
                large(&name, &graph, &mut random)
            }
        }
    }

    fn add(sum: &mut Reached, count: &Reached) {
        sum.add(count);
    }
}

/// How many of 1,000 steps are tried: all on up to 5 vertices, every twentieth on 6.
fn share(vertices: usize) -> usize {
    match vertices {
        0..=5 => 1_000,
        _ => effort().div_ceil(2) as usize,
    }
}

/// All graphs of a table on a few vertices, from every kind of start.
fn small(name: &str, graphs: &[Graph], random: &mut Random) -> Reached {
    let mut picks = random.clone();
    let mut laid = Laid::new(name, &graphs[0], SMALL, random);
    for (number, graph) in graphs.iter().enumerate() {
        laid.count.graph(graph);
        if graph.edges().len() <= FEW_EDGES {
            every_order(graph, &mut laid);
        }
        for _ in 0..(ROUNDS * effort()).div_ceil(100) {
            let mut starts = vec![Start::Completed, Start::HalfLaid];
            if graphs.len() > 1 {
                let other = number + 1 + picks.below(graphs.len() - 1);
                starts.push(Start::Another(&graphs[other % graphs.len()]));
            }
            laid.bring(Start::Empty, Removal::All, graph);
            from_each(&starts, graph, &mut laid);
        }
        at_other_degrees(graph, &mut picks, &mut laid);
    }
    laid.counted()
}

/// Removes all edges first, and then only those that differ.
fn from_each(starts: &[Start], graph: &Graph, laid: &mut Laid) {
    for &start in starts {
        for removal in [Removal::All, Removal::Differing] {
            laid.bring(start, removal, graph);
        }
    }
}

/// Every order of the graph's edges, each named either way round in every combination.
fn every_order(graph: &Graph, laid: &mut Laid) {
    let edges: Vec<_> = graph.edges().iter().copied().collect();
    for order in orders(&edges) {
        for turned in 0..1 << order.len() {
            let named = |(place, &(v, w)): (usize, &(usize, usize))| {
                let (v, w) = (v as u64, w as u64);
                if turned >> place & 1 == 1 {
                    (w, v)
                } else {
                    (v, w)
                }
            };
            let order: Vec<_> = order.iter().enumerate().map(named).collect();
            laid.bring_in_order(&order, graph);
        }
    }
}

/// All orders of some edges.
fn orders(edges: &[(usize, usize)]) -> Vec<Vec<(usize, usize)>> {
    if edges.is_empty() {
        return vec![Vec::new()];
    }
    let mut all = Vec::new();
    for first in 0..edges.len() {
        let mut rest = edges.to_vec();
        let edge = rest.remove(first);
        for order in orders(&rest) {
            all.push([vec![edge], order].concat());
        }
    }
    all
}

/// Two vertices of different degrees exchanged: the table is the same, and the graph is not reached.
fn at_other_degrees(graph: &Graph, random: &mut Random, laid: &mut Laid) {
    let degrees = graph.degrees();
    let differ = |&(v, w): &(usize, usize)| degrees[v] != degrees[w];
    let mut pairs: Vec<_> = graphs::all_pairs(degrees.len())
        .into_iter()
        .filter(differ)
        .collect();
    random.shuffle(&mut pairs);
    for &(v, w) in pairs.iter().take(3) {
        let other = graph.exchanged(v, w);
        assert_eq!(other.table(), graph.table());
        laid.never_reach(&other);
    }
}

/// A graph of any size, from every kind of start once.
fn large(name: &str, graph: &Graph, random: &mut Random) -> Reached {
    let mut picks = random.clone();
    let other = graph.rewired(3 * graph.edges().len(), &mut picks);
    let mut laid = Laid::new(name, graph, LARGE, random);
    laid.count.graph(graph);
    laid.bring(Start::Empty, Removal::All, graph);
    let mut starts = vec![Start::Completed, Start::HalfLaid];
    if other != *graph {
        starts.push(Start::Another(&other));
    }
    for start in starts {
        let removal = *picks.pick(&[Removal::All, Removal::Differing]);
        laid.bring(start, removal, graph);
    }
    at_other_degrees(graph, &mut picks, &mut laid);
    laid.counted()
}

/// As many vertices and edges as there can be, at random.
fn regular(random: &mut Random) -> Graph {
    let graph = graphs::regular(200, 40);
    graph.rewired(40_000, random)
}

/// About 2,100 edges of many cells on 200 vertices.
fn spread(random: &mut Random) -> Graph {
    graphs::spread(200, 40, random)
}

fn up_to_200(random: &mut Random) -> Graph {
    graphs::any(200, random)
}

fn up_to_40(random: &mut Random) -> Graph {
    graphs::any(40, random)
}

/// All jobs, the long ones first.
fn all_jobs() -> Vec<Job> {
    let mut jobs = Vec::new();
    jobs.extend(seeds(2).map(|seed| Job::Large(seed, regular)));
    jobs.extend(seeds(3).map(|seed| Job::Large(seed + 100, spread)));
    jobs.extend(seeds(24).map(|seed| Job::Large(seed + 1_000, up_to_200)));
    jobs.extend(seeds(40).map(|seed| Job::Large(seed + 10_000, up_to_40)));
    let tables: Vec<_> = (0..=6).rev().flat_map(realizations_by_table).collect();
    let numbered = || (first_seed()..).zip(tables.iter().map(|(_, graphs)| graphs.clone()));
    jobs.extend(numbered().map(|(number, graphs)| Job::Steps(number, graphs)));
    jobs.extend(numbered().map(|(number, graphs)| Job::Small(number, graphs)));
    jobs
}

fn main() {
    let count = jobs::run(all_jobs());
    count.print();
    jobs::end(&count.missing());
}
