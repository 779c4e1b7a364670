//! Edge lists with high degrees, and spoiled ones.

use reference::graphs::{self, Graph};
use reference::random::Random;
use reference::MAX_VERTICES;

/// A graph with degrees around 40, on both sides of the bound.
pub fn high_degrees(random: &mut Random) -> Graph {
    match random.below(3) {
        0 => clique_with_one_more(random),
        1 => one_center(random),
        _ => two_centers(random),
    }
}

fn clique_with_one_more(random: &mut Random) -> Graph {
    let vertices = random.between(40, 44);
    let far = random.between(vertices, MAX_VERTICES - 1);
    let mut graph = graphs::cliques(vertices, vertices).widened(far + 1);
    graph.join(random.below(vertices), far);
    graph
}

/// One vertex joined to about 40 others.
fn one_center(random: &mut Random) -> Graph {
    let center = random.below(MAX_VERTICES);
    let mut graph = Graph::new(MAX_VERTICES);
    for w in (0..MAX_VERTICES).filter(|&w| w != center) {
        if random.chance(20) {
            graph.join(center, w);
        }
    }
    graph
}

/// Two vertices over 40, or nearly; in the list the higher one gets there first.
fn two_centers(random: &mut Random) -> Graph {
    let lower = random.between(60, 100);
    let higher = random.between(150, 199);
    let mut graph = Graph::new(MAX_VERTICES);
    for v in 0..random.between(39, 44) {
        graph.join(v, higher);
    }
    for step in 1..=random.between(39, 44) {
        graph.join(lower, lower + step);
    }
    graph
}

/// Changes one thing. The list may be well-formed still, but another one.
pub fn spoil(edges: &mut Vec<u8>, random: &mut Random) {
    if edges.is_empty() {
        edges.push(0);
        return;
    }
    let place = random.below(edges.len());
    match random.below(5) {
        0 => {
            edges.pop();
        }
        1 => edges[place] = random.byte(),
        2 => edges[place] = edges[place].wrapping_add(1),
        3 if edges.len() >= 4 => {
            let whole = edges.len() / 2;
            let (first, second) = (place / 2 % whole * 2, random.below(whole) * 2);
            edges.swap(first, second);
            edges.swap(first + 1, second + 1);
        }
        _ => {
            let last = edges.len() / 2 * 2;
            if last >= 2 {
                edges.extend_from_within(last - 2..last);
            }
        }
    }
}
