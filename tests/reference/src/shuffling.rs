//! Completing by chance that can be repeated (document 02, P7): each join takes one of all open pairs,
//! chosen by a number that steps once a join.

use crate::switching::{join_chosen, lowest_short_cell, Join};
use crate::{adjacency, Matrix, Table};

/// The number after this one.
pub fn step(x: u32) -> u32 {
    // In 64 bits nothing is lost before the low 32 are taken.
    let next = u64::from(x) * 1_664_525 + 1_013_904_223;
    (next % (1 << 32)) as u32
}

/// The number after so many steps.
pub fn stepped(x: u32, times: usize) -> u32 {
    (0..times).fold(x, |x, _| step(x))
}

/// The pairs (v, w), v below w, that are not joined and whose cell counts fewer edges than wanted,
/// ascending by v and then w.
pub fn open_pairs<'a>(
    adjacency: &'a [u8],
    degrees: &'a [usize],
    counted: &'a Matrix,
    wanted: &'a Matrix,
) -> impl Iterator<Item = (usize, usize)> + 'a {
    let short = |k, l| counted.cell(k, l) < wanted.cell(k, l);
    let open = move |v, w| !adjacency::joined(adjacency, v, w) && short(degrees[v], degrees[w]);
    let above = move |v| (v + 1..degrees.len()).filter(move |&w| open(v, w));
    (0..degrees.len()).flat_map(move |v| above(v).map(move |w| (v, w)))
}

/// Joins open pairs until no cell is short: the number steps, and its upper half chooses. Returns the
/// joins in the order made, and the last number.
pub fn complete(adjacency: &mut [u8], wanted: &Table, x: u32) -> (Vec<Join>, u32) {
    let degrees = wanted.degrees();
    let mut x = x;
    let joins = join_chosen(adjacency, &degrees, |adjacency, counted| {
        lowest_short_cell(counted, &wanted.matrix)?;
        x = step(x);
        let pairs = || open_pairs(adjacency, &degrees, counted, &wanted.matrix);
        pairs().nth((x / 65_536) as usize % pairs().count())
    });
    (joins, x)
}

#[cfg(test)]
mod tests {
    use super::*;
    use crate::player::play;
    use crate::random::Random;
    use crate::{graphs, join_record, switching, Switch, ADJACENCY_BYTES};

    #[test]
    fn steps() {
        assert_eq!(step(0), 1_013_904_223);
        assert_eq!(step(1), 1_015_568_748);
        assert_eq!(step(u32::MAX), 1_012_239_698);
        assert_eq!(step(1_013_904_223), 1_196_435_762);
        let wrapping = |x: u32| x.wrapping_mul(1_664_525).wrapping_add(1_013_904_223);
        let mut random = Random::new(1);
        for x in (0..1_000).map(|_| random.any() as u32) {
            assert_eq!(step(x), wrapping(x));
        }
    }

    /// Four vertices of degree 2 from 0. The upper halves of the numbers are 15470, 18256, 53708 and
    /// 43769; 6, 5, 4 and 3 pairs are open.
    #[test]
    fn a_square_from_empty() {
        let mut adjacency = vec![0; ADJACENCY_BYTES];
        let (joins, last) = complete(&mut adjacency, &Table::of(&[(2, 2, 8)], 0), 0);
        let join = |v, w, switches: &[Switch]| Join {
            v,
            w,
            switches: switches.to_vec(),
        };
        let switch = Switch { a: 0, b: 2, t: 3 };
        let expected = [
            join(0, 3, &[]),
            join(0, 2, &[]),
            join(0, 1, &[switch]),
            join(1, 3, &[]),
        ];
        assert_eq!(joins, expected);
        assert_eq!(last, 2_868_466_484);
        let edges = adjacency::edges(&adjacency);
        assert_eq!(edges, [(0, 1), (0, 2), (1, 3), (2, 3)]);
    }

    /// One pair is open at a time, and isolated vertices are in none: the number steps all the same.
    #[test]
    fn no_choice() {
        for x in [0, 1, u32::MAX] {
            let mut adjacency = vec![0; ADJACENCY_BYTES];
            let (joins, last) = complete(&mut adjacency, &Table::of(&[(1, 1, 2)], 3), x);
            let pairs: Vec<_> = joins.iter().map(|join| (join.v, join.w)).collect();
            assert_eq!((pairs, last), (vec![(3, 4)], step(x)));
            let again = complete(&mut adjacency, &Table::of(&[(1, 1, 2)], 3), x);
            assert_eq!(again, (Vec::new(), x));
        }
    }

    /// Pairs of all short cells together, in one order; a cell that has all its edges has none.
    #[test]
    fn pairs_of_several_cells() {
        let wanted = Table::of(&[(1, 3, 1), (2, 2, 2), (2, 3, 2)], 0);
        let degrees = wanted.degrees();
        let mut adjacency = vec![0; ADJACENCY_BYTES];
        let pairs = |adjacency: &[u8]| {
            let counted = adjacency::counted_at(adjacency, &degrees);
            open_pairs(adjacency, &degrees, &counted, &wanted.matrix).collect::<Vec<_>>()
        };
        assert_eq!(pairs(&adjacency), [(0, 3), (1, 2), (1, 3), (2, 3)]);
        for (v, w) in [(1, 2), (0, 3), (2, 3)] {
            switching::join(&mut adjacency, &degrees, v, w);
        }
        assert_eq!(pairs(&adjacency), [(1, 3)]);
    }

    /// From parts of random graphs: as many joins as edges are missing, each of an open pair; played,
    /// they give the graph.
    #[test]
    fn random_states() {
        let mut random = Random::new(12);
        for round in 0..200 {
            let most = if round < 195 { 25 } else { 200 };
            let graph = graphs::any(most, &mut random).by_rising_degree();
            let percent = random.between(0, 100);
            let mut adjacency = vec![0; ADJACENCY_BYTES];
            for &(v, w) in graph.edges() {
                if random.chance(percent) {
                    adjacency::insert(&mut adjacency, v, w);
                }
            }
            let missing = graph.edges().len() - adjacency::edges(&adjacency).len();
            let (mut played, x) = (adjacency.clone(), random.any() as u32);
            let (joins, last) = complete(&mut adjacency, &graph.table(), x);
            assert_eq!((joins.len(), last), (missing, stepped(x, missing)));
            let degrees = graph.degrees();
            let counted = adjacency::counted_at(&adjacency, &degrees);
            assert_eq!(counted, graph.matrix());
            for join in &joins {
                play(&join_record::of(join), &mut played).unwrap();
            }
            assert!(played == adjacency);
        }
    }
}
