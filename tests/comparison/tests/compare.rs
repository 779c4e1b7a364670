//! Runs everything on all cores, prints what was tried, and fails if something was never reached.
//! The settings are those of [`comparison::jobs`].

use comparison::blocks::Size;
use comparison::both::Both;
use comparison::count::Count;
use comparison::jobs::{self, effort, seeds};
use comparison::tables::{self, Start};
use comparison::{exchange, joins, lists, swaps};
use reference::graphs;
use reference::random::Random;
use reference::search::tables_of_all_graphs;
use reference::Table;

/// One independent piece of work, reproducible from its name.
enum Job {
    List(u64, Size),
    Joins(u64),
    Tables(usize, Vec<(Table, Start)>),
    RandomTable(u64, usize),
    Texts(u64, usize),
    Swaps(u64, usize),
}

impl jobs::Job for Job {
    type Count = Count;

    fn name(&self) -> String {
        match self {
            Job::List(seed, _) => format!("call list {seed}"),
            Job::Joins(seed) => format!("joins {seed}"),
            Job::Tables(number, _) => format!("tables {number}"),
            Job::RandomTable(seed, _) => format!("random table {seed}"),
            Job::Texts(seed, _) => format!("texts {seed}"),
            Job::Swaps(seed, _) => format!("swaps {seed}"),
        }
    }

    fn run(&self) -> Count {
        let mut both = Both::new(&self.name());
        match self {
            Job::List(seed, size) => lists::run(*seed, *size, &mut both),
            Job::Joins(seed) => joins::run(*seed, &mut both),
            Job::Tables(number, tables) => {
                let mut random = Random::new(*number as u64);
                for (table, start) in tables {
                    tables::run(table, *start, &mut random, &mut both);
                }
            }
            Job::RandomTable(seed, most) => {
                let mut random = Random::new(*seed);
                let graph = graphs::any(*most, &mut random);
                for start in [Start::Empty, Start::ByHand] {
                    let laid = tables::run(&graph.table(), start, &mut random, &mut both);
                    assert!(laid, "the table of a graph was refused");
                }
                tables::run_from_part_of(&graph, &mut random, &mut both);
            }
            Job::Texts(seed, most) => exchange::run(*seed, *most, &mut both),
            Job::Swaps(seed, most) => swaps::run(*seed, *most, &mut both),
        }
        both.count
    }

    fn add(sum: &mut Count, count: &Count) {
        sum.add(count);
    }
}

/// All jobs, the long ones first.
fn all_jobs() -> Vec<Job> {
    let mut jobs = table_jobs();
    jobs.extend(seeds(30).map(|seed| Job::RandomTable(seed, 200)));
    jobs.extend(seeds(30).map(|seed| Job::List(seed, Size::Large)));
    jobs.extend(seeds(40).map(|seed| Job::Texts(seed, 200)));
    jobs.extend(seeds(30).map(|seed| Job::Swaps(seed, 200)));
    let after = 1_000;
    jobs.extend(seeds(200).map(|seed| Job::RandomTable(seed + after, 60)));
    jobs.extend(seeds(500).map(|seed| Job::List(seed + after, Size::Medium)));
    jobs.extend(seeds(200).map(|seed| Job::Texts(seed + after, 70)));
    jobs.extend(seeds(60).map(|seed| Job::Swaps(seed + after, 60)));
    let after = 10_000;
    jobs.extend(seeds(500).map(|seed| Job::RandomTable(seed + after, 9)));
    jobs.extend(seeds(1_500).map(|seed| Job::List(seed + after, Size::Small)));
    jobs.extend(seeds(300).map(Job::Joins));
    jobs.extend(seeds(300).map(|seed| Job::Texts(seed + after, 9)));
    jobs.extend(seeds(200).map(|seed| Job::Swaps(seed + after, 12)));
    jobs
}

/// Tables at the bounds, of all graphs on 6 vertices, isolated ones among them or left out, and of
/// small families.
fn table_jobs() -> Vec<Job> {
    let mut tables = Vec::new();
    for table in tables::at_the_bounds() {
        tables.push(vec![(table.clone(), Start::Empty)]);
        tables.push(vec![(table, Start::ByHand)]);
    }
    let mut small = tables::exhaustive();
    for table in tables_of_all_graphs(6) {
        if table.isolated > 0 {
            small.push(Table::new(table.matrix.clone(), 0));
        }
        small.push(table);
    }
    let step = (100 / effort().clamp(1, 100)) as usize;
    let both_starts =
        |table: &Table| [Start::Empty, Start::ByHand].map(|start| (table.clone(), start));
    for some in small.chunks(100).step_by(step) {
        tables.push(some.iter().flat_map(both_starts).collect());
    }
    (0..)
        .zip(tables)
        .map(|(number, tables)| Job::Tables(number, tables))
        .collect()
}

fn main() {
    let count = jobs::run(all_jobs());
    count.print();
    jobs::end(&count.missing());
}
