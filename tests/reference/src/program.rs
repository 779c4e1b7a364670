//! What the program prints for an input.

use crate::graphs::Graph;
use crate::{
    add_edge, adjacency, complete, complete_shuffled, graph6, join_record, lay_out, log,
    take_block, Refused, ADJACENCY_BYTES, JOURNAL_BYTES, MAX_BLOCK_BYTES, MAX_EDGES,
};

/// What the program's arguments ask for.
#[derive(Clone, Copy, Debug, Default, PartialEq, Eq)]
pub struct Options {
    /// --graph6: the graph as one line of graph6 and nothing else.
    pub graph6: bool,
    /// --shuffle X: completed by pairs that numbers from X on choose.
    pub shuffle: Option<u32>,
}

impl Options {
    /// The options of some arguments, each at most once and in any order. None where the usage line
    /// is the answer.
    pub fn of(arguments: &[&str]) -> Option<Options> {
        let mut options = Options::default();
        let mut words = arguments.iter();
        while let Some(&word) = words.next() {
            match word {
                "--graph6" if !options.graph6 => options.graph6 = true,
                "--shuffle" if options.shuffle.is_none() => {
                    options.shuffle = Some(decimal(words.next()?)?);
                }
                _ => return None,
            }
        }
        Some(options)
    }
}

/// One digit or more, none of them a sign, of a number below 2^32.
fn decimal(word: &str) -> Option<u32> {
    let digits = word.bytes().all(|byte| byte.is_ascii_digit());
    digits.then(|| word.parse().ok()).flatten()
}

/// The text on standard output, every line ended by one newline. A refusal is the same line with all
/// options.
pub fn output_with(options: Options, input: &[u8]) -> String {
    match lay_with(options.shuffle, input, &[]) {
        Ok(laid) if options.graph6 => graph6_line(&laid),
        Ok(laid) => list(&laid),
        Err(refused) => refusal_line(refused),
    }
}

/// The text without an option.
pub fn output(input: &[u8]) -> String {
    output_with(Options::default(), input)
}

/// The text with the option --graph6 alone.
pub fn graph6_output(input: &[u8]) -> String {
    let options = Options {
        graph6: true,
        shuffle: None,
    };
    output_with(options, input)
}

fn refusal_line(refused: Refused) -> String {
    format!(
        "refused {} {} {}\n",
        refused.number, refused.first, refused.second
    )
}

fn graph6_line(laid: &Laid) -> String {
    let mut graph = Graph::new(laid.vertices as usize);
    for (v, w) in adjacency::edges(&laid.adjacency) {
        graph.join(v, w);
    }
    let text = String::from_utf8(graph6::text(&graph)).expect("printable bytes");
    text + "\n"
}

fn list(laid: &Laid) -> String {
    let edges = adjacency::edges(&laid.adjacency);
    let mut text = format!(
        "boards {} links {} switches {}\n",
        laid.vertices,
        edges.len(),
        laid.switches
    );
    for (v, w) in edges {
        text.push_str(&format!("{v} {w}\n"));
    }
    text
}

/// A completed state with what was answered on the way.
#[derive(Clone, Debug)]
pub struct Laid {
    pub journal: Vec<u8>,
    pub adjacency: Vec<u8>,
    pub vertices: u64,
    /// Joins and switches of the completion alone, and its records.
    pub joins: u64,
    pub switches: u64,
    pub records: Vec<u8>,
}

/// Takes all records, lays out, adds the given edges by hand, and completes.
pub fn lay(records: &[u8], by_hand: &[(u64, u64)]) -> Result<Laid, Refused> {
    lay_with(None, records, by_hand)
}

/// The same, completed by pairs that numbers choose from the one given. Only records are cut into
/// blocks: none of them is empty, and without records there is none.
pub fn lay_with(
    shuffle: Option<u32>,
    records: &[u8],
    by_hand: &[(u64, u64)],
) -> Result<Laid, Refused> {
    let mut journal = vec![0; JOURNAL_BYTES];
    let mut adjacency = vec![0; ADJACENCY_BYTES];
    let mut log = log::empty();
    for (number, block) in records.chunks(MAX_BLOCK_BYTES).enumerate() {
        take_block(&mut journal, &adjacency, number as u64, block)?;
    }
    let vertices = lay_out(&mut journal, &adjacency)?;
    for &(v, w) in by_hand {
        add_edge(&journal, &mut adjacency, &mut log, v, w)?;
    }
    // Room for any completion.
    let mut records = vec![0; join_record::LENGTH * MAX_EDGES];
    let done = match shuffle {
        None => complete(&journal, &mut adjacency, &mut log, &mut records)?,
        Some(x) => complete_shuffled(&journal, &mut adjacency, &mut log, x, &mut records)?.0,
    };
    records.truncate(done.written as usize);
    Ok(Laid {
        journal,
        adjacency,
        vertices,
        joins: done.joins,
        switches: done.switches,
        records,
    })
}
