//! graph6 between the library and other programs that have it, networkx and nauty, as far as they
//! are installed: what the library writes they read, and what they write the library reads, each
//! time as the same graph. Prints what was compared, also where it is nothing.

use reference::graphs::{self, pairs, Graph};
use reference::random::Random;
use replica::{graph6_read, graph6_write, MAX_GRAPH6_BYTES, MAX_PAIRS};
use std::io::Write;
use std::process::{Command, Stdio};
use std::thread;

/// Another program that reads and writes graph6.
trait Other {
    fn name(&self) -> &'static str;
    fn is_installed(&self) -> bool;
    /// The graphs of some texts.
    fn read(&self, texts: &[Vec<u8>]) -> Vec<Graph>;
    /// The texts of some graphs.
    fn write(&self, graphs: &[Graph]) -> Vec<Vec<u8>>;
}

/// The library of that name for Python.
struct Networkx;

/// The format's own programs. Debian puts a word before their names.
struct Nauty {
    before: &'static str,
}

/// Prints a line for each text: vertices, edges, and the two ends of each edge.
const READ: &str = "
import sys, networkx
for text in sys.stdin.buffer:
    graph = networkx.from_graph6_bytes(text.rstrip())
    print(len(graph), graph.size(), *(end for edge in graph.edges for end in edge))
";

/// Reads such lines.
const WRITE: &str = "
import sys, networkx
for line in sys.stdin:
    vertices, edges, *ends = map(int, line.split())
    graph = networkx.Graph()
    graph.add_nodes_from(range(vertices))
    graph.add_edges_from(zip(ends[::2], ends[1::2]))
    sys.stdout.buffer.write(networkx.to_graph6_bytes(graph, header=False))
";

impl Networkx {
    fn run(&self, script: &str) -> Command {
        let mut python = Command::new("python3");
        python.args(["-c", script]);
        python
    }
}

impl Other for Networkx {
    fn name(&self) -> &'static str {
        "networkx"
    }

    fn is_installed(&self) -> bool {
        ends_well(self.run("import networkx"))
    }

    fn read(&self, texts: &[Vec<u8>]) -> Vec<Graph> {
        parsed(&piped(self.run(READ), lines(texts)))
    }

    fn write(&self, graphs: &[Graph]) -> Vec<Vec<u8>> {
        let line = |graph: &Graph| {
            let ends = graph.edges().iter().map(|(v, w)| format!(" {v} {w}"));
            let (vertices, edges) = (graph.vertices(), graph.edges().len());
            format!("{vertices} {edges}{}\n", ends.collect::<String>())
        };
        let input: String = graphs.iter().map(line).collect();
        split(&piped(self.run(WRITE), input.into_bytes()))
    }
}

impl Nauty {
    fn run(&self, name: &str, arguments: &[&str]) -> Command {
        let mut command = Command::new(format!("{}{name}", self.before));
        command.args(arguments);
        command
    }
}

impl Other for Nauty {
    fn name(&self) -> &'static str {
        "nauty"
    }

    fn is_installed(&self) -> bool {
        let names = ["showg", "amtog"];
        names.iter().all(|name| ends_well(self.run(name, &["-q"])))
    }

    /// It prints vertices, edges, and the two ends of each edge.
    fn read(&self, texts: &[Vec<u8>]) -> Vec<Graph> {
        parsed(&piped(
            self.run("showg", &["-q", "-e", "-l0"]),
            lines(texts),
        ))
    }

    /// It is given adjacency matrices.
    fn write(&self, graphs: &[Graph]) -> Vec<Vec<u8>> {
        let matrix = |graph: &Graph| {
            let vertices = graph.vertices();
            let places = (0..vertices).flat_map(|v| (0..vertices).map(move |w| (v, w)));
            let bits = places.map(|(v, w)| if graph.joined(v, w) { '1' } else { '0' });
            format!("n={vertices} m {}\n", bits.collect::<String>())
        };
        let input: String = graphs.iter().map(matrix).collect();
        split(&piped(self.run("amtog", &["-q"]), input.into_bytes()))
    }
}

/// Whether a program is there and ends without an error, given nothing.
fn ends_well(mut command: Command) -> bool {
    let quiet = command.stdin(Stdio::null()).stdout(Stdio::null());
    quiet
        .stderr(Stdio::null())
        .status()
        .is_ok_and(|status| status.success())
}

/// What a program prints for an input.
fn piped(mut command: Command, input: Vec<u8>) -> Vec<u8> {
    let mut child = command
        .stdin(Stdio::piped())
        .stdout(Stdio::piped())
        .spawn()
        .expect("an installed program starts");
    let mut pipe = child.stdin.take().expect("a pipe");
    // It may print before it has read all.
    let feed = thread::spawn(move || pipe.write_all(&input));
    let output = child.wait_with_output().expect("a child");
    feed.join().expect("no panic").expect("all of it is read");
    assert!(output.status.success(), "{command:?}: {}", output.status);
    output.stdout
}

/// Texts, each in a line.
fn lines(texts: &[Vec<u8>]) -> Vec<u8> {
    texts
        .iter()
        .flat_map(|text| [text, &b"\n"[..]].concat())
        .collect()
}

/// The texts in some lines.
fn split(lines: &[u8]) -> Vec<Vec<u8>> {
    let lines = lines.split_inclusive(|&byte| byte == b'\n');
    let text = |line: &[u8]| line.strip_suffix(b"\n").expect("a line").to_vec();
    lines.map(text).collect()
}

/// Graphs printed as numbers: vertices, edges, and the two ends of each edge.
fn parsed(printed: &[u8]) -> Vec<Graph> {
    let printed = std::str::from_utf8(printed).expect("text");
    let number = |word: &str| word.parse::<usize>().expect("a number");
    let mut numbers = printed.split_whitespace().map(number);
    let mut graphs = Vec::new();
    while let Some(vertices) = numbers.next() {
        let mut graph = Graph::new(vertices);
        for _ in 0..numbers.next().expect("a number of edges") {
            let mut end = || numbers.next().expect("the end of an edge");
            graph.join(end(), end());
        }
        graphs.push(graph);
    }
    graphs
}

/// What the library writes.
fn written(graph: &Graph) -> Vec<u8> {
    let mut text = vec![0; MAX_GRAPH6_BYTES];
    let total = graph.vertices() as u64;
    let length = graph6_write(&graph.edge_list(), total, &mut text).expect("a graph");
    text.truncate(length);
    text
}

/// What the library reads.
fn read(text: &[u8]) -> Graph {
    let mut edges = vec![0; 2 * MAX_PAIRS];
    let (length, total) = graph6_read(text, &mut edges).expect("a text");
    let mut graph = Graph::new(total as usize);
    for edge in edges[..length].chunks(2) {
        graph.join(edge[0].into(), edge[1].into());
    }
    graph
}

/// All graphs of up to four vertices, and some of every size around the longer form and of any other,
/// without an edge, with a few, with some and with all.
fn some_graphs() -> Vec<Graph> {
    let small = |n| (0..1 << pairs(n)).map(move |bits| graphs::from_bits(n, bits));
    let mut graphs: Vec<Graph> = (0..=4).flat_map(small).collect();
    let mut random = Random::new(6);
    let any: Vec<usize> = (0..30).map(|_| random.between(5, 200)).collect();
    for n in [5, 12, 13, 61, 62, 63, 64, 65, 126, 127, 128, 199, 200]
        .into_iter()
        .chain(any)
    {
        for edges in [0, n, random.below(pairs(n)), pairs(n)] {
            graphs.push(graphs::uniform(n, edges, &mut random));
        }
    }
    graphs
}

/// Out and in: both sides have the same text for each graph, and the same graph for each text.
fn compare(other: &dyn Other, graphs: &[Graph]) {
    let ours: Vec<Vec<u8>> = graphs.iter().map(written).collect();
    let theirs = other.write(graphs);
    assert!(theirs == ours, "{} writes other texts", other.name());
    assert!(
        other.read(&ours) == graphs,
        "{} reads other graphs",
        other.name()
    );
    let come_in: Vec<Graph> = theirs.iter().map(|text| read(text)).collect();
    assert!(come_in == graphs, "other graphs come from {}", other.name());
}

fn main() {
    let others: [&dyn Other; 3] = [
        &Networkx,
        &Nauty { before: "nauty-" },
        &Nauty { before: "" },
    ];
    let graphs = some_graphs();
    let mut compared = 0;
    for other in others.into_iter().filter(|other| other.is_installed()) {
        compare(other, &graphs);
        println!(
            "{}: {} graphs went out and came in",
            other.name(),
            graphs.len()
        );
        compared += 1;
    }
    if compared == 0 {
        println!("NOT compared: neither networkx nor nauty is installed");
    }
    println!("passed");
}
