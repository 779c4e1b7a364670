//! The program `replica`: its output for many inputs, byte by byte, as a list and as graph6, completed by
//! the lowest pairs and shuffled, and its answer to arguments it has not.

use comparison::blocks::{self, Size};
use comparison::program::{ended, program};
use reference::graph6;
use reference::graphs::{pairs, Graph};
use reference::program::{graph6_output, output, output_with, Options};
use reference::random::Random;
use std::ffi::OsStr;
use std::io::Write;
use std::os::unix::ffi::OsStrExt;
use std::process::{ChildStdin, Output, Stdio};
use std::thread::sleep;
use std::time::Duration;

/// The input of document 01 and what it prints.
const DOCUMENT_01: [u8; 12] = [1, 3, 1, 0, 2, 2, 2, 0, 2, 3, 2, 0];
const DOCUMENT_01_OUTPUT: &str = "boards 4 links 4 switches 0\n0 3\n1 2\n1 3\n2 3\n";

/// A pause in which a program that does not wait for the rest of its input goes on without it.
const PAUSE: Duration = Duration::from_millis(200);

/// What the program prints on standard error for other arguments than its options, each once.
const USAGE: &str = "usage: replica [--graph6] [--shuffle X] < records\n";
const GRAPH6: &str = "--graph6";
const SHUFFLE: &str = "--shuffle";

/// Runs the program; `feed` writes its input, which ends then. What it prints fits into a pipe.
fn output_of<A: AsRef<OsStr>>(arguments: &[A], feed: impl FnOnce(&mut ChildStdin)) -> Output {
    let mut child = program()
        .args(arguments)
        .stdin(Stdio::piped())
        .stdout(Stdio::piped())
        .stderr(Stdio::piped())
        .spawn()
        .expect("the program starts");
    let mut input = child.stdin.take().expect("a pipe");
    feed(&mut input);
    drop(input);
    ended(child)
}

/// What it prints where nothing is wrong with the arguments.
fn run_fed(arguments: &[&str], feed: impl FnOnce(&mut ChildStdin)) -> String {
    let output = output_of(arguments, feed);
    assert!(output.status.success(), "{}", output.status);
    assert_eq!(String::from_utf8_lossy(&output.stderr), "");
    String::from_utf8(output.stdout).expect("text")
}

/// The program may stop reading at a refusal; that is no error here.
fn feed_all(input: &[u8]) -> impl FnOnce(&mut ChildStdin) + '_ {
    |pipe| drop(pipe.write_all(input))
}

fn run(input: &[u8]) -> String {
    run_with(&[], input)
}

fn run_graph6(input: &[u8]) -> String {
    run_with(&[GRAPH6], input)
}

fn run_with(arguments: &[&str], input: &[u8]) -> String {
    run_fed(arguments, feed_all(input))
}

/// The pieces arrive one by one, with a pause after each.
fn run_in_pieces<'a>(pieces: impl Iterator<Item = &'a [u8]>, pause: Duration) -> String {
    run_with_in_pieces(&[], pieces, pause)
}

fn run_with_in_pieces<'a>(
    arguments: &[&str],
    mut pieces: impl Iterator<Item = &'a [u8]>,
    pause: Duration,
) -> String {
    run_fed(arguments, |pipe| {
        let mut write = |piece| pipe.write_all(piece).and_then(|()| pipe.flush());
        while pieces.next().is_some_and(|piece| write(piece).is_ok()) {
            sleep(pause);
        }
    })
}

/// The empty input, which has no block, inputs around full blocks, malformed ends, and the cases of
/// document 01.
fn fixed_inputs() -> Vec<Vec<u8>> {
    let block = [1, 1, 0, 0].repeat(16);
    let mut inputs: Vec<Vec<u8>> = vec![
        vec![],
        DOCUMENT_01.to_vec(),
        vec![2, 2, 4, 0],
        vec![2, 2, 8, 0],
        vec![2, 2, 5, 0],
        vec![1, 3, 1, 0],
        vec![1, 1, 202, 0],
        vec![0, 0, 0, 0],
        vec![0, 0, 1, 0],
        vec![0, 0, 200, 0],
        vec![0, 0, 201, 0],
        vec![0, 0, 0, 1],
        vec![0, 3, 1, 0],
        vec![3, 0, 1, 0],
        vec![0, 0, 1, 0, 0, 41, 0, 0],
        vec![0, 0, 2, 0, 1, 1, 2, 0],
        vec![1, 1, 198, 0, 0, 0, 2, 0],
        vec![1, 1, 198, 0, 0, 0, 3, 0],
        vec![0, 0, 201, 0, 2, 2, 5, 0],
        vec![0, 0, 0],
        [&[0, 0, 3, 0], &DOCUMENT_01[..]].concat(),
        [&DOCUMENT_01[..], &[0, 0, 3, 0]].concat(),
        vec![0; 64],
        vec![0; 4_096],
        vec![0; 4_100],
        [0, 0, 255, 255].repeat(1_024),
        vec![40, 40, 64, 31],
        vec![1, 1, 2],
        vec![1, 1, 2, 0, 2, 1, 0, 0],
        [&block[..], &[9]].concat(),
        [&block[..], &[9, 1, 0, 0]].concat(),
    ];
    for blocks in [1, 2, 63, 64, 65, 66] {
        inputs.push(block.repeat(blocks));
    }
    inputs.push([block.repeat(64), vec![1, 1, 2, 0]].concat());
    inputs.push([block.repeat(64), vec![1, 1, 2]].concat());
    inputs.push([block.repeat(65), vec![1]].concat());
    inputs
}

/// What some inputs with isolated vertices print, written down here.
#[test]
fn isolated_vertices() {
    let cases: [(&[u8], &str); 7] = [
        (&[0, 0, 0, 0], "boards 0 links 0 switches 0\n"),
        (&[0, 0, 200, 0], "boards 200 links 0 switches 0\n"),
        (&[0, 0, 201, 0], "refused 12 0 0\n"),
        (&[0, 3, 1, 0], "refused 5 0 0\n"),
        (&[0, 0, 1, 0, 3, 0, 1, 0], "refused 5 1 0\n"),
        (&[0, 0, 201, 0, 2, 2, 4, 0], "refused 11 2 2\n"),
        (
            &[1, 1, 2, 0, 0, 0, 2, 0],
            "boards 4 links 1 switches 0\n2 3\n",
        ),
    ];
    for (input, expected) in cases {
        assert_eq!(run(input), expected, "{input:?}");
    }
}

/// Inputs of any tables, some of them spoiled.
fn any_inputs(count: usize, size: Size, seed: u64) -> Vec<Vec<u8>> {
    let mut random = Random::new(seed);
    let mut any = || {
        let input = blocks::plan(size, &mut random).concat();
        match random.chance(20) {
            true => blocks::spoil(&input, &mut random),
            false => input,
        }
    };
    (0..count).map(|_| any()).collect()
}

#[test]
fn the_program_prints_what_the_reference_prints() {
    for input in [fixed_inputs(), any_inputs(150, Size::Medium, 5)].concat() {
        assert_eq!(run(&input), output(&input), "input {input:?}");
    }
}

/// The line of graph6 for what is printed without the option; a refusal is the same line.
fn as_graph6(printed: &str) -> String {
    let mut lines = printed.lines();
    let first: Vec<&str> = lines.next().expect("a line").split(' ').collect();
    if first[0] == "refused" {
        return printed.to_string();
    }
    let number = |word: &str| word.parse::<usize>().expect("a number");
    let mut graph = Graph::new(number(first[1]));
    for line in lines {
        let (v, w) = line.split_once(' ').expect("two vertices");
        graph.join(number(v), number(w));
    }
    let text = String::from_utf8(graph6::text(&graph)).expect("text");
    text + "\n"
}

/// With the option, the graph that is listed without it is one line, and nothing else is printed.
#[test]
fn graph6_of_what_is_listed() {
    let inputs = [
        fixed_inputs(),
        any_inputs(60, Size::Medium, 7),
        any_inputs(15, Size::Large, 8),
    ];
    let (mut refused, mut long) = (0, 0);
    for input in inputs.concat() {
        let printed = run_graph6(&input);
        assert_eq!(printed, as_graph6(&run(&input)), "input {input:?}");
        assert_eq!(printed, graph6_output(&input), "input {input:?}");
        assert_eq!(printed.find('\n'), Some(printed.len() - 1));
        refused += usize::from(printed.starts_with("refused "));
        long += usize::from(printed.starts_with('~'));
    }
    assert!(refused > 10 && long > 10, "{refused} refused, {long} long");
}

/// What some inputs print as graph6, written down here.
#[test]
fn graph6_lines() {
    let cases: [(&[u8], &str); 8] = [
        (&DOCUMENT_01, "CN\n"),
        (&[], "?\n"),
        (&[0, 0, 1, 0], "@\n"),
        (&[0, 0, 2, 0, 1, 1, 2, 0], "C@\n"),
        (&[2, 2, 6, 0], "Bw\n"),
        (&[2, 2, 4, 0], "refused 11 2 2\n"),
        (&[0, 0, 201, 0], "refused 12 0 0\n"),
        (&[1, 1, 2], "refused 4 0 0\n"),
    ];
    for (input, expected) in cases {
        assert_eq!(run_graph6(input), expected, "{input:?}");
    }
    let pieces = DOCUMENT_01.chunks(5);
    assert_eq!(run_with_in_pieces(&[GRAPH6], pieces, PAUSE / 10), "CN\n");
    for (vertices, size) in [(62, "}"), (63, "~??~"), (200, "~?BG")] {
        let line = run_graph6(&[0, 0, vertices as u8, 0]);
        let body = "?".repeat(pairs(vertices).div_ceil(6));
        assert_eq!(line, format!("{size}{body}\n"));
    }
}

/// From any number, as a list and as graph6, the options in either order: what the reference prints.
#[test]
fn shuffled() {
    let inputs = [
        fixed_inputs(),
        any_inputs(40, Size::Medium, 9),
        any_inputs(6, Size::Large, 10),
    ];
    let mut random = Random::new(11);
    let mut others = 0;
    for input in inputs.concat() {
        let any = random.any() as u32;
        let x = *random.pick(&[0, 1, u32::MAX, any, any]);
        let expected = |graph6| {
            let shuffle = Some(x);
            output_with(Options { graph6, shuffle }, &input)
        };
        let x = x.to_string();
        let listed = run_with(&[SHUFFLE, &x], &input);
        assert_eq!(listed, expected(false), "from {x}, input {input:?}");
        let text = expected(true);
        for arguments in [[GRAPH6, SHUFFLE, &x], [SHUFFLE, &x, GRAPH6]] {
            let printed = run_with(&arguments, &input);
            assert_eq!(printed, text, "{arguments:?}, input {input:?}");
        }
        assert_eq!(as_graph6(&listed), text);
        others += usize::from(listed != output(&input));
    }
    assert!(
        others > 20,
        "{others} differ from what is printed unshuffled"
    );
}

/// What the square prints from some numbers, written down here, and from the same with zeros before.
#[test]
fn shuffled_squares() {
    let zero = "boards 4 links 4 switches 1\n0 1\n0 2\n1 3\n2 3\n";
    let one = "boards 4 links 4 switches 2\n0 2\n0 3\n1 2\n1 3\n";
    let most = "boards 4 links 4 switches 1\n0 1\n0 3\n1 2\n2 3\n";
    let many_zeros = "0".repeat(40) + "1";
    for (x, expected) in [
        ("0", zero),
        ("0000", zero),
        ("1", one),
        ("001", one),
        ("4294967295", most),
        ("004294967295", most),
        (&many_zeros, one),
    ] {
        assert_eq!(run_with(&[SHUFFLE, x], &[2, 2, 8, 0]), expected, "{x}");
    }
    let square = [&[SHUFFLE, "0", GRAPH6][..], &[GRAPH6, SHUFFLE, "0"]];
    for arguments in square {
        assert_eq!(run_with(arguments, &[2, 2, 8, 0]), "Cr\n");
    }
    for x in ["0", "4294967295", "007"] {
        let refusal = run_with(&[SHUFFLE, x], &[2, 2, 4, 0]);
        assert_eq!(refusal, "refused 11 2 2\n");
        let pieces = DOCUMENT_01.chunks(5);
        let printed = run_with_in_pieces(&[SHUFFLE, x], pieces, PAUSE / 10);
        assert_eq!(printed, DOCUMENT_01_OUTPUT);
    }
}

/// No numbers of 32 bits in digits alone.
const WRONG_NUMBERS: [&str; 26] = [
    "",
    "-1",
    "-0",
    "+1",
    "4294967296",
    "4294967297",
    "42949672950",
    "9999999999",
    "18446744073709551616",
    "18446744073709551617",
    "99999999999999999999",
    "1x",
    "x1",
    " 1",
    "1 ",
    "1\n",
    "0x10",
    "1e3",
    "1.0",
    "1_0",
    "1,0",
    "/",
    ":",
    "\u{661}",
    GRAPH6,
    SHUFFLE,
];

/// The usage line, with --graph6 before a wrong number or behind it too.
#[test]
fn wrong_numbers() {
    let (long, zeros) = ("9".repeat(100_000), "0".repeat(40) + "4294967296");
    for x in WRONG_NUMBERS.into_iter().chain([&long[..], &zeros]) {
        let lists: [&[&str]; 3] = [&[SHUFFLE, x], &[GRAPH6, SHUFFLE, x], &[SHUFFLE, x, GRAPH6]];
        for arguments in lists {
            assert_usage(&output_of(arguments, feed_all(&DOCUMENT_01)));
        }
    }
    let no_text = OsStr::from_bytes(b"7\xff");
    let arguments = [OsStr::new(SHUFFLE), no_text];
    assert_usage(&output_of(&arguments, feed_all(&DOCUMENT_01)));
}

/// Every list of up to four of these words: the options that it has, or the usage line.
#[test]
fn every_short_list_of_arguments() {
    let words = [GRAPH6, SHUFFLE, "7", "x"];
    let input = [2, 2, 12, 0];
    let mut lists: Vec<Vec<&str>> = vec![vec![]];
    let mut good = 0;
    for _ in 0..=4 {
        for arguments in &lists {
            match Options::of(arguments) {
                Some(options) => {
                    let printed = run_with(arguments, &input);
                    assert_eq!(printed, output_with(options, &input), "{arguments:?}");
                    good += 1;
                }
                None => assert_usage(&output_of(arguments, feed_all(&input))),
            }
        }
        let longer = |list: &Vec<_>| words.map(|word| [&list[..], &[word]].concat());
        lists = lists.iter().flat_map(longer).collect();
    }
    assert_eq!(good, 5);
}

/// The other option without its number, with two, twice, or written otherwise.
const WRONG_SHUFFLES: [&[&str]; 12] = [
    &[SHUFFLE],
    &["7"],
    &["7", SHUFFLE],
    &["--shuffle7"],
    &["--shuffle=7"],
    &["--shuffle 7"],
    &["--Shuffle", "7"],
    &["-shuffle", "7"],
    &["--shuffl", "7"],
    &["--shuffles", "7"],
    &[SHUFFLE, "7", "7"],
    &[SHUFFLE, "7", SHUFFLE, "7"],
];

/// Any other argument, and an option twice: nothing on standard output, whatever the input.
#[test]
fn wrong_arguments() {
    let long = "-".repeat(100_000);
    let many = [GRAPH6; 200];
    let wrong: [&[&str]; 20] = [
        &[""],
        &["-"],
        &["--"],
        &["--graph"],
        &["--graph5"],
        &["--graph66"],
        &["--graph6 "],
        &[" --graph6"],
        &["--graph6=1"],
        &["--Graph6"],
        &["-graph6"],
        &["graph6"],
        &["-h"],
        &["--help"],
        &[&long],
        &[GRAPH6, GRAPH6],
        &[GRAPH6, ""],
        &["", GRAPH6],
        &[GRAPH6, "--help"],
        &many,
    ];
    for arguments in wrong.into_iter().chain(WRONG_SHUFFLES) {
        for input in [&[][..], &DOCUMENT_01, &[9]] {
            assert_usage(&output_of(arguments, feed_all(input)));
        }
    }
    let no_text = OsStr::from_bytes(b"--graph6\xff");
    assert_usage(&output_of(&[no_text], feed_all(&DOCUMENT_01)));
}

fn assert_usage(output: &Output) {
    assert_eq!(String::from_utf8_lossy(&output.stdout), "");
    assert_eq!(String::from_utf8_lossy(&output.stderr), USAGE);
    assert!(output.status.code().is_some(), "{}", output.status);
}

/// A read gives what has arrived, which need not be all.
#[test]
fn an_input_in_two_pieces() {
    for cut in 1..DOCUMENT_01.len() {
        let (first, second) = DOCUMENT_01.split_at(cut);
        let printed = run_in_pieces([first, second].into_iter(), PAUSE);
        assert_eq!(printed, DOCUMENT_01_OUTPUT, "cut at {cut}");
    }
}

#[test]
fn an_input_byte_by_byte() {
    let printed = run_in_pieces(DOCUMENT_01.chunks(1), PAUSE / 10);
    assert_eq!(printed, DOCUMENT_01_OUTPUT);
}

/// Pieces of any length, across the ends of blocks and beyond what a journal holds.
#[test]
fn long_inputs_in_pieces() {
    let mut random = Random::new(6);
    for _ in 0..20 {
        let input = blocks::plan(Size::Medium, &mut random).concat();
        let each = random.between(1, input.len().max(1)).max(input.len() / 50);
        let printed = run_in_pieces(input.chunks(each), PAUSE / 100);
        assert_eq!(printed, output(&input), "pieces of {each}, input {input:?}");
    }
}

/// All of the 65th block counts, and nothing behind it. An input of 64 full blocks has no 65th, not
/// even an empty one: it is not refused.
#[test]
fn the_65th_block() {
    let full = [1, 1, 0, 0].repeat(16 * 64);
    let good = [1, 1, 2, 0].repeat(16);
    let mut bad = good.clone();
    bad[4] = 41;
    let mut bad_at_the_end = good.clone();
    bad_at_the_end[60] = 2;
    let cases: [(&[u8], &str); 7] = [
        (&[], "boards 0 links 0 switches 0\n"),
        (&[1, 1, 2, 0], "refused 8 0 0\n"),
        (&[1], "refused 4 0 0\n"),
        (&[1, 1, 2, 0, 9], "refused 4 0 0\n"),
        (&bad, "refused 5 1 0\n"),
        (&bad_at_the_end, "refused 5 15 0\n"),
        (&good, "refused 8 0 0\n"),
    ];
    for (rest, expected) in cases {
        let input = [&full, rest].concat();
        assert_eq!(output(&input), expected);
        assert_eq!(run(&input), expected, "{rest:?}");
        let (first, second) = input.split_at(full.len().min(input.len() - 1));
        let printed = run_in_pieces([first, second].into_iter(), PAUSE / 4);
        assert_eq!(printed, expected, "in two pieces, {rest:?}");
    }
    for (block, expected) in [(good, "refused 8 0 0\n"), (bad, "refused 5 1 0\n")] {
        for byte in [0, 1, 255] {
            let behind = vec![byte; 5_000_000];
            let input = [&full[..], &block, &behind].concat();
            assert_eq!(run(&input), expected, "with megabytes of {byte} behind");
        }
    }
}
