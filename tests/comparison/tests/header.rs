//! The C header as text, against the Rust crate that every other test calls the library through:
//! constants, refusals, structs and prototypes, and the numbers that its comments name.
//!
//! A C compiler does not look at the names of parameters, so only here an exchange of two that have
//! the same type is found. bindings/c/test.c calls the library through the header.

use comparison::call::Entry;
use replica::{
    Cause, ADJACENCY_BYTES, JOIN_RECORD_BYTES, JOURNAL_BYTES, LOG_BYTES, MAX_BLOCKS,
    MAX_BLOCK_BYTES, MAX_CELLS, MAX_DEGREE, MAX_EDGES, MAX_GRAPH6_BYTES, MAX_PAIRS, MAX_RECORDS,
    MAX_SWAPS, MAX_VERTICES, RECORD_BYTES, SWAP_RECORD_BYTES, UNUSED,
};
use std::collections::{BTreeMap, BTreeSet};

const HEADER: &str = include_str!("../../../include/replica.h");
const CRATE: &str = include_str!("../../../bindings/rust/src/lib.rs");
const RAW: &str = include_str!("../../../bindings/rust/src/raw.rs");

/// A text of the header, a number made of the crate's constants, and how it is made.
type Said = (&'static str, usize, &'static str);

macro_rules! said {
    ($($text:literal: $value:expr,)*) => { &[$(($text, $value as usize, stringify!($value))),*] };
}

/// Every constant of the header but the refusals.
const CONSTANTS: &[Said] = said! {
    "JOURNAL_BYTES": JOURNAL_BYTES,
    "ADJACENCY_BYTES": ADJACENCY_BYTES,
    "LOG_BYTES": LOG_BYTES,
    "MAX_SWAPS": MAX_SWAPS,
    "SWAP_RECORD_BYTES": SWAP_RECORD_BYTES,
    "MAX_BLOCK_BYTES": MAX_BLOCK_BYTES,
    "MAX_BLOCKS": MAX_BLOCKS,
    "MAX_VERTICES": MAX_VERTICES,
    "MAX_EDGE_LIST_BYTES": 2 * MAX_EDGES,
    "MAX_RECORDS_BYTES": RECORD_BYTES * MAX_RECORDS,
    "MAX_GRAPH6_BYTES": MAX_GRAPH6_BYTES,
    "MAX_GRAPH6_EDGE_LIST_BYTES": 2 * MAX_PAIRS,
    "JOIN_RECORD_BYTES": JOIN_RECORD_BYTES,
    "MAX_JOIN_RECORDS_BYTES": JOIN_RECORD_BYTES * MAX_EDGES,
    "UNUSED": UNUSED,
};

/// Numbers in the comments of the header, at the place of the sign #.
const COMMENTS: &[Said] = said! {
    "up to # vertices in all": MAX_VERTICES,
    "degrees up to #, up to": MAX_DEGREE,
    "up to # edges. You may": MAX_EDGES,
    "A record is # bytes": RECORD_BYTES,
    "1 <= k <= l <= # it adds": MAX_DEGREE,
    "A block is up to # records": MAX_BLOCK_BYTES / RECORD_BYTES,
    "so at most # bytes": MAX_BLOCK_BYTES,
    "A join record is # bytes": JOIN_RECORD_BYTES,
    "a swap record of # bytes for each": SWAP_RECORD_BYTES,
    "from byte # a swap record": LOG_BYTES - SWAP_RECORD_BYTES * MAX_SWAPS,
    "The log holds # swaps; there is no room": MAX_SWAPS,
    "from 63 to # byte 126": MAX_VERTICES,
    "byte v * # + w is 1": MAX_VERTICES,
    "# rows of 200": MAX_VERTICES,
    "rows of #. */": ADJACENCY_BYTES / MAX_VERTICES,
    "# cells, and the isolated vertices": MAX_CELLS,
    "# for the pairs of 200 vertices": MAX_GRAPH6_BYTES - 4,
    "all # pairs of 200 vertices": MAX_PAIRS,
    "replica_complete_shuffled: # join records": MAX_EDGES,
    "The block has more than # bytes": MAX_BLOCK_BYTES,
    "a degree outside 1 to #, or k > l": MAX_DEGREE,
    "# blocks are held; there is no room": MAX_BLOCKS,
    "There are more than # vertices, the isolated ones included": MAX_VERTICES,
    "The total is over # (no place)": MAX_VERTICES,
    "has a degree over #. first": MAX_DEGREE,
    "a graph with more than # vertices": MAX_VERTICES,
    "that make a number above #.": MAX_VERTICES,
    "with the isolated vertices it has more than #)": MAX_VERTICES,
    "total being # at most, and the number": MAX_VERTICES,
    "total being # at most; degrees over 40": MAX_VERTICES,
    "at most; degrees over # are written too": MAX_DEGREE,
};

/// Types and names, of the fields of a struct or the parameters of a function.
type Names = Vec<(String, String)>;
/// Parameters and what is returned, by the name of the function.
type Functions = BTreeMap<String, (Names, String)>;

/// Every run of white space as one space.
fn one_line(text: &str) -> String {
    text.split_whitespace().collect::<Vec<_>>().join(" ")
}

/// What stands between the first place of a text and the next of another.
fn between<'a>(text: &'a str, before: &str, behind: &str) -> &'a str {
    let (_, rest) = text.split_once(before).expect(before);
    rest.split_once(behind).expect(behind).0
}

/// What stands outside all pairs of these two, which begin and end a comment, say.
fn outside(text: &str, open: &str, close: &str) -> String {
    let behind = |part| str::split_once(part, close).map_or(part, |(_, behind)| behind);
    text.split(open).map(behind).collect()
}

/// The header without its comments and lines of the preprocessor.
fn declarations() -> String {
    let text = outside(HEADER, "/*", "*/");
    let lines = text.lines().filter(|line| !line.starts_with('#'));
    one_line(&lines.collect::<Vec<_>>().join("\n"))
}

/// The comments of the header, and the rest too, without the stars that begin a line.
fn comments() -> String {
    let lines = HEADER
        .lines()
        .map(|line| line.trim().trim_start_matches("* "));
    one_line(&lines.collect::<Vec<_>>().join("\n"))
}

/// A number as the comments write it, in groups of three.
fn grouped(number: usize) -> String {
    match number {
        0..=999 => number.to_string(),
        _ => format!("{},{:03}", number / 1_000, number % 1_000),
    }
}

/// The name in the crate's style: `WrongLength` for WRONG_LENGTH.
fn camel_case(name: &str) -> String {
    let word = |word: &str| word[..1].to_string() + &word[1..].to_lowercase();
    name.split('_').map(word).collect()
}

/// The Rust type that a type of the header stands for.
fn rust_type(c_type: &str) -> String {
    match c_type {
        "uint8_t *" => "*mut u8",
        "const uint8_t *" => "*const u8",
        "size_t" => "usize",
        "uint64_t" => "u64",
        "uint32_t" => "u32",
        "struct ReplicaAnswer" => "ReplicaAnswer",
        "struct ReplicaJoin" => "ReplicaJoin",
        other => panic!("the header has the type {other}"),
    }
    .to_string()
}

/// `uint8_t *journal` as its Rust type and its name.
fn c_declaration(text: &str) -> (String, String) {
    let text = text.trim();
    let start = text.rfind([' ', '*']).expect("a type and a name") + 1;
    (rust_type(text[..start].trim()), text[start..].to_string())
}

/// `journal: *mut u8,` and on.
fn rust_declarations(text: &str) -> Names {
    let one = |part: &str| {
        let (name, kind) = part.split_once(": ").expect("a name and a type");
        (
            kind.to_string(),
            name.trim_start_matches("pub ").to_string(),
        )
    };
    let parts = text.split(',').map(str::trim);
    parts.filter(|part| !part.is_empty()).map(one).collect()
}

fn c_functions() -> Functions {
    let text = declarations();
    let prototypes = text.split(';').filter(|part| part.contains('('));
    let one = |prototype: &str| {
        let (before, rest) = prototype.split_once('(').expect("a prototype");
        let (parameters, end) = rest.split_once(')').expect("a prototype");
        assert_eq!(end, "", "{prototype}");
        let (returned, name) = c_declaration(before);
        (
            name,
            (parameters.split(',').map(c_declaration).collect(), returned),
        )
    };
    prototypes.map(one).collect()
}

fn rust_functions() -> Functions {
    let text = one_line(between(RAW, "extern \"C\" {", "\n    }"));
    let one = |function: &str| {
        let (name, rest) = function.split_once('(').expect("a function");
        let (parameters, returned) = rest.split_once(") -> ").expect("an answer");
        let returned = returned.trim_end_matches([';', ' ']).to_string();
        (name.to_string(), (rust_declarations(parameters), returned))
    };
    text.split("pub fn ").skip(1).map(one).collect()
}

/// The names of the parameters as the crate's calls fill them: `journal.len()` is journal_length.
fn called_with(function: &str) -> Vec<String> {
    let call = between(RAW, &format!("exports::{function}("), "\n    }");
    let arguments = call.trim_end().strip_suffix(')').expect("a call");
    let one = |argument: &str| match argument.trim().split_once('.') {
        None => argument.trim().to_string(),
        Some((name, "as_ptr()" | "as_mut_ptr()")) => name.to_string(),
        Some((name, "len()")) => format!("{name}_length"),
        _ => panic!("{function} is called with {argument}"),
    };
    let parts = arguments.split(',').filter(|part| !part.trim().is_empty());
    parts.map(one).collect()
}

/// The numbers behind `Refused:` in the comment before the prototype, in their order.
fn refusals_named(function: &str) -> Vec<usize> {
    let prototype = HEADER.find(&format!(" {function}(")).expect(function);
    let (_, comment) = HEADER[..prototype].rsplit_once("/*").expect(function);
    let list = between(comment, "Refused:", "*/").replace(" *", "");
    // What stands in brackets says when. A full stop ends the list.
    let numbers = between(&outside(&list, "(", ")"), " ", ".").to_string();
    let number = |text: &str| text.trim().parse().expect(function);
    numbers.split(',').map(number).collect()
}

/// All `#define`s but the guard against a second inclusion.
fn defines() -> BTreeMap<&'static str, usize> {
    let lines = HEADER
        .lines()
        .filter_map(|line| line.strip_prefix("#define "));
    let one = |line: &'static str| {
        let (name, value) = line.split_once(' ').expect(line);
        (name, value.trim().parse().expect(line))
    };
    lines.filter(|&line| line != "REPLICA_H").map(one).collect()
}

#[test]
fn constants_are_those_of_the_crate() {
    let names: Vec<_> = CONSTANTS
        .iter()
        .map(|(name, ..)| format!("REPLICA_{name}"))
        .collect();
    let values = CONSTANTS.iter().map(|&(_, value, _)| value);
    assert_eq!(
        defines(),
        names.iter().map(String::as_str).zip(values).collect()
    );
}

#[test]
fn comments_name_the_numbers_of_the_crate() {
    let comments = comments();
    for &(text, value, _) in COMMENTS {
        let text = text.replace('#', &grouped(value));
        assert!(comments.contains(&text), "the header does not say: {text}");
    }
}

/// No constant of the crate is without a place in the header.
#[test]
fn the_header_has_every_constant_of_the_crate() {
    let definitions = CRATE.split("pub const ").skip(1);
    let names: BTreeSet<_> = definitions
        .map(|rest| rest.split_once(':').expect(rest).0)
        .collect();
    let made_of = CONSTANTS
        .iter()
        .chain(COMMENTS)
        .flat_map(|&(_, _, made_of)| {
            made_of.split(|c: char| !c.is_ascii_alphanumeric() && c != '_')
        });
    let used: BTreeSet<_> = made_of
        .filter(|word| word.starts_with(char::is_alphabetic))
        .collect();
    assert_eq!(used, names);
}

#[test]
fn refusals_are_those_of_the_crate() {
    let text = declarations();
    let one = |line: &str| {
        let (name, number) = line.split_once(" = ").expect("a number of its own");
        let name = name
            .trim()
            .strip_prefix("REPLICA_REFUSED_")
            .expect("a refusal");
        (number.trim().parse().expect("a number"), camel_case(name))
    };
    let header: Vec<(u64, String)> = between(&text, "enum {", "}").split(',').map(one).collect();
    let causes = Cause::ALL.map(|cause| (cause.number(), format!("{cause:?}")));
    assert_eq!(header, causes);
}

#[test]
fn structs_have_the_fields_of_the_crate() {
    let text = declarations();
    for name in ["ReplicaAnswer", "ReplicaJoin"] {
        let mut header = Names::new();
        for fields in between(&text, &format!("struct {name} {{"), "}").split(';') {
            let fields = fields.trim();
            let Some((kind, names)) = fields.split_once(' ') else {
                continue;
            };
            header.extend(
                names
                    .split(", ")
                    .map(|name| (rust_type(kind), name.to_string())),
            );
        }
        let raw = between(RAW, &format!("pub struct {name} {{"), "\n}");
        assert_eq!(header, rust_declarations(raw), "struct {name}");
    }
}

#[test]
fn prototypes_are_those_of_the_crate() {
    let header = c_functions();
    let names: BTreeSet<_> = Entry::ALL
        .map(|entry| format!("replica_{}", entry.name()))
        .into();
    assert!(header.keys().eq(&names), "{:?}", header.keys());
    let raw = rust_functions();
    assert!(raw.keys().eq(&names), "{:?}", raw.keys());
    for (name, function) in &header {
        assert_eq!(function, &raw[name], "{name}");
        let parameters: Vec<_> = function.0.iter().map(|(_, parameter)| parameter).collect();
        assert_eq!(
            parameters,
            called_with(name).iter().collect::<Vec<_>>(),
            "{name}"
        );
    }
}

/// In the order of the checks, which `compare` tries.
#[test]
fn refusals_of_each_function_are_named() {
    for entry in Entry::ALL {
        let function = format!("replica_{}", entry.name());
        assert_eq!(refusals_named(&function), entry.refusals(), "{function}");
    }
}
