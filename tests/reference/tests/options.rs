//! The program's arguments, and what it prints for them.

use reference::program::{graph6_output, output, output_with, Options};

fn shuffle(x: &str) -> Option<u32> {
    Options::of(&["--shuffle", x])?.shuffle
}

#[test]
fn numbers() {
    for (word, x) in [
        ("0", 0),
        ("7", 7),
        ("007", 7),
        ("4294967295", u32::MAX),
        ("00004294967295", u32::MAX),
        ("0000000000000000000000000000000000000000", 0),
    ] {
        assert_eq!(shuffle(word), Some(x), "{word}");
    }
    for word in [
        "",
        "-1",
        "+1",
        "4294967296",
        "99999999999999999999",
        "1x",
        " 1",
        "1 ",
        "0x10",
        "1_000",
        "1.0",
        "\u{663}",
    ] {
        assert_eq!(shuffle(word), None, "{word}");
    }
}

#[test]
fn orders() {
    let options = |graph6, shuffle| Some(Options { graph6, shuffle });
    assert_eq!(Options::of(&[]), options(false, None));
    assert_eq!(Options::of(&["--graph6"]), options(true, None));
    let either = [
        ["--graph6", "--shuffle", "5"],
        ["--shuffle", "5", "--graph6"],
    ];
    for arguments in either {
        assert_eq!(Options::of(&arguments), options(true, Some(5)));
    }
    let wrong: [&[&str]; 9] = [
        &["--shuffle"],
        &["5"],
        &["5", "--shuffle"],
        &["--shuffle", "--graph6"],
        &["--shuffle", "--graph6", "5"],
        &["--graph6", "--shuffle"],
        &["--shuffle", "5", "5"],
        &["--shuffle", "5", "--shuffle", "5"],
        &["--shuffle", "5", "--graph6", "--graph6"],
    ];
    for arguments in wrong {
        assert_eq!(Options::of(arguments), None, "{arguments:?}");
    }
}

/// The square from 0, which is joined 0-3, 0-2, 0-1 with a switch and 1-3.
#[test]
fn a_square() {
    let square = [2, 2, 8, 0];
    let with = |arguments: &[&str]| output_with(Options::of(arguments).unwrap(), &square);
    let listed = "boards 4 links 4 switches 1\n0 1\n0 2\n1 3\n2 3\n";
    assert_eq!(with(&["--shuffle", "0"]), listed);
    assert_eq!(with(&["--shuffle", "0", "--graph6"]), "Cr\n");
    assert_eq!(with(&[]), output(&square));
    assert_eq!(with(&["--graph6"]), graph6_output(&square));
}
