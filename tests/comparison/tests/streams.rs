//! Streams that fail: the program ends, and says so in one line on standard error.

use comparison::program::{ended, program};
use std::fs::{File, OpenOptions};
use std::io::Write;
use std::process::{Output, Stdio};

/// One line that names the program, and nothing else.
fn one_line(bytes: &[u8]) {
    let text = String::from_utf8_lossy(bytes);
    let line = text.strip_suffix('\n').unwrap_or("");
    let said = line.strip_prefix("replica: ").unwrap_or("");
    assert!(!said.is_empty() && !said.contains('\n'), "{text:?}");
}

/// Without the options, with either and with both.
const ARGUMENTS: [&[&str]; 4] = [
    &[],
    &["--graph6"],
    &["--shuffle", "7"],
    &["--shuffle", "7", "--graph6"],
];

/// Every write to standard output fails.
fn on_a_full_device(arguments: &[&str], input: &[u8]) -> Output {
    let full = OpenOptions::new().write(true).open("/dev/full");
    let mut child = program()
        .args(arguments)
        .stdin(Stdio::piped())
        .stdout(full.expect("a device that is full"))
        .stderr(Stdio::piped())
        .spawn()
        .expect("the program starts");
    let _ = child.stdin.take().expect("a pipe").write_all(input);
    ended(child)
}

#[test]
fn an_output_that_cannot_be_written() {
    // No edge, one edge, as many as there can be, and a refusal.
    let inputs: [&[u8]; 4] = [&[], &[1, 1, 2, 0], &[40, 40, 64, 31], &[2, 2, 5, 0]];
    for arguments in ARGUMENTS {
        for input in inputs {
            one_line(&on_a_full_device(arguments, input).stderr);
        }
    }
}

#[test]
fn an_input_that_cannot_be_read() {
    for arguments in ARGUMENTS {
        let folder = File::open(env!("CARGO_MANIFEST_DIR")).expect("a folder");
        let child = program()
            .args(arguments)
            .stdin(folder)
            .stdout(Stdio::piped())
            .stderr(Stdio::piped())
            .spawn()
            .expect("the program starts");
        let output = ended(child);
        assert_eq!(String::from_utf8_lossy(&output.stdout), "");
        one_line(&output.stderr);
    }
}
