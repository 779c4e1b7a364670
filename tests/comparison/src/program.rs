//! The program `replica` as a child process.

use std::path::PathBuf;
use std::process::{Child, Command, Output};
use std::thread::sleep;
use std::time::{Duration, Instant};

/// No input takes longer than a fraction of this.
const MAX_TIME: Duration = Duration::from_secs(30);

/// The program that `rt run` in crates/replica builds, as rt ci does, or the one that REPLICA_PROGRAM names.
pub fn program() -> Command {
    let own = concat!(env!("CARGO_MANIFEST_DIR"), "/../../crates/replica/out/replica");
    let program = PathBuf::from(std::env::var_os("REPLICA_PROGRAM").unwrap_or(own.into()));
    assert!(
        program.is_file(),
        "{} is not there: run `rt run` in crates/replica, or name a program in REPLICA_PROGRAM",
        program.display()
    );
    Command::new(program)
}

/// What the program wrote, when it has ended. It is stopped and the test fails if it does not end.
pub fn ended(mut child: Child) -> Output {
    let start = Instant::now();
    while child.try_wait().expect("a child").is_none() {
        if start.elapsed() > MAX_TIME {
            child.kill().expect("a child");
            panic!("the program does not end");
        }
        sleep(Duration::from_millis(1));
    }
    child.wait_with_output().expect("a child")
}
