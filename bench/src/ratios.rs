//! Times the library against the reference, in one run.

use crate::cases::Case;
use comparison::call::{on_library, on_reference, Memory};
use reference::numbers::Numbers;
use std::hint::black_box;
use std::time::{Duration, Instant};

/// Calls are repeated until they took this long or were made this often.
const ENOUGH: Duration = Duration::from_millis(30);
const MAX_CALLS: u32 = 1_000;

pub fn print(cases: &[Case]) {
    println!(
        "{:<18}{:<16}{:>14}{:>14}{:>10}",
        "entry", "case", "library ns", "reference ns", "ratio"
    );
    for case in cases {
        let library = time(case, |memory| on_library(&case.call, memory.slices()));
        let reference = time(case, |memory| on_reference(&case.call, memory.slices()));
        println!(
            "{:<18}{:<16}{:>14}{:>14}{:>10.1}",
            case.entry().name(),
            case.name,
            library.as_nanos(),
            reference.as_nanos(),
            reference.as_secs_f64() / library.as_secs_f64().max(1e-9)
        );
    }
}

/// The shortest time of one call, of many: other work on the machine only ever adds to it. Copies
/// are made outside of it.
fn time(case: &Case, call: impl Fn(&mut Memory) -> Numbers) -> Duration {
    let mut shortest = Duration::MAX;
    let mut spent = Duration::ZERO;
    let mut calls = 0;
    while spent < ENOUGH && calls < MAX_CALLS {
        let mut memory = case.memory();
        let start = Instant::now();
        let numbers = black_box(call(black_box(&mut memory)));
        let took = start.elapsed();
        assert_eq!(numbers[0], 0, "{} was refused", case.name);
        shortest = shortest.min(took);
        spent += took;
        calls += 1;
    }
    shortest
}

#[cfg(test)]
mod tests {
    use super::*;
    use crate::cases;
    use comparison::call::Call;

    /// Every case does its work, and the states written by hand are what they should be.
    #[test]
    fn no_case_is_refused() {
        for case in cases::all() {
            let mut memory = case.memory();
            let numbers = on_reference(&case.call, memory.slices());
            assert_eq!(numbers[0], 0, "{} {}", case.entry().name(), case.name);
            if matches!(case.call, Call::AddEdge { .. }) {
                let switches = if case.name.starts_with("plain") { 0 } else { 2 };
                assert_eq!(numbers[1], switches, "{}", case.name);
            }
        }
    }
}
