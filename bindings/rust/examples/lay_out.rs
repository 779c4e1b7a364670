//! Loads a table from a file of records, drags some edges by hand, completes and prints what moved
//! and what came out.
//!
//!     cargo run -p replica --example lay_out -- RECORDS [V-W ...] [--shuffle X]
//!
//! RECORDS is a file of 4-byte records (k, l, 16-bit count, low byte first; 0, 0, count for isolated
//! vertices). Each V-W joins two vertices before the rest is completed; -V-W removes an edge again.
//! With --shuffle, the number X chooses the edges that complete it. Without a file, the table of
//! document 004 is laid.

use replica::{Completion, Refusal, State, Switch, Switches, MAX_BLOCK_BYTES};
use std::error::Error;

const DOCUMENT_004: [u8; 12] = [1, 3, 1, 0, 2, 2, 2, 0, 2, 3, 2, 0];

fn main() -> Result<(), Box<dyn Error>> {
    let mut arguments = std::env::args().skip(1);
    let records = match arguments.next() {
        Some(file) => std::fs::read(file)?,
        None => DOCUMENT_004.to_vec(),
    };
    let mut state = State::new();
    take_all(&mut state, &records)?;
    println!("{} vertices", state.lay_out()?);
    let mut shuffle = None;
    while let Some(word) = arguments.next() {
        match word.as_str() {
            "--shuffle" => shuffle = Some(arguments.next().ok_or("--shuffle X")?.parse()?),
            drag => by_hand(&mut state, drag)?,
        }
    }
    let done = completed(&mut state, shuffle)?;
    println!("{} joins, {} switches", done.joins, done.switches);
    for join in done.records() {
        println!("{}-{}{}", join.v, join.w, moved(join.switches));
    }
    println!("edges:");
    for (v, w) in state.edges()? {
        println!("{v} {w}");
    }
    Ok(())
}

/// Takes the records in blocks of 64 bytes, numbered from 0.
fn take_all(state: &mut State, records: &[u8]) -> Result<(), Box<dyn Error>> {
    for (number, block) in (0..).zip(records.chunks(MAX_BLOCK_BYTES)) {
        state.take_block(number, block)?;
    }
    let cells = state.cells()?;
    println!("{} isolated vertices", cells.isolated());
    for cell in cells {
        println!("cell ({}, {}) = {}", cell.k, cell.l, cell.count);
    }
    Ok(())
}

/// Adds the edge V-W, or removes it for -V-W. A refusal is told and costs nothing.
fn by_hand(state: &mut State, drag: &str) -> Result<(), Box<dyn Error>> {
    let (remove, pair) = match drag.strip_prefix('-') {
        Some(pair) => (true, pair),
        None => (false, drag),
    };
    let (v, w) = pair
        .split_once('-')
        .ok_or_else(|| format!("{drag} is not V-W"))?;
    let (v, w) = (v.parse()?, w.parse()?);
    let answer = if remove {
        state.remove_edge(v, w).map(|()| "removed".to_string())
    } else {
        state
            .add_edge(v, w)
            .map(|switches| format!("joined{}", moved(switches)))
    };
    match answer {
        Ok(text) => println!("{drag}: {text}"),
        Err(refusal) => println!("{drag}: refused, {refusal}"),
    }
    Ok(())
}

fn completed(state: &mut State, shuffle: Option<u32>) -> Result<Completion, Refusal> {
    let Some(x) = shuffle else {
        return state.complete();
    };
    let (done, last) = state.complete_shuffled(x)?;
    println!("shuffled from {x}, to {last}");
    Ok(done)
}

/// The edges that a join moved.
fn moved(switches: Switches) -> String {
    let told = |Switch { a, b, t }| format!(", {a}-{t} became {b}-{t}");
    switches.into_iter().map(told).collect()
}
