//! Completes a table, rewires the graph by swaps of two edges, and takes them back.
//!
//!     cargo run -p replica --example rewire -- [SWAPS]
//!
//! Edges are drawn by a number that steps as in completing shuffled. Two that cannot be swapped are
//! refused, which costs nothing.

use replica::{Cause, Record, Refusal, State, Swap};
use std::error::Error;

fn main() -> Result<(), Box<dyn Error>> {
    let wanted = match std::env::args().nth(1) {
        Some(word) => word.parse()?,
        None => 5,
    };
    let mut state = State::new();
    let table = [Record::new(1, 3, 6), Record::new(3, 3, 12)];
    state.take_block(0, &replica::block(&table))?;
    println!("{} vertices", state.lay_out()?);
    state.complete()?;
    println!("at first     {}", state.graph6()?);

    let mut x = 1;
    while state.swaps().len() < wanted {
        if let Some(Swap { a, b, c, d }) = swap_any(&mut state, &mut x)? {
            println!("{a}-{b} and {c}-{d} became {a}-{d} and {b}-{c}");
        }
    }
    println!("rewired      {}", state.graph6()?);
    while state.swaps().len() > 0 {
        let Swap { a, b, c, d } = state.undo_swap()?;
        println!("{a}-{b} and {c}-{d} are back");
    }
    println!("taken back   {}", state.graph6()?);
    Ok(())
}

/// Swaps two edges that x draws, if they can be swapped.
fn swap_any(state: &mut State, x: &mut u32) -> Result<Option<Swap>, Refusal> {
    let edges: Vec<(u8, u8)> = state.edges()?.collect();
    let mut draw = || {
        *x = x.wrapping_mul(1_664_525).wrapping_add(1_013_904_223);
        let (v, w) = edges[(*x >> 17) as usize % edges.len()];
        if *x >> 16 & 1 == 0 {
            (v, w)
        } else {
            (w, v)
        }
    };
    let ((a, b), (c, d)) = (draw(), draw());
    match state.swap_edges(a.into(), b.into(), c.into(), d.into()) {
        Ok(()) => Ok(Some(Swap { a, b, c, d })),
        Err(refusal) if refusal.cause == Cause::SwapNotAllowed => Ok(None),
        Err(refusal) => Err(refusal),
    }
}
