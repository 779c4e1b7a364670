//! The record that completing writes of a join (document 02, P2): v, w, then the triples a, b, t of
//! its switches in the order made, unused bytes 255.

use crate::switching::Join;

/// Bytes of a record.
pub const LENGTH: usize = 8;
/// A byte that is not needed. No vertex has this number.
pub const UNUSED: u8 = 255;

/// The record of a join.
pub fn of(join: &Join) -> [u8; LENGTH] {
    let mut record = [UNUSED; LENGTH];
    record[0] = join.v as u8;
    record[1] = join.w as u8;
    for (triple, switch) in record[2..].chunks_mut(3).zip(&join.switches) {
        triple[0] = switch.a as u8;
        triple[1] = switch.b as u8;
        triple[2] = switch.t as u8;
    }
    record
}
