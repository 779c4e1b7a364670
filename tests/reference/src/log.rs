//! The log of swaps (document 02, P8): a 16-bit count, low byte first, up to 1,024 records of
//! 4 bytes, a, b, c, d, and zeros behind them.

use crate::swapping::Swap;
use crate::{LOG_BYTES, MAX_SWAPS};

/// Bytes of a record.
pub const RECORD_BYTES: usize = 4;

/// A log without swaps.
pub fn empty() -> Vec<u8> {
    vec![0; LOG_BYTES]
}

/// How many swaps the log says it has, whether there is room for them or not.
pub fn count(log: &[u8]) -> usize {
    log[0] as usize + 256 * log[1] as usize
}

/// The bytes of the records of a well-formed log.
pub fn records(log: &[u8]) -> &[u8] {
    &log[2..record_start(count(log))]
}

/// The swaps of a well-formed log, in the order made.
pub fn swaps(log: &[u8]) -> Vec<Swap> {
    records(log).chunks(RECORD_BYTES).map(Swap::of).collect()
}

/// Where record i starts.
pub fn record_start(i: usize) -> usize {
    2 + RECORD_BYTES * i
}

/// No more swaps than there is room for, and zeros behind them.
pub fn well_formed(log: &[u8]) -> bool {
    let zero_from = |start: usize| log[start..].iter().all(|&byte| byte == 0);
    count(log) <= MAX_SWAPS && zero_from(record_start(count(log)))
}

/// Writes a swap behind the others. There must be room for it.
pub fn push(log: &mut [u8], swap: Swap) {
    let start = record_start(count(log));
    log[start..start + RECORD_BYTES].copy_from_slice(&swap.record());
    set_count(log, count(log) + 1);
}

/// Takes the last swap out; its bytes become zero. There must be one.
pub fn pop(log: &mut [u8]) {
    let last = count(log) - 1;
    log[record_start(last)..record_start(last) + RECORD_BYTES].fill(0);
    set_count(log, last);
}

/// Writes another count and nothing else.
pub fn set_count(log: &mut [u8], count: usize) {
    log[0] = (count % 256) as u8;
    log[1] = (count / 256) as u8;
}
