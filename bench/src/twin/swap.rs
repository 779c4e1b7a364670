//! Swaps and takings-back, and the check of a log: its swaps are undone in the lent matrix, the
//! last first, and made again.

use super::{all_zero, check, set, Checked, Laid, Lent, Rows, SIDE};
use reference::numbers::Six;
use reference::{refused, Refused, LOG_BYTES, MAX_SWAPS};

/// a, b, c and d.
type Record = [u8; 4];

fn count_of(log: &[u8; LOG_BYTES]) -> usize {
    u16::from_le_bytes([log[0], log[1]]).into()
}

/// The records of a log, if there is room for so many, and the bytes behind them.
fn records_of(log: &[u8; LOG_BYTES]) -> Option<(&[Record], &[u8])> {
    let (records, behind) = log[2..].split_at_checked(4 * count_of(log))?;
    Some((records.as_chunks().0, behind))
}

/// Behind the records of a valid log all is zero already.
pub fn empty(log: &mut [u8; LOG_BYTES]) {
    let used = 2 + 4 * count_of(log);
    log[..used].fill(0);
}

/// Whether a-b and c-d can become a-d and b-c. An edge joins different vertices, and were a and c
/// the same, or b and d, a new edge would be an old one: only a and d, b and c are left to compare.
#[inline(always)]
fn allowed(laid: &Laid, rows: &Rows, [a, b, c, d]: [usize; 4]) -> bool {
    let n = laid.vertices.min(SIDE);
    a < n
        && b < n
        && c < n
        && d < n
        && rows[a][b] == 1
        && rows[c][d] == 1
        && rows[a][d] == 0
        && rows[b][c] == 0
        && laid.classes[a] == laid.classes[c]
        && a != d
        && b != c
}

#[inline(always)]
fn swap(rows: &mut Rows, [a, b, c, d]: [usize; 4]) {
    set(rows, a, b, 0);
    set(rows, c, d, 0);
    set(rows, a, d, 1);
    set(rows, b, c, 1);
}

/// Whether a log is well-formed and its swaps can be undone. The matrix is as it was afterwards.
pub fn undoable(laid: &Laid, rows: &mut Rows, log: &[u8; LOG_BYTES]) -> bool {
    let Some((records, behind)) = records_of(log) else {
        return false;
    };
    if !all_zero(behind) {
        return false;
    }
    let mut left = records.len();
    while left > 0 {
        let [a, b, c, d] = records[left - 1].map(usize::from);
        if !allowed(laid, rows, [a, d, c, b]) {
            break;
        }
        swap(rows, [a, d, c, b]);
        left -= 1;
    }
    for record in &records[left..] {
        swap(rows, record.map(usize::from));
    }
    left == 0
}

pub fn swap_edges(lent: Lent, named: [u64; 4]) -> Result<Six, Refused> {
    let Checked { laid, rows, log } = check(lent)?;
    if named.iter().any(|&v| v >= laid.vertices as u64) {
        return Err(refused(13));
    }
    let named = named.map(|v| v as usize);
    if !allowed(&laid, rows, named) {
        return Err(refused(23));
    }
    let count = count_of(log);
    if count == MAX_SWAPS {
        return Err(refused(24));
    }
    swap(rows, named);
    log[2 + 4 * count..6 + 4 * count].copy_from_slice(&named.map(|v| v as u8));
    log[..2].copy_from_slice(&(count as u16 + 1).to_le_bytes());
    Ok([0; 6])
}

pub fn undo_swap(lent: Lent) -> Result<Six, Refused> {
    let Checked { rows, log, .. } = check(lent)?;
    let last = count_of(log).checked_sub(1).ok_or(refused(25))?;
    let record = &mut log[2 + 4 * last..6 + 4 * last];
    let [a, b, c, d] = [record[0], record[1], record[2], record[3]].map(usize::from);
    swap(rows, [a, d, c, b]);
    record.fill(0);
    log[..2].copy_from_slice(&(last as u16).to_le_bytes());
    Ok([0; 6])
}
