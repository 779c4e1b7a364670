//! Completing by open pairs that numbers choose: how many there are is kept row by row, so that a pair
//! is found by its position.

use super::{check, join, missing_records, swap, told, unsaturated};
use super::{Checked, Laid, Lent, Rows, DEGREES, SIDE};
use reference::numbers::Six;
use reference::{join_record, Refused};

/// Rows that are summed together, and bytes of a row that are tested at once.
const EIGHT: usize = 8;
/// A byte of 1 in each of eight.
const ONES: u64 = u64::from_le_bytes([1; EIGHT]);

/// The open pairs: not joined, of a cell that is short.
struct Open {
    /// For each class and vertex, 1 where their cell is short.
    short: [[u8; SIDE]; DEGREES],
    /// Of each v, the open pairs (v, w) with v below w.
    above: [u8; SIDE],
    /// The same of eight rows together.
    eights: [u32; SIDE / EIGHT],
    /// All of them.
    all: u32,
}

/// Eight bytes of a row from this column on.
fn eight(row: &[u8; SIDE], from: usize) -> u64 {
    let bytes = row[from..from + EIGHT].try_into();
    u64::from_le_bytes(bytes.expect("eight bytes"))
}

impl Open {
    fn new(laid: &Laid, rows: &Rows) -> Open {
        let mut open = Open {
            short: [[0; SIDE]; DEGREES],
            above: [0; SIDE],
            eights: [0; SIDE / EIGHT],
            all: 0,
        };
        for k in (1..DEGREES).filter(|&k| laid.starts[k] < laid.starts[k + 1]) {
            for l in (k..DEGREES).filter(|&l| laid.short[k][l] > 0) {
                open.set_short(laid, (k, l), 1);
            }
            for v in laid.starts[k]..laid.starts[k + 1] {
                let pairs = open.short[k][v + 1..].iter().zip(&rows[v][v + 1..]);
                let above = pairs.map(|(short, linked)| short & !linked).sum();
                open.add(v, above);
            }
        }
        open
    }

    fn set_short(&mut self, laid: &Laid, (k, l): (usize, usize), byte: u8) {
        self.short[k][laid.starts[l]..laid.starts[l + 1]].fill(byte);
        self.short[l][laid.starts[k]..laid.starts[k + 1]].fill(byte);
    }

    fn add(&mut self, v: usize, pairs: u8) {
        self.above[v] += pairs;
        self.eights[v / EIGHT] += u32::from(pairs);
        self.all += u32::from(pairs);
    }

    fn take(&mut self, v: usize, pairs: u8) {
        self.above[v] -= pairs;
        self.eights[v / EIGHT] -= u32::from(pairs);
        self.all -= u32::from(pairs);
    }

    /// The open pair at this position, ascending.
    fn pair_at(&self, laid: &Laid, rows: &Rows, position: u32) -> (usize, usize) {
        let mut left = position;
        let mut v = 0;
        while left >= self.eights[v / EIGHT] {
            left -= self.eights[v / EIGHT];
            v += EIGHT;
        }
        while left >= u32::from(self.above[v]) {
            left -= u32::from(self.above[v]);
            v += 1;
        }
        let short = &self.short[laid.classes[v] as usize];
        (v, column_at(short, &rows[v], v + 1, left.into()))
    }

    /// Edge a-t went and b-t came: of one cell, so that only their rows change, if it is short.
    #[inline(always)]
    fn switched(&mut self, laid: &Laid, switch: super::Switch) {
        let [a, b, t, _] = switch.to_le_bytes().map(usize::from);
        if switch != super::NO_SWITCH && self.short[laid.classes[a] as usize][t] == 1 {
            self.add(a.min(t), 1);
            self.take(b.min(t), 1);
        }
    }

    /// Cell (k, l) has all its edges: its open pairs are none any more.
    fn filled(&mut self, laid: &Laid, rows: &Rows, (k, l): (usize, usize)) {
        let class = laid.starts[k]..laid.starts[k + 1];
        for (v, row) in class.clone().zip(&rows[class]) {
            let from = laid.starts[l].max(v + 1);
            let columns = &row[from..laid.starts[l + 1]];
            let free = columns.iter().map(|linked| 1 - linked).sum();
            self.take(v, free);
        }
        self.set_short(laid, (k, l), 0);
    }
}

/// The column at this position among those from one on that are not linked and short.
fn column_at(short: &[u8; SIDE], row: &[u8; SIDE], first: usize, position: u64) -> usize {
    let mut left = position;
    let mut from = first / EIGHT * EIGHT;
    let mut open = eight(short, from) & !eight(row, from);
    open &= u64::MAX << (8 * (first - from));
    loop {
        // Byte i of the product is how many there are up to i.
        let up_to = open.wrapping_mul(ONES);
        let count = up_to >> 56;
        if left < count {
            // A byte keeps its high bit where no more than so many are up to it.
            let before = ((left | 128) * ONES - up_to) & (128 * ONES);
            return from + ((before >> 7).wrapping_mul(ONES) >> 56) as usize;
        }
        left -= count;
        from += EIGHT;
        open = eight(short, from) & !eight(row, from);
    }
}

pub fn fill_shuffled(lent: Lent, mut x: u32, output: &mut [u8]) -> Result<Six, Refused> {
    let Checked {
        mut laid,
        rows,
        log,
    } = check(lent)?;
    let records = missing_records(&laid, output)?;
    if !records.is_empty() {
        swap::empty(log);
    }
    let mut open = Open::new(&laid, rows);
    // The lowest unsaturated vertex of each class never falls.
    let mut low = laid.starts;
    let mut switches = 0;
    for record in records.iter_mut() {
        x = x.wrapping_mul(1_664_525).wrapping_add(1_013_904_223);
        let (v, w) = open.pair_at(&laid, rows, (x >> 16) % open.all);
        let (k, l) = (laid.classes[v] as usize, laid.classes[w] as usize);
        for class in [k, l] {
            low[class] = unsaturated(&laid.held, low[class], laid.starts[class + 1], class as u8);
        }
        let made = join(&mut laid, rows, (v, w), (low[k], low[l]));
        for switch in made {
            open.switched(&laid, switch);
        }
        open.take(v, 1);
        let count;
        (count, *record) = told((v, w), made);
        switches += count;
        laid.short[k][l] -= if k == l { 2 } else { 1 };
        if laid.short[k][l] == 0 {
            open.filled(&laid, rows, (k, l));
        }
    }
    let joins = records.len();
    let written = join_record::LENGTH * joins;
    Ok([0, joins as u64, switches, written as u64, x.into(), 0])
}
