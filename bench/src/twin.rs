//! The entries that may change the graph, clear apart, graph6_write and graph6_read, written by
//! hand to be fast, to hold the library's instructions against. It makes the library's savings
//! (docs/DECISIONS.md 17 and 21), and what the check of a state has counted is handed on. Answers
//! are the numbers of the C interface.

use reference::join_record::{self, UNUSED};
use reference::numbers::{refusal, Nine, Six};
use reference::{refused, refused_at, Refused};
use reference::{JOURNAL_BYTES, LOG_BYTES, MAX_BLOCKS, MAX_BLOCK_BYTES, MAX_DEGREE, MAX_VERTICES};

mod shuffle;
mod swap;

const DEGREES: usize = MAX_DEGREE + 1;
const SIDE: usize = MAX_VERTICES;
const SLOT_BYTES: usize = 1 + MAX_BLOCK_BYTES;

/// What these calls are lent.
pub struct Lent<'a> {
    pub journal: &'a [u8],
    pub adjacency: &'a mut [u8],
    pub log: &'a mut [u8],
}

/// The adjacency matrix, row by row.
type Rows = [[u8; SIDE]; SIDE];

/// a, b and t in the three low bytes, as in a record: edge a-t went, edge b-t came.
type Switch = u32;
const NO_SWITCH: Switch = u32::from_le_bytes([UNUSED, UNUSED, UNUSED, 0]);

type JoinRecord = [u8; join_record::LENGTH];

/// What the check of a laid state finds out about it.
struct Laid {
    /// N.
    vertices: usize,
    /// The degree of each vertex.
    classes: [u8; SIDE],
    /// The first vertex of each class, and one past the last.
    starts: [usize; DEGREES + 1],
    /// For k at most l, what cell (k, l) is short of.
    short: [[u32; DEGREES]; DEGREES],
    /// The edges at each vertex.
    held: [u8; SIDE],
}

impl Laid {
    /// Edges wanted and not laid. A cell (k, k) is short of two for each.
    fn missing(&self) -> usize {
        let all: u32 = self.short.as_flattened().iter().sum();
        let diagonal: u32 = (0..DEGREES).map(|k| self.short[k][k]).sum();
        (all - diagonal / 2) as usize
    }
}

/// The sum of the blocks. Row and column 0 stay 0: isolated vertices are in no cell.
struct Table {
    cells: [[u32; DEGREES]; DEGREES],
    row_sums: [u32; DEGREES],
    isolated: u32,
}

fn all_zero(bytes: &[u8]) -> bool {
    bytes.iter().fold(0, |all, byte| all | byte) == 0
}

/// The table of a well-formed journal.
fn table_of(journal: &[u8; JOURNAL_BYTES]) -> Option<Table> {
    let blocks = journal[1] as usize;
    if journal[0] > 1 || blocks > MAX_BLOCKS {
        return None;
    }
    let mut table = Table {
        cells: [[0; DEGREES]; DEGREES],
        row_sums: [0; DEGREES],
        isolated: 0,
    };
    let (used, unused) = journal[2..].split_at(SLOT_BYTES * blocks);
    for slot in used.chunks_exact(SLOT_BYTES) {
        let length = slot[0] as usize;
        if length > MAX_BLOCK_BYTES || length % 4 != 0 {
            return None;
        }
        let (block, rest) = slot[1..].split_at(length);
        for record in block.chunks_exact(4) {
            let (k, l) = (record[0] as usize, record[1] as usize);
            let count = u32::from(u16::from_le_bytes([record[2], record[3]]));
            if k == 0 && l == 0 {
                table.isolated += count;
                continue;
            }
            if k == 0 || k > l || l > MAX_DEGREE {
                return None;
            }
            table.cells[k][l] += count;
            table.row_sums[k] += count;
            if k != l {
                table.row_sums[l] += count;
            }
        }
        if !all_zero(rest) {
            return None;
        }
    }
    all_zero(unused).then_some(table)
}

/// Tests 9 to 12; D(k) of every degree, and the isolated vertices as those of degree 0.
fn counts_of(table: &Table) -> Option<[usize; DEGREES]> {
    let mut counts = [0; DEGREES];
    counts[0] = table.isolated as usize;
    let mut vertices = counts[0];
    for (k, count) in counts.iter_mut().enumerate().skip(1) {
        let sum = table.row_sums[k] as usize;
        *count = sum / k;
        vertices += *count;
        if sum % k != 0 || table.cells[k][k] % 2 != 0 {
            return None;
        }
    }
    if vertices > SIDE {
        return None;
    }
    // At most 200 vertices: the products are small. A degree without vertices has no cells.
    for k in (1..DEGREES).filter(|&k| counts[k] > 0) {
        let mut fits = table.cells[k][k] as usize <= counts[k] * (counts[k] - 1);
        for l in k + 1..DEGREES {
            fits &= table.cells[k][l] as usize <= counts[k] * counts[l];
        }
        if !fits {
            return None;
        }
    }
    Some(counts)
}

/// Row v mirrors its column, 0 or 1 up to the diagonal, which is 0.
fn mirrored(rows: &Rows, v: usize) -> bool {
    let mut differs = rows[v][v];
    let mut above = 0;
    for (&byte, across) in rows[v].iter().zip(&rows[..v]) {
        differs |= byte ^ across[v];
        above |= byte;
    }
    differs == 0 && above <= 1
}

/// Rows and cells in one pass: a class's rows are added up, and the sums over each class are its
/// cells.
fn checked_rows(table: Table, counts: &[usize; DEGREES], rows: &Rows) -> Option<Laid> {
    let mut laid = Laid {
        vertices: 0,
        classes: [0; SIDE],
        starts: [0; DEGREES + 1],
        short: table.cells,
        held: [0; SIDE],
    };
    for (k, count) in counts.iter().enumerate() {
        let end = laid.starts[k] + count;
        laid.classes[laid.starts[k]..end].fill(k as u8);
        laid.starts[k + 1] = end;
    }
    let n = laid.starts[DEGREES];
    laid.vertices = n;
    if !all_zero(rows[..counts[0]].as_flattened()) {
        return None;
    }
    for k in (1..DEGREES).filter(|&k| counts[k] > 0) {
        let mut sums = [0u8; SIDE];
        for v in laid.starts[k]..laid.starts[k + 1] {
            if !mirrored(rows, v) {
                return None;
            }
            // Bytes above 1 behind the diagonal are found in the row they mirror.
            let mut degree = 0u16;
            for (sum, &byte) in sums[..n].iter_mut().zip(&rows[v]) {
                *sum = sum.wrapping_add(byte);
                degree += u16::from(byte);
            }
            if degree > k as u16 || !all_zero(&rows[v][n..]) {
                return None;
            }
            laid.held[v] = degree as u8;
        }
        for l in (k..DEGREES).filter(|&l| counts[l] > 0) {
            let part = &sums[laid.starts[l]..laid.starts[l + 1]];
            let sum = part.iter().map(|&sum| u32::from(sum)).sum();
            laid.short[k][l] = laid.short[k][l].checked_sub(sum)?;
        }
    }
    all_zero(rows[n..].as_flattened()).then_some(laid)
}

/// The rows, if there are as many as there should be.
fn rows_of(adjacency: &mut [u8]) -> Option<&mut Rows> {
    let (rows, rest) = adjacency.as_chunks_mut::<SIDE>();
    rest.is_empty().then_some(())?;
    rows.try_into().ok()
}

/// A laid state that is valid, its log too.
struct Checked<'a> {
    laid: Laid,
    rows: &'a mut Rows,
    log: &'a mut [u8; LOG_BYTES],
}

/// Checks 1, 2 and 3.
fn check(lent: Lent<'_>) -> Result<Checked<'_>, Refused> {
    let journal: &[u8; JOURNAL_BYTES] = lent.journal.try_into().map_err(|_| refused(1))?;
    let rows = rows_of(lent.adjacency).ok_or(refused(1))?;
    let log: &mut [u8; LOG_BYTES] = lent.log.try_into().map_err(|_| refused(1))?;
    let table = table_of(journal).ok_or(refused(2))?;
    if journal[0] == 0 {
        let valid = all_zero(rows.as_flattened()) && all_zero(log);
        return Err(refused(if valid { 3 } else { 2 }));
    }
    let counts = counts_of(&table).ok_or(refused(2))?;
    let laid = checked_rows(table, &counts, rows).ok_or(refused(2))?;
    if !swap::undoable(&laid, rows, log) {
        return Err(refused(2));
    }
    Ok(Checked { laid, rows, log })
}

/// Checks 13 and 14.
fn pair_of(laid: &Laid, v: u64, w: u64) -> Result<(usize, usize), Refused> {
    if v >= laid.vertices as u64 || w >= laid.vertices as u64 {
        return Err(refused(13));
    }
    if v == w {
        return Err(refused(14));
    }
    Ok((v as usize, w as usize))
}

fn set(rows: &mut Rows, v: usize, w: usize, byte: u8) {
    rows[v][w] = byte;
    rows[w][v] = byte;
}

/// Document 01's t: the lowest vertex, not b, linked to a and not to b. Sixteen are tested at once,
/// the last eight of a row one by one.
fn transfer(rows: &Rows, a: usize, b: usize) -> usize {
    let (of_a, last_of_a) = rows[a].as_chunks::<16>();
    let (of_b, last_of_b) = rows[b].as_chunks::<16>();
    let mut from = 0;
    for (x, y) in of_a.iter().zip(of_b) {
        let mut found = u128::from_le_bytes(*x) & !u128::from_le_bytes(*y);
        while found != 0 {
            let t = from + found.trailing_zeros() as usize / 8;
            if t != b {
                return t;
            }
            found &= found - 1;
        }
        from += 16;
    }
    let mut last = last_of_a.iter().zip(last_of_b).zip(from..);
    last.find(|&((&x, &y), t)| x > y && t != b)
        .map_or(from, |(_, t)| t)
}

/// The lowest vertex of from, .., to - 1 with fewer than k edges; `to` where there is none.
fn unsaturated(held: &[u8; SIDE], from: usize, to: usize, k: u8) -> usize {
    let mut v = from;
    while v < to && held[v] >= k {
        v += 1;
    }
    v
}

/// Makes room at `a`, by a switch if it has none. No unsaturated vertex of its class, the other named
/// one apart, is below `from`.
#[inline(always)]
fn relieve(laid: &mut Laid, rows: &mut Rows, a: usize, other: usize, from: usize) -> Switch {
    let k = laid.classes[a];
    if laid.held[a] < k {
        return NO_SWITCH;
    }
    let end = laid.starts[k as usize + 1];
    let mut b = unsaturated(&laid.held, from, end, k);
    if b == other {
        b = unsaturated(&laid.held, b + 1, end, k);
    }
    if b == end {
        b = other;
    }
    let t = transfer(rows, a, b);
    set(rows, a, t, 0);
    set(rows, b, t, 1);
    laid.held[a] -= 1;
    laid.held[b] += 1;
    a as u32 | (b as u32) << 8 | (t as u32) << 16
}

/// Joins v and w: the switch of v and that of w.
fn join(
    laid: &mut Laid,
    rows: &mut Rows,
    (v, w): (usize, usize),
    (from_v, from_w): (usize, usize),
) -> [Switch; 2] {
    let of_v = relieve(laid, rows, v, w, from_v);
    let of_w = relieve(laid, rows, w, v, from_w);
    set(rows, v, w, 1);
    laid.held[v] += 1;
    laid.held[w] += 1;
    [of_v, of_w]
}

/// How many of two switches were made, and their record, those made first.
#[inline(always)]
fn told((v, w): (usize, usize), [of_v, of_w]: [Switch; 2]) -> (u64, JoinRecord) {
    let (by_v, by_w) = (of_v != NO_SWITCH, of_w != NO_SWITCH);
    let (first, second) = if by_v { (of_v, of_w) } else { (of_w, of_v) };
    let triples = u64::from(first) << 16 | u64::from(second) << 40;
    let record = v as u64 | (w as u64) << 8 | triples;
    (u64::from(by_v) + u64::from(by_w), record.to_le_bytes())
}

/// Joins until cell (k, l) is not short, which takes as many joins as there are records to write; the
/// switches. The row of the pair, the column, and the lowest unsaturated vertex of either class are
/// resumed.
fn fill_cell(
    laid: &mut Laid,
    rows: &mut Rows,
    (k, l): (usize, usize),
    records: &mut [JoinRecord],
) -> u64 {
    let (rows_end, columns_end) = (laid.starts[k + 1], laid.starts[l + 1]);
    let mut switches = 0;
    let (mut v, mut w) = (laid.starts[k], 0);
    let (mut low_v, mut low_w) = (laid.starts[k], laid.starts[l]);
    for record in records {
        loop {
            let first = if k == l { v + 1 } else { laid.starts[l] };
            w = w.max(first);
            while w < columns_end && rows[v][w] != 0 {
                w += 1;
            }
            if w < columns_end {
                break;
            }
            v += 1;
            w = 0;
        }
        low_v = unsaturated(&laid.held, low_v, rows_end, k as u8);
        low_w = unsaturated(&laid.held, low_w, columns_end, l as u8);
        let [of_v, of_w] = join(laid, rows, (v, w), (low_v, low_w));
        let (made, written) = told((v, w), [of_v, of_w]);
        switches += made;
        *record = written;
        // What the switch of v freed in its row is open again; 255 is beyond it.
        w = (of_v as usize >> 16).min(w + 1);
    }
    switches
}

fn add(lent: Lent, v: u64, w: u64) -> Result<Nine, Refused> {
    let Checked {
        mut laid,
        rows,
        log,
    } = check(lent)?;
    let (v, w) = pair_of(&laid, v, w)?;
    if rows[v][w] == 1 {
        return Err(refused(15));
    }
    let (k, l) = (laid.classes[v.min(w)], laid.classes[v.max(w)]);
    if laid.short[k as usize][l as usize] == 0 {
        return Err(refused_at(16, u64::from(k), u64::from(l)));
    }
    let start = |laid: &Laid, vertex: usize| laid.starts[laid.classes[vertex] as usize];
    let from = (start(&laid, v), start(&laid, w));
    let switches = join(&mut laid, rows, (v, w), from);
    swap::empty(log);
    let (made, [_, _, triples @ ..]) = told((v, w), switches);
    let [a1, b1, t1, a2, b2, t2] = triples.map(u64::from);
    Ok([0, made, 0, a1, b1, t1, a2, b2, t2])
}

fn remove(lent: Lent, v: u64, w: u64) -> Result<Six, Refused> {
    let Checked { laid, rows, log } = check(lent)?;
    let (v, w) = pair_of(&laid, v, w)?;
    if rows[v][w] == 0 {
        return Err(refused(17));
    }
    set(rows, v, w, 0);
    swap::empty(log);
    Ok([0; 6])
}

/// Check 18: the part of an output that the records of all missing edges take.
fn missing_records<'a>(laid: &Laid, output: &'a mut [u8]) -> Result<&'a mut [JoinRecord], Refused> {
    let (records, _) = output.as_chunks_mut();
    records.get_mut(..laid.missing()).ok_or(refused(18))
}

fn fill(lent: Lent, output: &mut [u8]) -> Result<Six, Refused> {
    let Checked {
        mut laid,
        rows,
        log,
    } = check(lent)?;
    let mut records = missing_records(&laid, output)?;
    let missing = records.len();
    if missing > 0 {
        swap::empty(log);
    }
    let mut switches = 0;
    for k in 1..DEGREES {
        for l in k..DEGREES {
            if laid.short[k][l] > 0 {
                let joins = laid.short[k][l] / if k == l { 2 } else { 1 };
                let (now, later) = records.split_at_mut(joins as usize);
                switches += fill_cell(&mut laid, rows, (k, l), now);
                records = later;
            }
        }
    }
    let written = join_record::LENGTH * missing;
    Ok([0, missing as u64, switches, written as u64, 0, 0])
}

/// Most pairs of vertices.
const MAX_PAIRS: usize = SIDE * (SIDE - 1) / 2;

/// Of a graph6 text: the place of pair (0, w) among all pairs. Pair (v, w) is v places behind.
const COLUMN_STARTS: [u16; SIDE] = {
    let mut starts = [0; SIDE];
    let mut w = 1;
    while w < SIDE {
        starts[w] = (w * (w - 1) / 2) as u16;
        w += 1;
    }
    starts
};

/// Check 19: the edges of a well-formed list. As numbers of 16 bits, high byte first, they ascend.
fn edges_of(list: &[u8], total: u64) -> Result<&[[u8; 2]], Refused> {
    if total > SIDE as u64 {
        return Err(refused(19));
    }
    let (edges, odd) = list.as_chunks();
    if !odd.is_empty() {
        return Err(refused_at(19, edges.len() as u64, 0));
    }
    // No edge is 0: v is below w.
    let mut before = 0;
    for (index, &[v, w]) in edges.iter().enumerate() {
        let edge = u16::from_be_bytes([v, w]);
        if v >= w || u64::from(w) >= total || edge <= before {
            return Err(refused_at(19, index as u64, 0));
        }
        before = edge;
    }
    Ok(edges)
}

/// A body of no edges, to which each edge adds its bit.
fn write_graph6(list: &[u8], total: u64, output: &mut [u8]) -> Result<Six, Refused> {
    let edges = edges_of(list, total)?;
    let n = total as usize;
    let size = if n <= 62 { 1 } else { 4 };
    let length = size + (n * n.saturating_sub(1) / 2).div_ceil(6);
    let text = output.get_mut(..length).ok_or(refused(18))?;
    let (head, body) = text.split_at_mut(size);
    match head {
        [byte] => *byte = 63 + n as u8,
        _ => head.copy_from_slice(&[126, 63, 63 + (n >> 6) as u8, 63 + (n & 63) as u8]),
    }
    body.fill(63);
    for &[v, w] in edges {
        let place = COLUMN_STARTS[w as usize] + u16::from(v);
        body[place as usize / 6] += 32 >> (place % 6);
    }
    Ok([0, length as u64, 0, 0, 0, 0])
}

/// The size of a text and the bytes behind it, if the size is a good one.
fn size_of(text: &[u8]) -> Result<(usize, &[u8]), Refused> {
    let six = |byte: u8| usize::from(byte - 63);
    match *text {
        [n @ 63..=125, ref body @ ..] => Ok((six(n), body)),
        [126, 126, ..] => Err(refused(22)),
        [126, a @ 63..=125, b @ 63..=126, c @ 63..=126, ref body @ ..] => {
            match six(a) << 12 | six(b) << 6 | six(c) {
                0..=62 => Err(refused(21)),
                n @ 63..=SIDE => Ok((n, body)),
                _ => Err(refused(22)),
            }
        }
        _ => Err(refused(21)),
    }
}

/// Spreads the bits of a body, one byte each. False where a byte is no graph6.
fn spread(body: &[u8], bits: &mut [[u8; 6]]) -> bool {
    for (&byte, six) in body.iter().zip(bits) {
        let n = byte.wrapping_sub(63);
        if n > 63 {
            return false;
        }
        *six = [
            n >> 5,
            n >> 4 & 1,
            n >> 3 & 1,
            n >> 2 & 1,
            n >> 1 & 1,
            n & 1,
        ];
    }
    true
}

/// One byte a pair, column by column, and then row by row: pair (v, w + 1) is w places behind (v,
/// w).
fn read_graph6(text: &[u8], output: &mut [u8]) -> Result<Six, Refused> {
    let (n, body) = size_of(text)?;
    let pairs = n * n.saturating_sub(1) / 2;
    if body.len() != pairs.div_ceil(6) {
        return Err(refused(21));
    }
    let mut sixes = [[0; 6]; MAX_PAIRS.div_ceil(6)];
    let well_formed = spread(body, &mut sixes);
    let (bits, padding) = sixes.as_flattened().split_at(pairs);
    if !well_formed || !all_zero(padding) {
        return Err(refused(21));
    }
    let edges: u16 = bits.iter().map(|&bit| u16::from(bit)).sum();
    let edges = usize::from(edges);
    let list = output.get_mut(..2 * edges).ok_or(refused(18))?;
    let mut list = list.as_chunks_mut().0.iter_mut();
    for v in 0..n.saturating_sub(1) {
        let mut place = COLUMN_STARTS[v + 1] as usize + v;
        for w in v + 1..n {
            if bits[place] != 0 {
                let edge = list.next().expect("as many as were counted");
                *edge = [v as u8, w as u8];
            }
            place += w;
        }
    }
    Ok([0, 2 * edges as u64, n as u64, 0, 0, 0])
}

// Callgrind finds these by their names.

#[no_mangle]
#[inline(never)]
pub fn twin_add_edge(lent: Lent, v: u64, w: u64) -> Nine {
    add(lent, v, w).unwrap_or_else(refusal)
}

#[no_mangle]
#[inline(never)]
pub fn twin_remove_edge(lent: Lent, v: u64, w: u64) -> Six {
    remove(lent, v, w).unwrap_or_else(refusal)
}

#[no_mangle]
#[inline(never)]
pub fn twin_swap_edges(lent: Lent, named: [u64; 4]) -> Six {
    swap::swap_edges(lent, named).unwrap_or_else(refusal)
}

#[no_mangle]
#[inline(never)]
pub fn twin_undo_swap(lent: Lent) -> Six {
    swap::undo_swap(lent).unwrap_or_else(refusal)
}

#[no_mangle]
#[inline(never)]
pub fn twin_complete(lent: Lent, output: &mut [u8]) -> Six {
    fill(lent, output).unwrap_or_else(refusal)
}

#[no_mangle]
#[inline(never)]
pub fn twin_complete_shuffled(lent: Lent, x: u32, output: &mut [u8]) -> Six {
    shuffle::fill_shuffled(lent, x, output).unwrap_or_else(refusal)
}

#[no_mangle]
#[inline(never)]
pub fn twin_graph6_write(edges: &[u8], total: u64, output: &mut [u8]) -> Six {
    write_graph6(edges, total, output).unwrap_or_else(refusal)
}

#[no_mangle]
#[inline(never)]
pub fn twin_graph6_read(text: &[u8], output: &mut [u8]) -> Six {
    read_graph6(text, output).unwrap_or_else(refusal)
}
