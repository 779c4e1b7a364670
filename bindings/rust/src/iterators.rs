//! Records, cells and edges, and iterators over them.

use crate::{MAX_DEGREE, RECORD_BYTES};
use std::iter::FusedIterator;
use std::slice::ChunksExact;

/// One record of a block. With degrees k and l, `count` is added to cell (k, l), which is also cell
/// (l, k); with 0 and 0 it is a number of isolated vertices, which are in no cell.
#[derive(Clone, Copy, Debug, PartialEq, Eq, PartialOrd, Ord, Hash)]
pub struct Record {
    pub k: u8,
    pub l: u8,
    pub count: u16,
}

impl Record {
    /// A record. Whether its degrees are good is for the library to say.
    pub fn new(k: u8, l: u8, count: u16) -> Record {
        Record { k, l, count }
    }

    /// The record that adds `count` isolated vertices: vertices without any edge.
    ///
    /// ```
    /// assert_eq!(replica::Record::isolated(3).to_bytes(), [0, 0, 3, 0]);
    /// ```
    pub fn isolated(count: u16) -> Record {
        Record::new(0, 0, count)
    }

    /// Whether it adds isolated vertices, and not to a cell.
    ///
    /// ```
    /// use replica::Record;
    ///
    /// assert!(Record::isolated(0).is_isolated());
    /// assert!(!Record::new(0, 3, 1).is_isolated()); // no good record at all
    /// ```
    pub fn is_isolated(self) -> bool {
        self.k == 0 && self.l == 0
    }

    /// Its 4 bytes: k, l, and the count, low byte first.
    ///
    /// ```
    /// assert_eq!(replica::Record::new(2, 3, 258).to_bytes(), [2, 3, 2, 1]);
    /// ```
    pub fn to_bytes(self) -> [u8; RECORD_BYTES] {
        let [low, high] = self.count.to_le_bytes();
        [self.k, self.l, low, high]
    }
}

/// The bytes of a block with these records.
///
/// ```
/// use replica::Record;
///
/// let bytes = replica::block(&[Record::new(1, 1, 2), Record::new(2, 3, 6)]);
/// assert_eq!(bytes, [1, 1, 2, 0, 2, 3, 6, 0]);
/// ```
pub fn block(records: &[Record]) -> Vec<u8> {
    records
        .iter()
        .flat_map(|record| record.to_bytes())
        .collect()
}

/// The records of a block, or of what [`jdm_of_edges`](crate::jdm_of_edges) wrote. Bytes after the
/// last whole record are left out.
///
/// ```
/// use replica::{Record, Records};
///
/// let records: Vec<Record> = Records::new(&[0, 0, 5, 0, 1, 1, 2, 0, 2, 3, 6, 0]).collect();
/// let expected = [Record::isolated(5), Record::new(1, 1, 2), Record::new(2, 3, 6)];
/// assert_eq!(records, expected);
/// ```
#[derive(Clone, Debug)]
pub struct Records<'a> {
    chunks: ChunksExact<'a, u8>,
}

impl<'a> Records<'a> {
    pub fn new(bytes: &'a [u8]) -> Records<'a> {
        Records {
            chunks: bytes.chunks_exact(RECORD_BYTES),
        }
    }
}

impl Iterator for Records<'_> {
    type Item = Record;

    fn next(&mut self) -> Option<Record> {
        let bytes = self.chunks.next()?;
        let count = u16::from_le_bytes([bytes[2], bytes[3]]);
        Some(Record::new(bytes[0], bytes[1], count))
    }

    fn size_hint(&self) -> (usize, Option<usize>) {
        self.chunks.size_hint()
    }
}

impl ExactSizeIterator for Records<'_> {}
impl FusedIterator for Records<'_> {}

/// One cell of a joint degree matrix. A sum of records may pass 16 bits.
#[derive(Clone, Copy, Debug, PartialEq, Eq, PartialOrd, Ord, Hash)]
pub struct Cell {
    pub k: u8,
    pub l: u8,
    pub count: u64,
}

/// The non-zero cells (k, l) with k at most l of a sum of records, ascending, and the isolated
/// vertices beside them.
///
/// ```
/// use replica::{Cell, Cells, Record};
///
/// let records = [Record::new(2, 3, 4), Record::isolated(7), Record::new(1, 1, 2)];
/// let cells = Cells::of(records.into_iter().chain([Record::new(2, 3, 2)]));
/// assert_eq!(cells.isolated(), 7);
/// let expected = [Cell { k: 1, l: 1, count: 2 }, Cell { k: 2, l: 3, count: 6 }];
/// assert_eq!(cells.collect::<Vec<Cell>>(), expected);
/// ```
#[derive(Clone, Debug)]
pub struct Cells {
    sums: Vec<Cell>,
    isolated: u64,
    next: usize,
}

impl Cells {
    /// Sums the records. Those that the library would not take are left out: a degree outside 1 to
    /// 40, save in the pair 0, 0, or k above l.
    pub fn of(records: impl IntoIterator<Item = Record>) -> Cells {
        let mut isolated = 0;
        let mut sums = Vec::new();
        for k in 1..=MAX_DEGREE as u8 {
            for l in k..=MAX_DEGREE as u8 {
                sums.push(Cell { k, l, count: 0 });
            }
        }
        for record in records {
            let same = |cell: &&mut Cell| (cell.k, cell.l) == (record.k, record.l);
            if record.is_isolated() {
                isolated += u64::from(record.count);
            } else if let Some(cell) = sums.iter_mut().find(same) {
                cell.count += u64::from(record.count);
            }
        }
        sums.retain(|cell| cell.count > 0);
        Cells {
            sums,
            isolated,
            next: 0,
        }
    }

    /// How many isolated vertices the records add up to. It does not change as cells are taken.
    pub fn isolated(&self) -> u64 {
        self.isolated
    }
}

impl Iterator for Cells {
    type Item = Cell;

    fn next(&mut self) -> Option<Cell> {
        let cell = self.sums.get(self.next).copied()?;
        self.next += 1;
        Some(cell)
    }

    fn size_hint(&self) -> (usize, Option<usize>) {
        let left = self.sums.len() - self.next;
        (left, Some(left))
    }
}

impl ExactSizeIterator for Cells {}
impl FusedIterator for Cells {}

/// The edges (v, w) of an edge list, v below w, ascending.
///
/// ```
/// use replica::Edges;
///
/// let edges: Vec<(u8, u8)> = Edges::new(vec![0, 3, 1, 2]).collect();
/// assert_eq!(edges, [(0, 3), (1, 2)]);
/// ```
#[derive(Clone, Debug)]
pub struct Edges {
    bytes: Vec<u8>,
    next: usize,
}

impl Edges {
    /// The edges in the bytes of an edge list; a last odd byte is left out.
    pub fn new(bytes: Vec<u8>) -> Edges {
        Edges { bytes, next: 0 }
    }

    /// The bytes of the whole list, as [`jdm_of_edges`](crate::jdm_of_edges) and
    /// [`graph6_write`](crate::graph6_write) take them.
    pub fn as_bytes(&self) -> &[u8] {
        &self.bytes
    }
}

impl Iterator for Edges {
    type Item = (u8, u8);

    fn next(&mut self) -> Option<(u8, u8)> {
        let pair = self.bytes.get(self.next..self.next + 2)?;
        self.next += 2;
        Some((pair[0], pair[1]))
    }

    fn size_hint(&self) -> (usize, Option<usize>) {
        let left = (self.bytes.len() - self.next) / 2;
        (left, Some(left))
    }
}

impl ExactSizeIterator for Edges {}
impl FusedIterator for Edges {}
