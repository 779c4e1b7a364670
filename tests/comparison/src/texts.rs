//! What the library writes and reads as graph6: each text written is read again and each text read
//! is written again, every list is surveyed too, and all of it is counted by kind.

use crate::call::{Call, Memory};
use reference::graph6;
use reference::graphs::pairs;
use reference::numbers::Numbers;
use replica::raw::{self, ReplicaAnswer};
use replica::{MAX_RECORDS, RECORD_BYTES};

named_counts! {
    /// Calls that write and read graph6, by what they were given.
    Texts {
        /// Written, the size in one byte.
        short: "written short",
        /// Written, the size in four bytes.
        long: "written long",
        /// Written, although a survey refuses it with 20.
        high: "degree over 40",
        /// Lists refused with 19, by the first of the checks that fails.
        total: "total over 200",
        odd: "odd list",
        edge: "bad edge",
        /// Read, the size in one byte.
        short_read: "read short",
        /// Read, the size in four bytes.
        long_read: "read long",
        /// Texts refused with 21.
        empty: "empty",
        header: "header",
        line_end: "line end",
        outside: "byte outside",
        without_need: "long without need",
        other_length: "other length",
        padding: "padding",
        /// Texts refused with 22: byte 126 twice.
        twice: "126 twice",
        /// Texts refused with 22: a size above 200, and only bytes of graph6 behind it.
        above: "size above 200",
        /// The same with other bytes behind it.
        whatever: "above 200, other bytes",
        /// Outputs of either call that were just long enough, longer, or a byte short.
        just_enough: "just enough room",
        more: "more room",
        a_byte_short: "a byte short",
    }
}

/// Whether graph6 has no such byte.
fn outside(byte: &u8) -> bool {
    !(63..=126).contains(byte)
}

/// The number of bytes that a graph's text has.
pub fn text_length(vertices: usize) -> usize {
    let size = if vertices <= 62 { 1 } else { 4 };
    size + pairs(vertices).div_ceil(6)
}

/// The size that a text says; none where it is too short to say one.
fn size(text: &[u8]) -> Option<usize> {
    let six = |byte: u8| usize::from(byte - 63);
    match *text {
        [126, a, b, c, ..] => Some(six(a) << 12 | six(b) << 6 | six(c)),
        [126, ..] | [] => None,
        [n, ..] => Some(six(n)),
    }
}

impl Texts {
    /// Counts a call, and has the library do the reverse of what it did: the same bytes come out,
    /// or it is said what is wrong.
    pub fn follow(&mut self, call: &Call, numbers: &Numbers, after: &Memory) -> Result<(), String> {
        match call {
            Call::Graph6Write { total, .. } => self.writing(*total, numbers, after),
            Call::Graph6Read { .. } => self.reading(numbers, after),
            _ => Ok(()),
        }
    }

    fn writing(&mut self, total: u64, numbers: &Numbers, after: &Memory) -> Result<(), String> {
        let edges = &after.input;
        let surveyed = surveyed_alike(edges, total, numbers)?;
        match numbers[0] {
            0 => {
                let text = &after.output[..numbers[1] as usize];
                match total {
                    ..=62 => self.short += 1,
                    _ => self.long += 1,
                }
                self.high += u64::from(surveyed.number == 20);
                self.room(text.len(), after.output.len());
                read_again(text, edges, total)
            }
            19 => {
                *self.list_refused(edges, total) += 1;
                Ok(())
            }
            _ => {
                let needed = text_length(total as usize);
                self.a_byte_short += u64::from(after.output.len() + 1 == needed);
                Ok(())
            }
        }
    }

    fn reading(&mut self, numbers: &Numbers, after: &Memory) -> Result<(), String> {
        let text = &after.input;
        match numbers[0] {
            0 => {
                let edges = &after.output[..numbers[1] as usize];
                match text[0] {
                    126 => self.long_read += 1,
                    _ => self.short_read += 1,
                }
                self.room(edges.len(), after.output.len());
                return written_again(edges, numbers[2], text);
            }
            21 => *self.malformed(text) += 1,
            22 => *self.too_large(text) += 1,
            _ => {
                let needed = graph6::graph(text).map_or(0, |graph| graph.edge_list().len());
                self.a_byte_short += u64::from(after.output.len() + 1 == needed);
            }
        }
        Ok(())
    }

    /// Counts a call that did its work, by its output.
    fn room(&mut self, written: usize, output: usize) {
        if written > 0 && written == output {
            self.just_enough += 1;
        }
        self.more += u64::from(written < output);
    }

    fn list_refused(&mut self, edges: &[u8], total: u64) -> &mut u64 {
        match edges.len() % 2 {
            _ if total > 200 => &mut self.total,
            1 => &mut self.odd,
            _ => &mut self.edge,
        }
    }

    fn malformed(&mut self, text: &[u8]) -> &mut u64 {
        match text {
            [] => &mut self.empty,
            [b'>', b'>', b'g', ..] => &mut self.header,
            [line @ .., b'\n'] if !line.iter().any(outside) => &mut self.line_end,
            _ if text.iter().any(outside) => &mut self.outside,
            [126, 63, 63, 63..=125, ..] => &mut self.without_need,
            _ if size(text).is_some_and(|n| text_length(n) == text.len()) => &mut self.padding,
            _ => &mut self.other_length,
        }
    }

    fn too_large(&mut self, text: &[u8]) -> &mut u64 {
        match text {
            [126, 126, ..] => &mut self.twice,
            _ if text.iter().any(outside) => &mut self.whatever,
            _ => &mut self.above,
        }
    }
}

/// A survey of the same list is refused with 19 exactly where writing it is, at the same place.
fn surveyed_alike(edges: &[u8], total: u64, numbers: &Numbers) -> Result<ReplicaAnswer, String> {
    let mut records = [0; RECORD_BYTES * MAX_RECORDS];
    let surveyed = raw::jdm_of_edges(edges, total, &mut records);
    let alike = match surveyed.number {
        19 => *numbers == surveyed.numbers(),
        _ => numbers[0] != 19,
    };
    if !alike {
        return Err(format!("{numbers:?}, but the survey answers {surveyed:?}"));
    }
    Ok(surveyed)
}

/// A text that was written is read as the same edges and total, in no more room than they need.
fn read_again(text: &[u8], edges: &[u8], total: u64) -> Result<(), String> {
    let mut output = vec![0; edges.len()];
    let answer = raw::graph6_read(text, &mut output);
    if answer.numbers() != [0, edges.len() as u64, total, 0, 0, 0] || output != edges {
        return Err(format!("read again, the text gives {answer:?}, {output:?}"));
    }
    Ok(())
}

/// Edges and total that were read are written as the same text, in no more room than it needs.
fn written_again(edges: &[u8], total: u64, text: &[u8]) -> Result<(), String> {
    let mut output = vec![0; text.len()];
    let answer = raw::graph6_write(edges, total, &mut output);
    if answer.numbers() != [0, text.len() as u64, 0, 0, 0, 0] || output != text {
        return Err(format!(
            "written again, the edges give {answer:?}, {output:?}"
        ));
    }
    Ok(())
}

#[cfg(test)]
mod tests {
    use super::*;

    const EDGES: [u8; 8] = [0, 3, 1, 2, 1, 3, 2, 3];

    fn follow(call: Call, numbers: [u64; 6], output: &[u8]) -> Result<(), String> {
        let mut after = Memory::of(&[], &[], &[], &call);
        after.output = output.to_vec();
        Texts::default().follow(&call, &Numbers::Six(numbers), &after)
    }

    /// Four edges among four vertices written as CN, and answers that say otherwise.
    #[test]
    fn wrong_texts_are_noticed() {
        let write = |total, numbers, text: &[u8]| {
            let (edges, output) = (EDGES.to_vec(), text.to_vec());
            let call = Call::Graph6Write {
                edges,
                total,
                output,
            };
            follow(call, numbers, text)
        };
        assert_eq!(write(4, [0, 2, 0, 0, 0, 0], b"CN"), Ok(()));
        assert!(write(4, [0, 2, 0, 0, 0, 0], b"C^").is_err());
        assert!(write(4, [0, 1, 0, 0, 0, 0], b"CN").is_err());
        assert!(write(4, [0, 3, 0, 0, 0, 0], b"CN\n").is_err());
        assert!(write(5, [0, 2, 0, 0, 0, 0], b"CN").is_err());
        assert!(write(4, [19, 0, 0, 0, 0, 0], b"CN").is_err());
        assert_eq!(write(3, [19, 0, 0, 0, 0, 0], b"CN"), Ok(()));
        assert!(write(3, [19, 1, 0, 0, 0, 0], b"CN").is_err());
        assert!(write(3, [18, 0, 0, 0, 0, 0], b"CN").is_err());
    }

    /// CN read, and answers that say otherwise.
    #[test]
    fn wrong_edges_are_noticed() {
        let read = |numbers, edges: &[u8]| {
            let (text, output) = (b"CN".to_vec(), edges.to_vec());
            follow(Call::Graph6Read { text, output }, numbers, edges)
        };
        let (mut turned, mut another) = (EDGES, EDGES);
        turned.rotate_left(2);
        another[1] = 2;
        assert_eq!(read([0, 8, 4, 0, 0, 0], &EDGES), Ok(()));
        assert!(read([0, 8, 4, 0, 0, 0], &turned).is_err());
        assert!(read([0, 8, 4, 0, 0, 0], &another).is_err());
        assert!(read([0, 6, 4, 0, 0, 0], &EDGES).is_err());
        assert!(read([0, 8, 5, 0, 0, 0], &EDGES).is_err());
        assert!(read([0, 8, 0, 0, 0, 0], &EDGES).is_err());
    }
}
