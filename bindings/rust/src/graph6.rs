//! McKay's graph6: a graph as one line of text.

use crate::{raw, Refusal, State, MAX_GRAPH6_BYTES};

/// Writes an edge list among `total` vertices as graph6 and returns the written length. The list
/// has 2 bytes an edge, v below w below the total, ascending; the total is 200 at most; degrees
/// over 40 are written too. [`MAX_GRAPH6_BYTES`] bytes of output always do. No line end is written.
///
/// ```
/// use replica::{graph6_write, Cause};
///
/// let mut output = [9; 4];
/// assert_eq!(graph6_write(&[0, 3, 1, 2, 1, 3, 2, 3], 4, &mut output), Ok(2));
/// assert_eq!(output, *b"CN\x09\x09");
///
/// let refusal = graph6_write(&[0, 3, 2, 1], 4, &mut output).unwrap_err();
/// assert_eq!((refusal.cause, refusal.places), (Cause::BadEdgeList, (1, 0)));
/// let refusal = graph6_write(&[], 4, &mut output[..1]).unwrap_err();
/// assert_eq!(refusal.cause, Cause::OutputTooShort);
/// ```
pub fn graph6_write(edges: &[u8], total: u64, output: &mut [u8]) -> Result<usize, Refusal> {
    let answer = raw::graph6_write(edges, total, output);
    Ok(Refusal::unless_done(answer)?.first as usize)
}

/// Reads a graph6 text, without a header and without a line end, and writes its edges as an edge
/// list, ascending. Returns the written length and the total of vertices. Two bytes for each of
/// [`MAX_PAIRS`](crate::MAX_PAIRS), 39,800, always do.
///
/// ```
/// use replica::{graph6_read, graph6_write, Cause};
///
/// let mut edges = [0; 16];
/// let (length, total) = graph6_read(b"CN", &mut edges).unwrap();
/// assert_eq!((&edges[..length], total), (&[0, 3, 1, 2, 1, 3, 2, 3][..], 4));
///
/// // What is read is written as the same text.
/// let mut text = [0; 2];
/// assert_eq!(graph6_write(&edges[..length], total, &mut text), Ok(2));
/// assert_eq!(text, *b"CN");
///
/// assert_eq!(graph6_read(b"CN\n", &mut edges).unwrap_err().cause, Cause::Graph6Text);
/// assert_eq!(graph6_read(b"~?BH", &mut edges).unwrap_err().cause, Cause::Graph6Size); // 201
/// ```
pub fn graph6_read(text: &[u8], output: &mut [u8]) -> Result<(usize, u64), Refusal> {
    let answer = Refusal::unless_done(raw::graph6_read(text, output))?;
    Ok((answer.first as usize, answer.second))
}

impl State {
    /// The edges laid so far as graph6: one line of text, without its end.
    ///
    /// ```
    /// # use replica::State;
    /// let mut state = State::new();
    /// state.take_block(0, &[1, 3, 1, 0, 2, 2, 2, 0, 2, 3, 2, 0]).unwrap();
    /// state.lay_out().unwrap();
    /// assert_eq!(state.graph6().unwrap(), "C?"); // four vertices, no edge yet
    /// state.complete().unwrap();
    /// assert_eq!(state.graph6().unwrap(), "CN");
    /// ```
    pub fn graph6(&self) -> Result<String, Refusal> {
        let edges = self.edges()?;
        let total = self.figures()?.vertices;
        let mut text = vec![0; MAX_GRAPH6_BYTES];
        let length = graph6_write(edges.as_bytes(), total, &mut text)?;
        text.truncate(length);
        // Bytes from 63 to 126.
        Ok(text.into_iter().map(char::from).collect())
    }
}
