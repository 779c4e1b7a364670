//! The degree table: a joint degree matrix and, beside it, how many vertices are isolated
//! (document 02, P1: idle boards). Isolated vertices are in no cell.

use crate::journal::record;
use crate::{refused, Matrix, Refused, MAX_DEGREE, MAX_VERTICES};

#[derive(Clone, Debug, Default, PartialEq, Eq, PartialOrd, Ord)]
pub struct Table {
    pub matrix: Matrix,
    pub isolated: u64,
}

impl Table {
    pub fn new(matrix: Matrix, isolated: u64) -> Table {
        Table { matrix, isolated }
    }

    /// A table with the named cells and so many isolated vertices.
    pub fn of(cells: &[(usize, usize, u64)], isolated: u64) -> Table {
        Table::new(Matrix::of(cells), isolated)
    }

    /// N, the number of vertices: the isolated ones and all D(k).
    pub fn vertex_count(&self) -> u64 {
        let of_degree = |k| self.matrix.vertices_of_degree(k);
        self.isolated + (1..=MAX_DEGREE).map(of_degree).sum::<u64>()
    }

    /// Tests 9 to 12; the number of vertices when they all pass.
    pub fn check(&self) -> Result<u64, Refused> {
        self.matrix.check_realizable()?;
        let vertices = self.vertex_count();
        if vertices > MAX_VERTICES as u64 {
            return Err(refused(12));
        }
        Ok(vertices)
    }

    /// The degree of each vertex: vertices are numbered by rising degree, the isolated ones first.
    /// Meant for a table that passes [`Table::check`].
    pub fn degrees(&self) -> Vec<usize> {
        let mut degrees = vec![0; self.isolated as usize];
        for k in 1..=MAX_DEGREE {
            for _ in 0..self.matrix.vertices_of_degree(k) {
                degrees.push(k);
            }
        }
        degrees
    }

    /// The isolated vertices, where there are some, and the non-zero cells, as records. Meant for
    /// counts of 16 bits.
    pub fn records(&self) -> Vec<u8> {
        let mut bytes = Vec::new();
        if self.isolated > 0 {
            bytes.extend(record(0, 0, self.isolated));
        }
        for (k, l, count) in self.matrix.nonzero_cells() {
            bytes.extend(record(k, l, count));
        }
        bytes
    }
}
