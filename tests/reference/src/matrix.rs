//! The joint degree matrix (document 01: the table).

use crate::{refused_at, Refused, MAX_DEGREE};

/// Cell (k, l) counts the edges between a vertex of degree k and one of degree l; cell (k, k)
/// counts each of its edges twice. Row and column 0 are unused and stay 0.
#[derive(Clone, Debug, PartialEq, Eq, PartialOrd, Ord)]
pub struct Matrix {
    cells: [[u64; MAX_DEGREE + 1]; MAX_DEGREE + 1],
}

impl Default for Matrix {
    fn default() -> Matrix {
        Matrix::new()
    }
}

impl Matrix {
    /// All cells 0.
    pub fn new() -> Matrix {
        Matrix {
            cells: [[0; MAX_DEGREE + 1]; MAX_DEGREE + 1],
        }
    }

    /// A matrix with the named cells, all others 0.
    pub fn of(cells: &[(usize, usize, u64)]) -> Matrix {
        let mut matrix = Matrix::new();
        for &(k, l, count) in cells {
            matrix.add(k, l, count);
        }
        matrix
    }

    pub fn cell(&self, k: usize, l: usize) -> u64 {
        self.cells[k][l]
    }

    /// Adds to cell (k, l), which is also cell (l, k).
    pub fn add(&mut self, k: usize, l: usize, count: u64) {
        self.cells[k][l] += count;
        if k != l {
            self.cells[l][k] += count;
        }
    }

    /// Counts one edge between vertices of degrees k and l: once from each of its ends.
    pub fn add_edge(&mut self, k: usize, l: usize) {
        self.cells[k][l] += 1;
        self.cells[l][k] += 1;
    }

    /// Takes one edge back that [`Matrix::add_edge`] counted.
    pub fn take_edge(&mut self, k: usize, l: usize) {
        self.cells[k][l] -= 1;
        self.cells[l][k] -= 1;
    }

    /// S(k), the sum of row k.
    pub fn row_sum(&self, k: usize) -> u64 {
        self.cells[k].iter().sum()
    }

    /// D(k), the number of vertices of degree k.
    pub fn vertices_of_degree(&self, k: usize) -> u64 {
        self.row_sum(k) / k as u64
    }

    /// The number of edges: half the sum of all cells, (k, l) and (l, k) both counted.
    pub fn edge_count(&self) -> u64 {
        let sum: u64 = (1..=MAX_DEGREE).map(|k| self.row_sum(k)).sum();
        sum / 2
    }

    /// The largest count that cell (k, l) can have in a simple graph.
    pub fn most(&self, k: usize, l: usize) -> u64 {
        let of_k = self.vertices_of_degree(k);
        let of_l = self.vertices_of_degree(l);
        if k != l {
            of_k * of_l
        } else if of_k == 0 {
            0
        } else {
            of_k * (of_k - 1)
        }
    }

    /// Tests 9 to 11, each over all cells before the next begins.
    pub fn check_realizable(&self) -> Result<(), Refused> {
        for k in 1..=MAX_DEGREE {
            if self.cell(k, k) % 2 != 0 {
                return Err(refused_at(9, k as u64, k as u64));
            }
        }
        for k in 1..=MAX_DEGREE {
            if self.row_sum(k) % k as u64 != 0 {
                return Err(refused_at(10, k as u64, 0));
            }
        }
        for k in 1..=MAX_DEGREE {
            for l in k..=MAX_DEGREE {
                if self.cell(k, l) > self.most(k, l) {
                    return Err(refused_at(11, k as u64, l as u64));
                }
            }
        }
        Ok(())
    }

    /// The non-zero cells (k, l, count) with k at most l, ascending.
    pub fn nonzero_cells(&self) -> Vec<(usize, usize, u64)> {
        let mut cells = Vec::new();
        for k in 1..=MAX_DEGREE {
            for l in k..=MAX_DEGREE {
                if self.cell(k, l) != 0 {
                    cells.push((k, l, self.cell(k, l)));
                }
            }
        }
        cells
    }
}
