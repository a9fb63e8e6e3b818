//! A trie of rows: each level branches by one variable. A cell has a first child and a next sibling.

use crate::task::MARK;

#[derive(Clone, Copy, Default)]
struct Cell {
    child: u32,
    sibling: u32,
    rank: u16,
    byte: u8,
}

pub struct Trie {
    cells: Vec<Cell>,
    variables: usize,
    count: u16,
}

impl Trie {
    /// An empty trie with space for so many rows.
    pub fn new(variables: usize, capacity: usize) -> Self {
        let mut cells = Vec::with_capacity(1 + capacity * variables);
        cells.push(Cell::default());
        Trie {
            cells,
            variables,
            count: 0,
        }
    }

    /// The rank of a kept row that covers this one.
    pub fn cover(&self, row: &[u8]) -> Option<u16> {
        self.look(row, 0, 0)
    }

    fn look(&self, row: &[u8], cell: usize, level: usize) -> Option<u16> {
        if level == self.variables {
            return Some(self.cells[cell].rank);
        }
        let mut at = self.cells[cell].child as usize;
        while at != 0 {
            let branch = self.cells[at];
            if branch.byte == MARK || branch.byte == row[level] {
                if let Some(rank) = self.look(row, at, level + 1) {
                    return Some(rank);
                }
            }
            at = branch.sibling as usize;
        }
        None
    }

    /// Keeps a row that is not kept yet.
    pub fn keep(&mut self, row: &[u8]) {
        let mut cell = 0;
        for &byte in row {
            cell = match self.branch(cell, byte) {
                Some(child) => child,
                None => self.add(cell, byte),
            };
        }
        self.count += 1;
    }

    fn branch(&self, cell: usize, byte: u8) -> Option<usize> {
        let mut at = self.cells[cell].child as usize;
        while at != 0 {
            let branch = &self.cells[at];
            if branch.byte == byte {
                return Some(at);
            }
            at = branch.sibling as usize;
        }
        None
    }

    /// A new branch, in front of the older ones.
    fn add(&mut self, cell: usize, byte: u8) -> usize {
        let at = self.cells.len();
        self.cells.push(Cell {
            child: 0,
            sibling: self.cells[cell].child,
            rank: self.count,
            byte,
        });
        self.cells[cell].child = at as u32;
        at
    }
}
