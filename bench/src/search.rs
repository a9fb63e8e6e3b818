//! Uniform-cost search from the goal, by regression; rows that a kept row covers are left out.

use crate::heap::{Entry, Heap};
use crate::rows::{covers, regress};
use crate::task::{Move, Task};
use crate::trie::Trie;

/// What is noted of a node: its cost, and the node and the move by which its row was met.
struct Record {
    cost: u64,
    parent: u16,
    step: u16,
}

pub enum Ending {
    /// A cheapest plan: its cost and its moves in the order of doing.
    Found(u64, Vec<u16>),
    NoPlan,
    OutOfSpace,
}

/// The nodes, and which of them wait; their rows lie side by side.
struct Nodes {
    rows: Vec<u8>,
    records: Vec<Record>,
    queue: Heap,
    variables: usize,
    capacity: usize,
}

impl Nodes {
    fn new(variables: usize, capacity: usize) -> Self {
        Nodes {
            rows: Vec::with_capacity(variables * capacity),
            records: Vec::with_capacity(capacity),
            queue: Heap::new(capacity),
            variables,
            capacity,
        }
    }

    /// Stores a node, which then waits; tells whether there was space.
    fn add(&mut self, row: &[u8], record: Record) -> bool {
        if self.records.len() >= self.capacity {
            return false;
        }
        self.queue.put(Entry {
            cost: record.cost,
            number: self.records.len() as u16,
        });
        self.rows.extend_from_slice(row);
        self.records.push(record);
        true
    }

    fn row(&self, n: u16) -> &[u8] {
        let from = usize::from(n) * self.variables;
        &self.rows[from..from + self.variables]
    }

    /// The moves from a node to the goal.
    fn plan(&self, mut n: u16) -> Vec<u16> {
        let mut plan = Vec::new();
        while n > 0 {
            let record = &self.records[usize::from(n)];
            plan.push(record.step);
            n = record.parent;
        }
        plan
    }
}

pub fn search(task: &Task, capacity: usize) -> Ending {
    let variables = task.variables();
    let moves: Vec<Move> = task.moves().collect();
    let mut nodes = Nodes::new(variables, capacity);
    let mut kept = Trie::new(variables, capacity);
    let mut result = vec![0; variables];
    let root = Record {
        cost: 0,
        parent: 0,
        step: 0,
    };
    if !nodes.add(task.goal, root) {
        return Ending::OutOfSpace;
    }
    while let Some(Entry { cost, number: n }) = nodes.queue.take() {
        let row = nodes.row(n);
        if kept.cover(row).is_some() {
            continue;
        }
        if covers(row, task.start) {
            return Ending::Found(cost, nodes.plan(n));
        }
        kept.keep(row);
        for (step, m) in moves.iter().enumerate() {
            if !regress(m, nodes.row(n), &mut result) || kept.cover(&result).is_some() {
                continue;
            }
            let record = Record {
                cost: cost + u64::from(m.price),
                parent: n,
                step: step as u16,
            };
            if !nodes.add(&result, record) {
                return Ending::OutOfSpace;
            }
        }
    }
    Ending::NoPlan
}
