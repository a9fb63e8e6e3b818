//! A queue of nodes as a binary heap.

/// A waiting node: its cost and its number. Ties in cost go to the lower number.
#[derive(Clone, Copy, PartialEq, Eq, PartialOrd, Ord)]
pub struct Entry {
    pub cost: u64,
    pub number: u16,
}

pub struct Heap {
    entries: Vec<Entry>,
}

impl Heap {
    pub fn new(capacity: usize) -> Self {
        Heap {
            entries: Vec::with_capacity(capacity),
        }
    }

    pub fn put(&mut self, entry: Entry) {
        let mut at = self.entries.len();
        self.entries.push(entry);
        while at > 0 {
            let up = (at - 1) / 2;
            if self.entries[at] >= self.entries[up] {
                return;
            }
            self.entries.swap(at, up);
            at = up;
        }
    }

    /// Takes the least entry out.
    pub fn take(&mut self) -> Option<Entry> {
        let last = self.entries.pop()?;
        let Some(first) = self.entries.first_mut() else {
            return Some(last);
        };
        let taken = std::mem::replace(first, last);
        self.sift_down();
        Some(taken)
    }

    fn sift_down(&mut self) {
        let mut at = 0;
        loop {
            let mut child = 2 * at + 1;
            if child >= self.entries.len() {
                return;
            }
            if child + 1 < self.entries.len() && self.entries[child + 1] < self.entries[child] {
                child += 1;
            }
            if self.entries[child] >= self.entries[at] {
                return;
            }
            self.entries.swap(at, child);
            at = child;
        }
    }
}
