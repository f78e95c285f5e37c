//! Neighbouring rows of a priority queue, which can be performed without those before them: what finds nothing then is let be.

use crate::rows::{Entry, Op, Row};
use std::cmp::Reverse;
use std::collections::BinaryHeap;

/// The entry of each row, whose key says nothing where the row takes; and what the row adds to the number of entries that are
/// going to be taken, if the rows of this chunk are performed alone.
#[derive(Default)]
pub struct Chunk {
    entries: Vec<Entry>,
    adds: Vec<i8>,
}

impl Chunk {
    pub fn of_rows(rows: &[Row]) -> Chunk {
        let mut chunk = Chunk::default();
        rows.iter()
            .for_each(|row| chunk.insert(chunk.len(), *row, 0));
        chunk.perform();
        chunk
    }

    pub fn len(&self) -> usize {
        self.entries.len()
    }

    /// What a row puts in, if it does not take.
    pub fn added(&self, at: usize) -> Option<Entry> {
        (self.adds[at] >= 0).then_some(self.entries[at])
    }

    /// Whether the rows of this chunk alone leave what a row puts in.
    pub fn leaves(&self, at: usize) -> bool {
        self.adds[at] == 0
    }

    pub fn insert(&mut self, at: usize, row: Row, adds: i8) {
        let (key, adds) = match row.op {
            Op::Ins { key } => (key, adds),
            _ => (0, -1),
        };
        self.entries.insert(at, (key, row.number));
        self.adds.insert(at, adds);
    }

    pub fn remove(&mut self, at: usize) {
        self.entries.remove(at);
        self.adds.remove(at);
    }

    /// Keeps the first half of the rows, and gives the other.
    pub fn half(&mut self) -> Chunk {
        let at = self.len() / 2;
        let mut half = Chunk {
            entries: self.entries.split_off(at),
            adds: self.adds.split_off(at),
        };
        self.perform();
        half.perform();
        half
    }

    /// Marks whether this chunk alone takes an entry of its own.
    pub fn mark(&mut self, entry: Entry, is_taken: bool) {
        if let Some(at) = self.entries.iter().position(|other| *other == entry) {
            self.adds[at] = i8::from(is_taken);
        }
    }

    /// Performs the rows, and marks what they take.
    fn perform(&mut self) {
        let mut heap = BinaryHeap::new();
        for at in 0..self.len() {
            if let Some(entry) = self.added(at) {
                self.adds[at] = 0;
                heap.push(Reverse((entry, at)));
            } else if let Some(Reverse((_, taken))) = heap.pop() {
                self.adds[taken] = 1;
            }
        }
    }

    /// How many of the first rows take.
    pub fn takings(&self, to: usize) -> usize {
        self.adds[..to].iter().filter(|adds| **adds < 0).count()
    }

    /// How many entries are there at a place that this chunk alone takes: as many as the rows from there on take beyond those
    /// that they put in.
    fn open(&self, at: usize) -> i32 {
        -self.adds[at..]
            .iter()
            .map(|adds| i32::from(*adds))
            .sum::<i32>()
    }

    /// The last place up to one at which nothing is there that this chunk alone takes.
    pub fn last_bridge(&self, to: usize) -> Option<usize> {
        let (mut open, mut at) = (self.open(to), to);
        while open != 0 {
            at = at.checked_sub(1)?;
            open -= i32::from(self.adds[at]);
        }
        Some(at)
    }

    /// The first such place from one on.
    pub fn first_bridge(&self, from: usize) -> usize {
        let (mut open, mut at) = (self.open(from), from);
        while open != 0 {
            open += i32::from(self.adds[at]);
            at += 1;
        }
        at
    }

    /// The greatest entry from a place on that this chunk alone takes.
    pub fn greatest_taken(&self, from: usize) -> Option<Entry> {
        let rows = from..self.len();
        let taken = rows.filter(|at| self.adds[*at] > 0);
        taken.map(|at| self.entries[at]).max()
    }

    /// The least entry before a place that this chunk alone leaves.
    pub fn least_left(&self, to: usize) -> Option<Entry> {
        let left = (0..to).filter(|at| self.adds[*at] == 0);
        left.map(|at| self.entries[at]).min()
    }
}
