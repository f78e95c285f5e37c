//! The past of a priority queue in chunks of 256 rows: of each entry it is kept in which chunk it comes in and in which it is
//! taken. So what is held before each chunk, at one moment for each, is found by going over the entries in their order; and a
//! question performs the rows of one chunk up to its place. An edit goes over the rows of its chunk, and then once over the
//! entries in their order, to find by which one what is held changes at each later moment: edits grow with the history.

use crate::chunk::Chunk;
use crate::lifetimes::{FOREVER, LOWEST, Lifetimes, entered};
use crate::rows::{Entry, Op, Row};
use std::cmp::Reverse;
use std::collections::BinaryHeap;

/// The rows of a chunk that is filled at its end, and the most of any.
const FULL: usize = 256;
const MOST: usize = 512;

pub struct Moments {
    chunks: Vec<Chunk>,
    /// How many rows stand before each chunk, and at last how many there are.
    starts: Vec<u32>,
    lifetimes: Lifetimes,
}

impl Moments {
    pub fn of_rows(rows: &[Row]) -> Moments {
        let mut chunks: Vec<Chunk> = rows.chunks(FULL).map(Chunk::of_rows).collect();
        if chunks.is_empty() {
            chunks.push(Chunk::default());
        }
        let (mut heap, mut lives) = (BinaryHeap::new(), Vec::new());
        for (number, chunk) in chunks.iter().enumerate() {
            for at in 0..chunk.len() {
                if let Some(entry) = chunk.added(at) {
                    heap.push(Reverse((entry, lives.len())));
                    lives.push((entry, entered(number as u16, chunk.leaves(at)), FOREVER));
                } else if let Some(Reverse((_, taken))) = heap.pop() {
                    lives[taken].2 = number as u16;
                }
            }
        }
        lives.sort_unstable();
        let starts = (0..chunks.len()).map(|chunk| (chunk * FULL) as u32);
        Moments {
            starts: starts.chain([rows.len() as u32]).collect(),
            lifetimes: Lifetimes::of_lives(&lives, chunks.len()),
            chunks,
        }
    }

    /// The chunk that holds a place, and the place in it; the last one holds the end of all rows.
    fn spot(&self, place: usize) -> (usize, usize) {
        let chunks = self.chunks.len();
        let after = self.starts[..chunks].partition_point(|start| *start as usize <= place);
        (after - 1, place - self.starts[after - 1] as usize)
    }

    fn shift(&mut self, chunk: usize, rows: i32) {
        for start in &mut self.starts[chunk + 1..] {
            *start = start.wrapping_add_signed(rows);
        }
    }

    /// Marks whether a chunk alone takes an entry of its own, which was otherwise before.
    fn mark(&mut self, chunk: usize, entry: Option<Entry>, is_taken: bool) {
        if let Some(entry) = entry {
            self.chunks[chunk].mark(entry, is_taken);
            self.lifetimes
                .enter(entry, entered(chunk as u16, !is_taken));
        }
    }

    pub fn insert(&mut self, place: usize, row: Row) {
        let (chunk, at) = self.open_end(place);
        match row.op {
            Op::Ins { key } => self.insert_adding(chunk, at, row, (key, row.number)),
            _ => self.insert_taking(chunk, at, row),
        }
        self.shift(chunk, 1);
        if self.chunks[chunk].len() == MOST {
            self.divide(chunk);
        }
    }

    /// The chunk alone has one entry more at its end, of those that follow the last bridge; with what was there before it, that
    /// one or the greatest that the chunk takes, if this is less.
    fn insert_adding(&mut self, chunk: usize, at: usize, row: Row, own: Entry) {
        let (number, rows) = (chunk as u16, &self.chunks[chunk]);
        let left = rows
            .last_bridge(at)
            .map(|from| rows.greatest_taken(from).map_or(own, |most| most.max(own)));
        let taken = self.lifetimes.greatest_taken(number, own, left);
        let is_left = left == Some(own);
        if !is_left {
            self.mark(chunk, left, false);
        }
        self.chunks[chunk].insert(at, row, i8::from(!is_left));
        self.lifetimes.insert(own, entered(number, is_left), number);
        self.lifetimes.gain(number, taken.unwrap_or(own));
    }

    /// The chunk alone has one entry less at its end, of those before the first bridge; with what was there before it, that one
    /// or the least that the chunk leaves, if this is less.
    fn insert_taking(&mut self, chunk: usize, at: usize, row: Row) {
        let left = self.chunks[chunk].least_left(self.chunks[chunk].first_bridge(at));
        self.lose(chunk, left, LOWEST);
        self.chunks[chunk].insert(at, row, -1);
    }

    /// The least entry from one on that a chunk leaves is taken by it, where the chunk alone leaves `left` no more.
    fn lose(&mut self, chunk: usize, left: Option<Entry>, least: Entry) {
        let next = self.lifetimes.least_left(chunk as u16, least);
        self.mark(chunk, left, true);
        if let Some(missed) = left.into_iter().chain(next).min() {
            let end = self.lifetimes.take(missed, chunk as u16);
            self.lifetimes.lose(missed, end);
        }
    }

    pub fn remove(&mut self, place: usize) {
        let (chunk, at) = self.spot(place);
        match self.chunks[chunk].added(at) {
            Some(own) => self.remove_adding(chunk, at, own),
            None => self.remove_taking(chunk, at),
        }
        self.shift(chunk, -1);
        self.chunks[chunk].remove(at);
        if self.chunks[chunk].len() == 0 && self.chunks.len() > 1 {
            self.lifetimes.close(chunk as u16);
            self.chunks.remove(chunk);
            self.starts.remove(chunk);
        }
    }

    fn remove_adding(&mut self, chunk: usize, at: usize, own: Entry) {
        let rows = &self.chunks[chunk];
        let end = self.lifetimes.end(own);
        let left = if rows.leaves(at) {
            None
        } else {
            rows.least_left(rows.first_bridge(at + 1))
        };
        if end as usize == chunk {
            self.lose(chunk, left, own);
        } else {
            self.mark(chunk, left, true);
        }
        self.lifetimes.remove(own);
        if end as usize != chunk {
            self.lifetimes.lose(own, end);
        }
    }

    fn remove_taking(&mut self, chunk: usize, at: usize) {
        let (number, rows) = (chunk as u16, &self.chunks[chunk]);
        let left = rows
            .last_bridge(at)
            .and_then(|from| rows.greatest_taken(from));
        if let Some(taken) = self.lifetimes.greatest_taken(number, LOWEST, left) {
            self.mark(chunk, left, false);
            self.lifetimes.gain(number, taken);
        }
    }

    /// Where a row is put in: in a chunk of its own where it stands behind a full one.
    fn open_end(&mut self, place: usize) -> (usize, usize) {
        let (chunk, at) = self.spot(place);
        if at < FULL || at < self.chunks[chunk].len() || chunk + 1 < self.chunks.len() {
            return (chunk, at);
        }
        self.chunks.push(Chunk::default());
        self.starts.push(place as u32);
        self.lifetimes.append();
        (chunk + 1, 0)
    }

    /// Divides a chunk into halves, which are performed again to find what is taken in the later one.
    fn divide(&mut self, chunk: usize) {
        let number = chunk as u16;
        let later = self.chunks[chunk].half();
        let middle = self.starts[chunk] + self.chunks[chunk].len() as u32;
        self.starts.insert(chunk + 1, middle);
        self.chunks.insert(chunk + 1, later);
        self.lifetimes.open(number);
        for chunk in [chunk, chunk + 1] {
            let rows = &self.chunks[chunk];
            for at in 0..rows.len() {
                if let Some(entry) = rows.added(at) {
                    let entered = entered(chunk as u16, rows.leaves(at));
                    self.lifetimes.enter(entry, entered);
                }
            }
        }
        let mut held = Held::new(self.lifetimes.least_held(number, MOST), MOST);
        held.perform(&self.chunks[chunk], self.chunks[chunk].len());
        for entry in held.perform(&self.chunks[chunk + 1], self.chunks[chunk + 1].len()) {
            self.lifetimes.take(entry, number + 1);
        }
    }

    /// The key at an index of what is held at a place.
    pub fn nth(&mut self, place: usize, index: usize) -> Option<i64> {
        let (chunk, at) = self.spot(place);
        let rows = &self.chunks[chunk];
        let count = (rows.takings(at) + 1).saturating_add(index);
        let mut held = Held::new(self.lifetimes.least_held(chunk as u16, count), count);
        held.perform(rows, at);
        for _ in 0..index {
            held.take()?;
        }
        held.take().map(|entry| entry.0)
    }
}

/// The least entries held before a chunk, the least one last, and what came in since and is less than one of them.
struct Held {
    before: Vec<Entry>,
    most: Option<Entry>,
    fresh: BinaryHeap<Reverse<Entry>>,
}

impl Held {
    /// Over rising entries, which are all there are where they are fewer than so many.
    fn new(mut before: Vec<Entry>, count: usize) -> Held {
        let most = before.last().copied().filter(|_| before.len() == count);
        before.reverse();
        Held {
            before,
            most,
            fresh: BinaryHeap::new(),
        }
    }

    fn take(&mut self) -> Option<Entry> {
        match (self.before.last(), self.fresh.peek()) {
            (Some(old), Some(new)) if *old > new.0 => self.fresh.pop().map(|entry| entry.0),
            (Some(_), _) => self.before.pop(),
            _ => self.fresh.pop().map(|entry| entry.0),
        }
    }

    /// Performs first rows of a chunk, and gives what they take.
    fn perform(&mut self, rows: &Chunk, to: usize) -> Vec<Entry> {
        let mut taken = Vec::new();
        for at in 0..to {
            match rows.added(at) {
                None => taken.extend(self.take()),
                Some(entry) if self.most.is_none_or(|most| entry < most) => {
                    self.fresh.push(Reverse(entry));
                }
                _ => {}
            }
        }
        taken
    }
}
