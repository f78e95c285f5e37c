//! Entries in rising order, in chunks of up to 256, so that an edit moves few of them.

use crate::rows::Entry;

/// The most entries of a chunk, how few it has where it is joined with another, and how many both may have then.
const MOST: usize = 256;
const FEW: usize = 64;
const JOINED: usize = 192;

pub struct EntryList {
    chunks: Vec<Vec<Entry>>,
    /// How many entries stand before each chunk, and at last how many there are.
    starts: Vec<u32>,
}

impl EntryList {
    pub fn of_entries(entries: &[Entry]) -> EntryList {
        let size = if entries.len() > MOST {
            MOST * 3 / 4
        } else {
            MOST
        };
        let mut list = EntryList {
            chunks: entries.chunks(size).map(<[Entry]>::to_vec).collect(),
            starts: vec![0],
        };
        if list.chunks.is_empty() {
            list.chunks.push(Vec::new());
        }
        list.count_from(0);
        list
    }

    /// Counts anew what stands behind each chunk from one on.
    fn count_from(&mut self, chunk: usize) {
        self.starts.truncate(chunk + 1);
        let mut start = self.starts[chunk];
        for chunk in &self.chunks[chunk..] {
            start += chunk.len() as u32;
            self.starts.push(start);
        }
    }

    pub fn len(&self) -> usize {
        self.starts[self.chunks.len()] as usize
    }

    pub fn get(&self, rank: usize) -> Option<Entry> {
        let chunk = self.starts[1..].partition_point(|start| *start as usize <= rank);
        let start = self.starts[chunk] as usize;
        self.chunks.get(chunk)?.get(rank - start).copied()
    }

    /// The chunk in which an entry stands or would, and its place there.
    fn spot(&self, entry: Entry) -> (usize, usize) {
        let chunk = self.chunks[1..].partition_point(|chunk| chunk[0] <= entry);
        let at = self.chunks[chunk].partition_point(|other| *other < entry);
        (chunk, at)
    }

    /// How many entries come before one.
    pub fn before(&self, entry: Entry) -> usize {
        let (chunk, at) = self.spot(entry);
        self.starts[chunk] as usize + at
    }

    pub fn iter(&self) -> impl Iterator<Item = Entry> {
        self.chunks.iter().flatten().copied()
    }

    pub fn insert(&mut self, entry: Entry) {
        let (chunk, at) = self.spot(entry);
        let entries = &mut self.chunks[chunk];
        if entries.len() == entries.capacity() {
            entries.reserve_exact(entries.len() / 8 + 1);
        }
        entries.insert(at, entry);
        if entries.len() > MOST {
            let half = entries.split_off(MOST / 2);
            self.chunks.insert(chunk + 1, half);
            self.count_from(chunk);
        } else {
            self.starts[chunk + 1..]
                .iter_mut()
                .for_each(|start| *start += 1);
        }
    }

    pub fn remove(&mut self, entry: Entry) {
        let (chunk, at) = self.spot(entry);
        self.chunks[chunk].remove(at);
        self.starts[chunk + 1..]
            .iter_mut()
            .for_each(|start| *start -= 1);
        if self.chunks[chunk].len() < FEW && self.chunks.len() > 1 {
            self.join(chunk.min(self.chunks.len() - 2));
        }
    }

    /// Joins a chunk with the next one, where they are small enough or one of them is empty.
    fn join(&mut self, chunk: usize) {
        let (one, other) = (self.chunks[chunk].len(), self.chunks[chunk + 1].len());
        if one.min(other) == 0 || one + other <= JOINED {
            let next = self.chunks.remove(chunk + 1);
            self.chunks[chunk].extend(next);
            self.starts.remove(chunk + 1);
        }
    }
}
