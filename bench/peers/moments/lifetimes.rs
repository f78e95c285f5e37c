//! The entries of all rows of a priority queue in rising order, each with the chunk of rows in which it comes in and the one
//! in which it is taken: two numbers, which say before which chunks it is held. An edit hands ends on from entry to entry.

use crate::rows::Entry;

/// The end of an entry that is never taken.
pub const FOREVER: u16 = u16::MAX;
/// What no entry is less than.
pub const LOWEST: Entry = (i64::MIN, 0);

/// The most entries of a block, and how many of them are tested at once.
const MOST: usize = 256;
const GROUP: usize = 8;

/// When an entry takes part: twice the chunk of its row, and one more where the rows of that chunk alone leave it, so that it
/// can be taken from the next chunk on.
pub fn entered(chunk: u16, is_left: bool) -> u16 {
    2 * chunk + u16::from(is_left)
}

/// Neighbours in the order of entries. No end but `FOREVER` is later than `latest`.
struct Block {
    entries: Vec<Entry>,
    entered: Vec<u16>,
    ends: Vec<u16>,
    latest: u16,
}

impl Block {
    fn empty() -> Block {
        Block {
            entries: Vec::with_capacity(MOST),
            entered: Vec::with_capacity(MOST),
            ends: Vec::with_capacity(MOST),
            latest: 0,
        }
    }

    fn of_lives(lives: &[(Entry, u16, u16)]) -> Block {
        let mut block = Block::empty();
        for (entry, entered, end) in lives {
            block.entries.push(*entry);
            block.entered.push(*entered);
            block.ends.push(*end);
        }
        block.settle();
        block
    }

    fn insert(&mut self, index: usize, entry: Entry, entered: u16, end: u16) {
        self.entries.insert(index, entry);
        self.entered.insert(index, entered);
        self.ends.insert(index, end);
        self.settle();
    }

    fn remove(&mut self, index: usize) {
        self.entries.remove(index);
        self.entered.remove(index);
        self.ends.remove(index);
        self.settle();
    }

    fn settle(&mut self) {
        let known = |end: &u16| if *end == FOREVER { 0 } else { *end };
        self.latest = self.ends.iter().map(known).max().unwrap_or(0);
    }

    fn half(&mut self) -> Block {
        let mut half = Block::empty();
        half.entries.extend(self.entries.drain(MOST / 2..));
        half.entered.extend(self.entered.drain(MOST / 2..));
        half.ends.extend(self.ends.drain(MOST / 2..));
        half.settle();
        self.settle();
        half
    }

    /// The first index from one on that entered no later than a limit and ends no earlier than another.
    fn first(&self, from: usize, limit: u16, least: u16) -> Option<usize> {
        let fits = |at: &usize| (self.entered[*at] <= limit) & (self.ends[*at] >= least);
        let len = self.ends.len();
        let aligned = len.min(from.next_multiple_of(GROUP));
        if let Some(found) = (from..aligned).find(fits) {
            return Some(found);
        }
        let (entered, rest) = self.entered[aligned..].as_chunks::<GROUP>();
        let ends = self.ends[aligned..].as_chunks::<GROUP>().0;
        let pairs = entered.iter().zip(ends);
        let groups = pairs.map(|(entered, ends)| any(entered, ends, limit, least));
        let start = match groups.enumerate().find(|group| group.1) {
            Some((group, _)) => aligned + group * GROUP,
            None => len - rest.len(),
        };
        (start..len).find(fits)
    }

    /// The last index in a range whose end is at least one chunk and before another.
    fn last(&self, from: usize, to: usize, least: u16, limit: u16) -> Option<usize> {
        let fits = |at: &usize| (self.ends[*at] >= least) & (self.ends[*at] < limit);
        let aligned = from.max(to - to % GROUP);
        if let Some(found) = (aligned..to).rfind(fits) {
            return Some(found);
        }
        let start = aligned.min(from.next_multiple_of(GROUP));
        let ends = self.ends[start..aligned].as_chunks::<GROUP>().0;
        let mut groups = ends.iter().map(|ends| any(ends, ends, limit - 1, least));
        let end = match groups.rposition(|fits| fits) {
            Some(group) => start + (group + 1) * GROUP,
            None => start,
        };
        (from..end).rfind(fits)
    }
}

/// Whether there is a pair of which the one is no greater than a limit and the other no less than another.
fn any(ones: &[u16; GROUP], others: &[u16; GROUP], limit: u16, least: u16) -> bool {
    let pairs = ones.iter().zip(others);
    pairs.fold(false, |any, (one, other)| {
        any | ((*one <= limit) & (*other >= least))
    })
}

/// Where an entry stands: its block, and its index in it.
#[derive(Clone, Copy)]
struct Spot {
    block: usize,
    index: usize,
}

/// A bit for each block, of which those are set that may hold an entry before a chunk.
#[derive(Clone)]
struct Bits(Vec<u64>);

impl Bits {
    fn all(count: usize) -> Bits {
        let mut bits = Bits(vec![0; count.div_ceil(64)]);
        (0..count).for_each(|at| bits.set(at));
        bits
    }

    /// The first set bit from one on.
    fn next(&self, from: usize) -> Option<usize> {
        let mut word = from / 64;
        let mut left = self.0.get(word)? & (u64::MAX << (from % 64));
        while left == 0 {
            word += 1;
            left = *self.0.get(word)?;
        }
        Some(word * 64 + left.trailing_zeros() as usize)
    }

    fn set(&mut self, at: usize) {
        self.0[at / 64] |= 1 << (at % 64);
    }

    fn clear(&mut self, at: usize) {
        self.0[at / 64] &= !(1 << (at % 64));
    }

    /// Puts a bit behind another, equal to it. There are so many bits then.
    fn double(&mut self, at: usize, count: usize) {
        self.0.resize(count.div_ceil(64), 0);
        let low = u64::MAX >> (63 - at % 64);
        let first = &mut self.0[at / 64];
        let mut carried = *first >> 63;
        *first = (*first & low) | (*first & !(low >> 1)) << 1;
        for word in &mut self.0[at / 64 + 1..] {
            (*word, carried) = (*word << 1 | carried, *word >> 63);
        }
    }
}

pub struct Lifetimes {
    blocks: Vec<Block>,
    firsts: Vec<Entry>,
    /// For each chunk the blocks that may hold an entry before it; and at last the same for the end of all rows.
    held: Vec<Bits>,
}

impl Lifetimes {
    /// Entries in rising order, with when they enter and when they end, over so many chunks.
    pub fn of_lives(lives: &[(Entry, u16, u16)], chunks: usize) -> Lifetimes {
        let mut blocks: Vec<Block> = lives.chunks(MOST * 3 / 4).map(Block::of_lives).collect();
        if blocks.is_empty() {
            blocks.push(Block::empty());
        }
        let first = |block: &Block| block.entries.first().copied().unwrap_or(LOWEST);
        Lifetimes {
            firsts: blocks.iter().map(first).collect(),
            held: vec![Bits::all(blocks.len()); chunks + 1],
            blocks,
        }
    }

    /// Where an entry stands, or would.
    fn spot(&self, entry: Entry) -> Spot {
        let block = self.firsts[1..].partition_point(|first| *first <= entry);
        let entries = &self.blocks[block].entries;
        Spot {
            block,
            index: entries.partition_point(|other| *other < entry),
        }
    }

    fn entry(&self, spot: Spot) -> Entry {
        self.blocks[spot.block].entries[spot.index]
    }

    pub fn insert(&mut self, entry: Entry, entered: u16, end: u16) {
        let Spot { block, index } = self.spot(entry);
        self.blocks[block].insert(index, entry, entered, end);
        if self.blocks[block].entries.len() == MOST {
            let half = self.blocks[block].half();
            self.firsts.insert(block + 1, half.entries[0]);
            self.blocks.insert(block + 1, half);
            for bits in &mut self.held {
                bits.double(block, self.blocks.len());
            }
        }
    }

    pub fn remove(&mut self, entry: Entry) {
        let Spot { block, index } = self.spot(entry);
        self.blocks[block].remove(index);
    }

    /// In which chunk an entry is taken.
    pub fn end(&self, entry: Entry) -> u16 {
        let Spot { block, index } = self.spot(entry);
        self.blocks[block].ends[index]
    }

    pub fn enter(&mut self, entry: Entry, entered: u16) {
        let Spot { block, index } = self.spot(entry);
        self.blocks[block].entered[index] = entered;
    }

    /// Has an entry taken earlier than it was, and gives its old end.
    pub fn take(&mut self, entry: Entry, end: u16) -> u16 {
        self.replace_end(self.spot(entry), end)
    }

    fn replace_end(&mut self, spot: Spot, end: u16) -> u16 {
        let block = &mut self.blocks[spot.block];
        if end != FOREVER {
            block.latest = block.latest.max(end);
        }
        std::mem::replace(&mut block.ends[spot.index], end)
    }

    /// Has an entry taken later than it was, and gives its old end.
    fn prolong(&mut self, spot: Spot, end: u16) -> u16 {
        let old = self.replace_end(spot, end) as usize;
        let to = self.held.len().min(end as usize + 1);
        for bits in &mut self.held[old + 1..to] {
            bits.set(spot.block);
        }
        old as u16
    }

    /// The first spot from one on of an entry that is held before a chunk and entered no later than a limit.
    fn first(&self, from: Spot, limit: u16, chunk: u16) -> Option<Spot> {
        let bits = &self.held[chunk as usize];
        let mut next = bits.next(from.block);
        while let Some(block) = next {
            let start = if block == from.block { from.index } else { 0 };
            if let Some(index) = self.blocks[block].first(start, limit, chunk) {
                return Some(Spot { block, index });
            }
            next = bits.next(block + 1);
        }
        None
    }

    /// The last spot from one on and before another whose end is at least one chunk and before another.
    fn last(&self, from: Spot, to: Spot, least: u16, limit: u16) -> Option<Spot> {
        for at in (from.block..=to.block).rev() {
            let block = &self.blocks[at];
            let start = if at == from.block { from.index } else { 0 };
            let end = if at == to.block {
                to.index
            } else {
                block.ends.len()
            };
            if block.latest >= least
                && let Some(index) = block.last(start, end, least, limit)
            {
                return Some(Spot { block: at, index });
            }
        }
        None
    }

    /// Behind all entries.
    fn all(&self) -> Spot {
        let block = self.blocks.len() - 1;
        Spot {
            block,
            index: self.blocks[block].ends.len(),
        }
    }

    /// So many of the least entries held before a chunk, rising.
    pub fn least_held(&mut self, chunk: u16, count: usize) -> Vec<Entry> {
        let mut found = Vec::new();
        let Some(limit) = (2 * chunk).checked_sub(1) else {
            return found;
        };
        let mut at = 0;
        while let Some(number) = self.held[chunk as usize].next(at) {
            let block = &self.blocks[number];
            let mut from = 0;
            while let Some(index) = block.first(from, limit, chunk) {
                found.push(block.entries[index]);
                if found.len() == count {
                    return found;
                }
                from = index + 1;
            }
            if from == 0 {
                self.held[chunk as usize].clear(number);
            }
            at = number + 1;
        }
        found
    }

    /// The greatest entry taken in a chunk, of those that are greater than one and not greater than another.
    pub fn greatest_taken(&self, chunk: u16, than: Entry, most: Option<Entry>) -> Option<Entry> {
        let to = most.map_or(self.all(), |most| self.spot((most.0, most.1 + 1)));
        let found = self.last(self.spot(than), to, chunk, chunk + 1)?;
        Some(self.entry(found)).filter(|entry| *entry > than)
    }

    /// The least entry that could be taken in a chunk and is not, of those from one on.
    pub fn least_left(&self, chunk: u16, least: Entry) -> Option<Entry> {
        let found = self.first(self.spot(least), 2 * chunk, chunk + 1)?;
        Some(self.entry(found))
    }

    /// An entry that was taken in a chunk is there after it: at its new end it is taken in place of a greater one, and that at
    /// its own new end in place of a third, up to one that nothing takes.
    pub fn gain(&mut self, chunk: u16, entry: Entry) {
        let least = self.spot(entry);
        let (mut at, mut end) = (self.all(), FOREVER);
        while let Some(found) = self.last(least, at, chunk + 1, end) {
            end = self.prolong(found, end);
            at = found;
        }
        self.prolong(least, end);
    }

    /// An entry that was there up to an end is there no more: the least one that was left then is taken in its place, and so on,
    /// up to one that nothing took.
    pub fn lose(&mut self, entry: Entry, mut end: u16) {
        let mut at = self.spot(entry);
        while end != FOREVER
            && let Some(next) = self.first(at, 2 * end, end + 1)
        {
            end = self.replace_end(next, end);
            at = next;
        }
    }

    fn change(&mut self, entered: impl Fn(u16) -> u16, end: impl Fn(u16) -> u16) {
        for block in &mut self.blocks {
            block
                .entered
                .iter_mut()
                .for_each(|old| *old = entered(*old));
            block.ends.iter_mut().for_each(|old| *old = end(*old));
            block.settle();
        }
    }

    /// Makes room for a chunk at the end.
    pub fn append(&mut self) {
        self.held.push(self.held[self.held.len() - 1].clone());
    }

    /// Makes room for a chunk behind one.
    pub fn open(&mut self, chunk: u16) {
        self.change(
            |entered| entered + if entered > 2 * chunk + 1 { 2 } else { 0 },
            |end| end + u16::from(end > chunk && end != FOREVER),
        );
        let all = Bits::all(self.blocks.len());
        self.held.insert(chunk as usize + 1, all);
    }

    /// Takes away a chunk that has no rows.
    pub fn close(&mut self, chunk: u16) {
        if chunk as usize + 2 == self.held.len() {
            self.held.pop();
            return;
        }
        self.change(
            |entered| entered - if entered > 2 * chunk + 1 { 2 } else { 0 },
            |end| end - u16::from(end > chunk && end != FOREVER),
        );
        self.held.remove(chunk as usize);
    }
}
