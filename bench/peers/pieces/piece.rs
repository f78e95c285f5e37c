//! What some rows of a priority queue come to, whatever stands before them, as crates/pq_fusion has it.

use crate::entry_list::EntryList;
use crate::rows::{Entry, Op, Row};

/// An entry, or what is less than each, or greater.
#[derive(Clone, Copy, PartialEq, Eq, PartialOrd, Ord)]
pub enum Bound {
    Low,
    At(Entry),
    Top,
}

impl From<Option<Entry>> for Bound {
    fn from(entry: Option<Entry>) -> Bound {
        entry.map_or(Bound::Top, Bound::At)
    }
}

/// The entry of the row that an edit puts in or takes out, where it adds one, and whether there is an entry more by it.
#[derive(Clone, Copy)]
pub struct Edit {
    pub own: Bound,
    pub gains: bool,
}

impl Edit {
    pub fn of(row: Row, is_put_in: bool) -> Edit {
        let own = match row.op {
            Op::Ins { key } => Bound::At((key, row.number)),
            _ => Bound::Low,
        };
        Edit {
            own,
            gains: is_put_in == row.op.adds(),
        }
    }
}

/// What rows leave, what they remove of their own, and how many of their takings find nothing.
pub struct Piece {
    pub left: EntryList,
    pub removed: EntryList,
    pub unmet: usize,
}

impl Piece {
    fn new(left: &[Entry], removed: &[Entry], unmet: usize) -> Piece {
        Piece {
            left: EntryList::of_entries(left),
            removed: EntryList::of_entries(removed),
            unmet,
        }
    }

    /// Performs rows one after another.
    pub fn of_rows(rows: &[Row]) -> Piece {
        Piece::performed(Vec::new(), Vec::new(), 0, rows)
    }

    /// The piece with a row more behind its rows.
    pub fn with_row(&self, row: Row) -> Piece {
        let (left, removed) = (self.left.iter().collect(), self.removed.iter().collect());
        Piece::performed(left, removed, self.unmet, &[row])
    }

    /// Performs rows one after another behind those of a piece.
    fn performed(
        mut left: Vec<Entry>,
        mut removed: Vec<Entry>,
        mut unmet: usize,
        rows: &[Row],
    ) -> Piece {
        for row in rows {
            match row.op {
                Op::Ins { key } => put(&mut left, (key, row.number)),
                _ if left.is_empty() => unmet += 1,
                _ => put(&mut removed, left.remove(0)),
            }
        }
        Piece::new(&left, &removed, unmet)
    }

    /// How many rows take.
    pub fn takings(&self) -> usize {
        self.removed.len() + self.unmet
    }

    /// The piece of the rows of two others: the takings of the later one find the least of what the earlier one leaves and what
    /// the later one removes of its own.
    pub fn fused(earlier: &Piece, later: &Piece) -> Piece {
        let met = together(earlier.left.iter(), later.removed.iter());
        let takings = later.takings();
        let (taken, stay) = met.split_at(takings.min(met.len()));
        Piece::new(
            &together(later.left.iter(), stay.iter().copied()),
            &together(earlier.removed.iter(), taken.iter().copied()),
            earlier.unmet + takings.saturating_sub(met.len()),
        )
    }

    /// Changes the piece by an edit, by which an entry passes between what is left and what is not.
    pub fn change(&mut self, edit: Edit, passed: Bound) {
        if !edit.gains {
            self.unmet += usize::from(passed == Bound::Top);
            exchange(&mut self.removed, passed, edit.own);
            exchange(&mut self.left, Bound::Low, passed);
        } else {
            self.unmet -= usize::from(passed == Bound::Top);
            exchange(&mut self.removed, edit.own, passed);
            exchange(&mut self.left, passed, Bound::Low);
        }
    }
}

fn put(entries: &mut Vec<Entry>, entry: Entry) {
    let at = entries.partition_point(|other| *other < entry);
    entries.insert(at, entry);
}

/// Puts an entry into a list and takes another out, if these are two.
fn exchange(list: &mut EntryList, put: Bound, taken: Bound) {
    if put == taken {
        return;
    }
    if let Bound::At(entry) = put {
        list.insert(entry);
    }
    if let Bound::At(entry) = taken {
        list.remove(entry);
    }
}

/// All entries of two lists, rising.
fn together(ones: impl Iterator<Item = Entry>, others: impl Iterator<Item = Entry>) -> Vec<Entry> {
    let (mut ones, mut others) = (ones.peekable(), others.peekable());
    let mut all = Vec::new();
    while let (Some(one), Some(other)) = (ones.peek(), others.peek()) {
        let is_one = one < other;
        all.extend(if is_one { ones.next() } else { others.next() });
    }
    all.extend(ones);
    all.extend(others);
    all
}

/// What passes, by what is left before an edit and after it: the first entry that only the longer list has.
pub fn difference(old: &EntryList, new: &EntryList, gains: bool) -> Bound {
    let (shorter, longer) = if gains { (old, new) } else { (new, old) };
    if shorter.len() == longer.len() {
        return Bound::Top;
    }
    let mut rest = shorter.iter();
    longer
        .iter()
        .find(|entry| rest.next() != Some(*entry))
        .into()
}

/// Of what an earlier piece leaves and a later one removes, the greatest entry that the later one takes, where an edit gains,
/// and else the least that it leaves.
pub fn boundary(earlier: &Piece, later: &Piece, gains: bool) -> Bound {
    let (left, removed) = (&earlier.left, &later.removed);
    if gains && later.unmet > left.len() {
        return Bound::Top;
    }
    let taken = later.takings().min(left.len() + removed.len());
    let first = cut(left, removed, taken);
    let second = taken - first;
    if gains {
        let last = |list: &EntryList, count: usize| {
            let found = count.checked_sub(1).and_then(|rank| list.get(rank));
            found.map_or(Bound::Low, Bound::At)
        };
        last(left, first).max(last(removed, second))
    } else {
        Bound::from(left.get(first)).min(removed.get(second).into())
    }
}

/// How many of the least entries of two lists are in the first one.
fn cut(ones: &EntryList, others: &EntryList, count: usize) -> usize {
    let (mut low, mut high) = (count.saturating_sub(others.len()), count.min(ones.len()));
    while low < high {
        let middle = (low + high) / 2;
        if ones.get(middle) < others.get(count - middle - 1) {
            low = middle + 1;
        } else {
            high = middle;
        }
    }
    low
}
