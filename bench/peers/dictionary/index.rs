//! Rows by key and label, as crates/key_index has them.

use crate::weighted::{Item, Tree};

#[derive(Clone, Copy, PartialEq, Eq)]
pub enum Op {
    Put { key: i64, value: i64 },
    Del { key: i64 },
}

impl Op {
    pub fn key(self) -> i64 {
        match self {
            Op::Put { key, .. } | Op::Del { key } => key,
        }
    }
}

#[derive(Clone, Copy)]
pub struct KeyRow {
    pub label: u64,
    pub op: Op,
}

impl Item for KeyRow {
    type Measure = u32;

    fn measure(&self) -> u32 {
        1
    }
}

/// The first row that fails: the one that is put in, or the one with a label.
pub enum Bad {
    Inserted,
    Present(u64),
}

/// The rows by key and label.
pub struct KeyIndex {
    by_key: Tree<KeyRow>,
}

/// The last row on a key before a label, and the first one after it.
pub struct Beside {
    pub before: Option<KeyRow>,
    pub after: Option<KeyRow>,
}

impl KeyIndex {
    pub fn new() -> KeyIndex {
        KeyIndex {
            by_key: Tree::empty(),
        }
    }

    fn up_to(&self, key: i64, label: u64) -> u32 {
        let spot = (key, label);
        self.by_key
            .partition_point(|row| (row.op.key(), row.label) <= spot)
    }

    fn on_key(&self, key: i64, place: u32) -> Option<KeyRow> {
        if place >= self.by_key.len() {
            return None;
        }
        let row = self.by_key.get(place);
        (row.op.key() == key).then_some(row)
    }

    fn on_key_before(&self, key: i64, place: u32) -> Option<KeyRow> {
        self.on_key(key, place.checked_sub(1)?)
    }

    /// What stands on a key beside a label, which one row on it may have.
    pub fn beside(&self, key: i64, label: u64) -> Beside {
        let place = self.up_to(key, label);
        let after = self.on_key(key, place);
        match self.on_key_before(key, place) {
            Some(row) if row.label == label => Beside {
                before: self.on_key_before(key, place - 1),
                after,
            },
            before => Beside { before, after },
        }
    }

    /// The last row on a key up to a label.
    pub fn last_up_to(&self, key: i64, label: u64) -> Option<KeyRow> {
        self.on_key_before(key, self.up_to(key, label))
    }

    pub fn after(&self, key: i64, label: u64) -> Option<KeyRow> {
        self.on_key(key, self.up_to(key, label))
    }

    pub fn insert(&mut self, label: u64, op: Op) {
        let place = self.up_to(op.key(), label);
        self.by_key.insert(place, KeyRow { label, op });
    }

    pub fn remove(&mut self, label: u64, op: Op) {
        let place = self.up_to(op.key(), label);
        self.by_key.remove(place - 1);
    }

    fn is_there(last: Option<KeyRow>) -> bool {
        last.is_some_and(|row| matches!(row.op, Op::Put { .. }))
    }

    fn taken_at(next: Option<KeyRow>) -> Option<u64> {
        let next = next?;
        matches!(next.op, Op::Del { .. }).then_some(next.label)
    }

    /// The first row that fails once a row is put in after all rows up to a label.
    pub fn bad_after_insert(&self, behind: u64, op: Op) -> Option<Bad> {
        let Op::Del { key } = op else { return None };
        let place = self.up_to(key, behind);
        if !KeyIndex::is_there(self.on_key_before(key, place)) {
            return Some(Bad::Inserted);
        }
        KeyIndex::taken_at(self.on_key(key, place)).map(Bad::Present)
    }

    /// The label of the first row that fails once the row with this label and operation is taken out.
    pub fn bad_after_remove(&self, label: u64, op: Op) -> Option<u64> {
        let Op::Put { key, .. } = op else { return None };
        let beside = self.beside(key, label);
        if KeyIndex::is_there(beside.before) {
            return None;
        }
        KeyIndex::taken_at(beside.after)
    }

    pub fn relabel(&mut self, fresh: impl Fn(u64) -> u64) {
        for place in 0..self.by_key.len() {
            let KeyRow { label, op } = self.by_key.get(place);
            let label = fresh(label);
            self.by_key.replace(place, KeyRow { label, op });
        }
    }
}
