//! A dictionary whose past can be edited and asked, as crates/retro_dictionary has it.

use crate::index::{Bad, KeyIndex, Op};
use crate::labels::{END, Labels, Lately, spread};
use crate::spans::{Found, KeyPair, KeyRange, Lifetime, Segments};
use crate::tree::{Item, Tree};

#[derive(Clone, Copy)]
#[allow(dead_code)]
pub struct Row {
    pub number: u32,
    pub time: u64,
    pub op: Op,
}

impl Item for Row {
    type Measure = ();
    fn measure(&self) {}
    fn join(_: (), _: ()) {}
}

#[derive(Clone, Copy)]
pub enum Question {
    Get { key: i64 },
    Succ { key: i64 },
    Pred { key: i64 },
    Count { low: i64, high: i64 },
    Sum { low: i64, high: i64 },
}

#[derive(Clone, Copy, Debug, PartialEq, Eq)]
pub enum Answer {
    Number(i128),
    Pair(KeyPair),
    Nothing,
}

/// A row is put in or taken out only where its test names no row that fails.
pub trait Past {
    fn len(&self) -> u32;
    fn failure_after_insert(&self, place: u32, op: Op) -> Option<u32>;
    fn failure_after_remove(&self, place: u32) -> Option<u32>;
    fn insert(&mut self, place: u32, row: Row);
    fn remove(&mut self, place: u32) -> Row;
    fn ask(&self, place: u32, question: Question) -> Answer;
}

/// A pair with the label at which it is put.
type Placed = Option<(u64, KeyPair)>;

fn placed(label: u64, op: Op) -> Placed {
    match op {
        Op::Put { key, value } => Some((label, KeyPair { key, value })),
        Op::Del { .. } => None,
    }
}

fn add(segments: &mut Segments, placed: Placed, to: u64) {
    if let Some((from, pair)) = placed {
        segments.add(Lifetime { from, to, pair });
    }
}

fn take(segments: &mut Segments, placed: Placed, to: u64) {
    if let Some((from, pair)) = placed {
        segments.take(Lifetime { from, to, pair });
    }
}

fn move_end(segments: &mut Segments, placed: Placed, to: u64, next: u64) {
    if let Some((from, pair)) = placed {
        segments.move_end(Lifetime { from, to, pair }, next);
    }
}

pub struct Dictionary {
    rows: Tree<Row>,
    labels: Labels,
    index: KeyIndex,
    segments: Segments,
}

impl Dictionary {
    pub fn new() -> Dictionary {
        Dictionary {
            rows: Tree::empty(),
            labels: Labels::new(),
            index: KeyIndex::new(),
            segments: Segments::new(),
        }
    }

    /// The label of the next row on a key.
    fn next(&self, key: i64, label: u64) -> u64 {
        self.index.after(key, label).map_or(END, |row| row.label)
    }

    /// What the last row before a label on its key put, and the label of the next row on it.
    fn beside(&self, key: i64, label: u64) -> (Placed, u64) {
        let beside = self.index.beside(key, label);
        let left = beside.before.and_then(|row| placed(row.label, row.op));
        (left, beside.after.map_or(END, |row| row.label))
    }

    /// Which of the rows beside a place came in lately before one with this number.
    fn lately(&self, place: u32, number: u32) -> Lately {
        if place == self.len() {
            return Lately::Neither;
        }
        let mut numbers = [number; 2];
        let count = place.min(1);
        self.rows.read(
            (place - count) as usize,
            |row| row.number,
            &mut numbers[1 - count as usize..],
        );
        let is_lately = |other: u32| other < number && number - other <= 8;
        if is_lately(numbers[0]) {
            Lately::Before
        } else if is_lately(numbers[1]) {
            Lately::After
        } else {
            Lately::Neither
        }
    }

    fn insert_between(&mut self, place: u32, label: u64, row: Row) {
        self.labels.insert(place, label);
        self.rows.insert(place as usize, row);
        let (left, next) = self.beside(row.op.key(), label);
        self.index.insert(label, row.op);
        add(&mut self.segments, placed(label, row.op), next);
        move_end(&mut self.segments, left, next, label);
    }

    /// Puts a row in where no label is left: all rows are relabelled, and the lifetimes are made anew.
    fn insert_relabelled(&mut self, place: u32, row: Row) {
        let former = self.labels.all();
        let count = self.len() + 1;
        let others = (0..count).filter(|index| *index != place);
        let fresh: Vec<u64> = others.map(|index| spread(index, count)).collect();
        let fresh_of = |label| fresh[former.binary_search(&label).unwrap()];
        self.index.relabel(fresh_of);
        self.index.insert(spread(place, count), row.op);
        self.rows.insert(place as usize, row);
        let mut segments = Segments::new();
        for index in (0..count).rev() {
            let (op, label) = (self.rows.get(index as usize).op, spread(index, count));
            let next = self.next(op.key(), label);
            add(&mut segments, placed(label, op), next);
        }
        self.labels.insert_relabelled(place);
        self.segments = segments;
    }

    fn found(&self, place: u32, low: i64, high: i64) -> Found {
        if place == 0 {
            return Found::NONE;
        }
        let range = KeyRange { low, high };
        self.segments.ask(self.labels.at(place - 1), range)
    }

    /// What the last row on a key before a place put.
    fn value(&self, place: u32, key: i64) -> Option<i64> {
        let label = self.labels.at(place.checked_sub(1)?);
        match self.index.last_up_to(key, label)?.op {
            Op::Put { value, .. } => Some(value),
            Op::Del { .. } => None,
        }
    }
}

impl Past for Dictionary {
    fn len(&self) -> u32 {
        self.rows.len() as u32
    }

    fn failure_after_insert(&self, place: u32, op: Op) -> Option<u32> {
        match self.index.bad_after_insert(self.labels.before(place), op)? {
            Bad::Inserted => Some(place),
            Bad::Present(label) => {
                let index = self.labels.place_of(label)?;
                Some(if index < place { index } else { index + 1 })
            }
        }
    }

    fn failure_after_remove(&self, place: u32) -> Option<u32> {
        let op = self.rows.get(place as usize).op;
        let label = self.index.bad_after_remove(self.labels.at(place), op)?;
        let index = self.labels.place_of(label)?;
        Some(if index < place { index } else { index - 1 })
    }

    fn insert(&mut self, place: u32, row: Row) {
        let lately = self.lately(place, row.number);
        match self.labels.free_label(place, lately) {
            Some(label) => self.insert_between(place, label, row),
            None => self.insert_relabelled(place, row),
        }
    }

    fn remove(&mut self, place: u32) -> Row {
        let row = self.rows.get(place as usize);
        let label = self.labels.at(place);
        let (left, next) = self.beside(row.op.key(), label);
        move_end(&mut self.segments, left, label, next);
        take(&mut self.segments, placed(label, row.op), next);
        self.index.remove(label, row.op);
        self.labels.remove(place);
        self.rows.remove(place as usize);
        row
    }

    fn ask(&self, place: u32, question: Question) -> Answer {
        match question {
            Question::Get { key } => number(self.value(place, key)),
            Question::Succ { key } => pair(self.found(place, key, i64::MAX).least),
            Question::Pred { key } => pair(self.found(place, i64::MIN, key).greatest),
            Question::Count { low, high } => {
                Answer::Number(i128::from(self.found(place, low, high).count))
            }
            Question::Sum { low, high } => Answer::Number(self.found(place, low, high).sum),
        }
    }
}

fn number(value: Option<i64>) -> Answer {
    value.map_or(Answer::Nothing, |value| Answer::Number(i128::from(value)))
}

fn pair(pair: Option<KeyPair>) -> Answer {
    pair.map_or(Answer::Nothing, Answer::Pair)
}
