//! A priority queue over leaves: bridges for its edits, and for questions about the past one moment for each chunk of 256 rows.
//! Edits wait until the past is asked, and go to its moments one by one then; where many wait, all moments are made anew.

use crate::leaves::{Item, Leaves, Sum};
use crate::moments::Moments;
use crate::rows::{Answer, Change, Entry, Op, Past, Question, Row};
use std::collections::BTreeSet;

/// One edit in so many rows is as much work as to make all moments anew.
const ROWS_FOR_AN_EDIT: usize = 64;

/// No entry, beside which each dead one is greater, and each survivor less.
const NO_DEAD: Entry = (i64::MIN, 0);
const NO_SURVIVOR: Entry = (i64::MAX, u32::MAX);

#[derive(Clone, Copy)]
struct Marked {
    row: Row,
    survives: bool,
}

/// The sum of the weights with the least one of a prefix, the same for how many entries are held, the greatest dead entry and
/// the least survivor.
#[derive(Clone, Copy)]
struct Weights {
    sum: i32,
    low: i32,
    held: i32,
    least_held: i32,
    dead: Entry,
    survivor: Entry,
    time: u64,
}

impl Default for Weights {
    fn default() -> Weights {
        Weights {
            sum: 0,
            low: 0,
            held: 0,
            least_held: 0,
            dead: NO_DEAD,
            survivor: NO_SURVIVOR,
            time: 0,
        }
    }
}

impl Sum for Weights {
    fn join(self, after: Weights) -> Weights {
        Weights {
            sum: self.sum + after.sum,
            low: self.low.min(self.sum + after.low),
            held: self.held + after.held,
            least_held: self.least_held.min(self.held + after.least_held),
            dead: self.dead.max(after.dead),
            survivor: self.survivor.min(after.survivor),
            time: self.time.max(after.time),
        }
    }

    fn time(self) -> u64 {
        self.time
    }
}

impl Item for Marked {
    type Sum = Weights;

    fn sum(&self) -> Weights {
        let none = Weights {
            time: self.row.time,
            ..Weights::default()
        };
        match self.row.op {
            Op::Ins { key } if self.survives => Weights {
                held: 1,
                survivor: (key, self.row.number),
                ..none
            },
            Op::Ins { key } => Weights {
                held: 1,
                sum: 1,
                dead: (key, self.row.number),
                ..none
            },
            _ => Weights {
                held: -1,
                least_held: -1,
                sum: -1,
                low: -1,
                ..none
            },
        }
    }

    fn number(&self) -> u32 {
        self.row.number
    }

    fn time(&self) -> u64 {
        self.row.time
    }
}

pub struct BestPq {
    rows: Leaves<Marked>,
    present: BTreeSet<Entry>,
    moments: Option<Moments>,
    waiting: Vec<Edit>,
}

/// A row that was put in at a place, or the place of one that was taken out.
enum Edit {
    Insert(usize, Row),
    Remove(usize),
}

impl BestPq {
    pub fn new() -> BestPq {
        BestPq {
            rows: Leaves::new(),
            present: BTreeSet::new(),
            moments: None,
            waiting: Vec::new(),
        }
    }

    fn first_empty(&self, from: usize) -> Option<usize> {
        let start = self.rows.prefix(from).held;
        self.rows
            .first_place(from, |weights| start + weights.least_held <= 0)
    }

    fn first_bridge(&self, from: usize) -> usize {
        let start = self.rows.prefix(from).sum;
        self.rows
            .first_place(from, |weights| start + weights.low <= 0)
            .unwrap()
    }

    fn last_bridge(&self, to: usize) -> usize {
        let end = self.rows.prefix(to).sum;
        self.rows
            .last_place(to, |weights| end - (weights.sum - weights.low) <= 0)
            .unwrap()
    }

    fn mark(&mut self, entry: Entry, survives: bool) {
        if let Some(place) = self.rows.place_of(entry.1) {
            self.rows.change(place, |marked| marked.survives = survives);
        }
        if survives {
            self.present.insert(entry);
        } else {
            self.present.remove(&entry);
        }
    }

    fn lost(&self, bridge: usize) -> Change {
        Change {
            bridge: Some(bridge),
            entry: self.rows.prefix(bridge).survivor,
            gained: false,
        }
    }

    fn gained(&self, bridge: usize, own: Entry) -> Change {
        Change {
            bridge: Some(bridge),
            entry: self.rows.suffix(bridge).dead.max(own),
            gained: true,
        }
    }

    fn wait(&mut self, edit: Edit) {
        self.waiting.push(edit);
        if self.waiting.len() * ROWS_FOR_AN_EDIT > self.rows.len() {
            self.moments = None;
        }
        if self.moments.is_none() {
            self.waiting.clear();
        }
    }

    /// The moments, with all edits made.
    fn moments(&mut self) -> &mut Moments {
        let mut moments = match self.moments.take() {
            Some(moments) => moments,
            None => Moments::of_rows(&self.rows()),
        };
        for edit in self.waiting.drain(..) {
            match edit {
                Edit::Insert(place, row) => moments.insert(place, row),
                Edit::Remove(place) => moments.remove(place),
            }
        }
        self.moments.insert(moments)
    }
}

impl Past for BestPq {
    fn len(&self) -> usize {
        self.rows.len()
    }

    fn place_at(&self, time: u64) -> usize {
        self.rows.place_at(time)
    }

    fn place_of(&self, number: u32) -> Option<usize> {
        self.rows.place_of(number)
    }

    fn row_at(&self, place: usize) -> Row {
        self.rows.get(place).row
    }

    fn rows(&self) -> Vec<Row> {
        let mut rows = Vec::with_capacity(self.len());
        self.rows
            .each(0, self.len(), |marked| rows.push(marked.row));
        rows
    }

    fn failure_after_insert(&self, place: usize, op: Op) -> Option<usize> {
        if op.adds() {
            None
        } else {
            self.first_empty(place)
        }
    }

    fn failure_after_remove(&self, place: usize) -> Option<usize> {
        if self.rows.get(place).row.op.adds() {
            Some(self.first_empty(place + 1)? - 2)
        } else {
            None
        }
    }

    fn insert(&mut self, place: usize, row: Row) -> Option<Change> {
        let change = match row.op {
            Op::Ins { key } => self.gained(self.last_bridge(place), (key, row.number)),
            _ => self.lost(self.first_bridge(place)),
        };
        self.rows.insert(
            place,
            Marked {
                row,
                survives: false,
            },
        );
        self.mark(change.entry, change.gained);
        self.wait(Edit::Insert(place, row));
        Some(change)
    }

    fn remove(&mut self, place: usize) -> Option<Change> {
        let Marked { row, survives } = self.rows.get(place);
        let change = match row.op {
            Op::Ins { key } if survives => Change {
                bridge: None,
                entry: (key, row.number),
                gained: false,
            },
            Op::Ins { .. } => self.lost(self.first_bridge(place + 1)),
            _ => self.gained(self.last_bridge(place), NO_DEAD),
        };
        self.rows.remove(place);
        self.mark(change.entry, change.gained);
        self.wait(Edit::Remove(place));
        Some(change)
    }

    fn ask(&mut self, place: usize, question: Question) -> Answer {
        let is_present = place == self.rows.len();
        match question {
            Question::Size => Answer::Number(i128::from(self.rows.prefix(place).held)),
            Question::Nth(index) if is_present => {
                Answer::of(self.present.iter().nth(index as usize).map(|entry| entry.0))
            }
            Question::Nth(index) => Answer::of(self.moments().nth(place, index as usize)),
            _ => Answer::Nothing,
        }
    }
}
