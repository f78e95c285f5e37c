//! A queue, a stack or a deque over leaves: sums of what comes and goes at each end, and how low they fall.

use crate::leaves::{Item, Leaves, Sum};
use crate::rows::{Answer, Change, Kind, Op, Past, Question, Row};

/// A sum of signs, and the least sum of a prefix.
#[derive(Clone, Copy, Default)]
struct Walk {
    sum: i32,
    low: i32,
}

impl Walk {
    fn of(sign: i32) -> Walk {
        Walk {
            sum: sign,
            low: sign.min(0),
        }
    }

    fn join(self, after: Walk) -> Walk {
        Walk {
            sum: self.sum + after.sum,
            low: self.low.min(self.sum + after.low),
        }
    }
}

#[derive(Clone, Copy, Default)]
pub struct Walks {
    left: Walk,
    right: Walk,
    all: Walk,
    adds: u32,
    time: u64,
}

impl Sum for Walks {
    fn join(self, after: Walks) -> Walks {
        Walks {
            left: self.left.join(after.left),
            right: self.right.join(after.right),
            all: self.all.join(after.all),
            adds: self.adds + after.adds,
            time: self.time.max(after.time),
        }
    }

    fn time(self) -> u64 {
        self.time
    }
}

fn growth(op: Op) -> (i32, i32) {
    match op {
        Op::AddLeft(_) => (1, 0),
        Op::TakeLeft => (-1, 0),
        Op::AddRight(_) => (0, 1),
        _ => (0, -1),
    }
}

impl Item for Row {
    type Sum = Walks;

    fn sum(&self) -> Walks {
        let (left, right) = growth(self.op);
        Walks {
            left: Walk::of(left),
            right: Walk::of(right),
            all: Walk::of(left + right),
            adds: u32::from(self.op.adds()),
            time: self.time,
        }
    }

    fn number(&self) -> u32 {
        self.number
    }

    fn time(&self) -> u64 {
        self.time
    }
}

pub struct BestLines {
    kind: Kind,
    rows: Leaves<Row>,
}

impl BestLines {
    pub fn new(kind: Kind) -> BestLines {
        BestLines {
            kind,
            rows: Leaves::new(),
        }
    }

    /// The first place from `from` on at which nothing is held.
    fn first_empty(&self, from: usize) -> Option<usize> {
        let start = self.rows.prefix(from).all.sum;
        self.rows
            .first_place(from, |walks| start + walks.all.low <= 0)
    }

    /// The last place up to `to` at which a sum, which is `end` at `to`, is below a value.
    fn last_below(
        &self,
        to: usize,
        end: i32,
        value: i32,
        walk: impl Fn(Walks) -> Walk,
    ) -> Option<usize> {
        self.rows.last_place(to, |walks| {
            end - (walk(walks).sum - walk(walks).low) < value
        })
    }

    /// The item at an index from the left, before a place with these sums.
    fn item(&self, place: usize, here: Walks, index: i32) -> Option<i64> {
        let size = here.all.sum;
        if !(0..size).contains(&index) {
            return None;
        }
        let written = match self.kind {
            Kind::Queue => {
                let number = (place as i32 - size) / 2 + index;
                self.rows.first_of_all(|walks| walks.adds as i32 > number)? - 1
            }
            Kind::Stack => {
                self.last_below(place, here.left.sum, here.left.sum - index, |walks| {
                    walks.left
                })?
            }
            _ => {
                let position = index - here.left.sum;
                let by_left = self.last_below(place, here.left.sum, -position, |walks| walks.left);
                by_left.max(
                    self.last_below(place, here.right.sum, position + 1, |walks| walks.right),
                )?
            }
        };
        match self.rows.get(written).op {
            Op::AddLeft(value) | Op::AddRight(value) => Some(value),
            _ => None,
        }
    }
}

impl Past for BestLines {
    fn len(&self) -> usize {
        self.rows.len()
    }

    fn place_at(&self, time: u64) -> usize {
        self.rows.place_at(time)
    }

    fn place_of(&self, number: u32) -> Option<usize> {
        self.rows.place_of(number)
    }

    fn row_at(&self, place: usize) -> Row {
        self.rows.get(place)
    }

    fn rows(&self) -> Vec<Row> {
        let mut rows = Vec::with_capacity(self.len());
        self.rows.each(0, self.len(), |row| rows.push(*row));
        rows
    }

    fn failure_after_insert(&self, place: usize, op: Op) -> Option<usize> {
        if op.adds() {
            None
        } else {
            self.first_empty(place)
        }
    }

    fn failure_after_remove(&self, place: usize) -> Option<usize> {
        if self.rows.get(place).op.adds() {
            Some(self.first_empty(place + 1)? - 2)
        } else {
            None
        }
    }

    fn insert(&mut self, place: usize, row: Row) -> Option<Change> {
        self.rows.insert(place, row);
        None
    }

    fn remove(&mut self, place: usize) -> Option<Change> {
        self.rows.remove(place);
        None
    }

    fn ask(&mut self, place: usize, question: Question) -> Answer {
        let here = self.rows.prefix(place);
        let index = match question {
            Question::Size => return Answer::Number(i128::from(here.all.sum)),
            Question::Nth(index) => i32::try_from(index).unwrap_or(i32::MAX),
            _ => here.all.sum - 1,
        };
        Answer::of(self.item(place, here, index))
    }
}
