//! The queue, the stack and the deque over trees, as crates/retro_queue, crates/retro_stack and crates/retro_deque have them.

use crate::rows::{Answer, Change, Kind, Op, Past, Question, Row};
use crate::timeline::Timeline;
use crate::tree::{Item, Tree, Walks, first_at_most, last_growing, last_growing_at_either, sum_to};

pub struct SameLines {
    kind: Kind,
    timeline: Timeline,
    rows: Tree<LineRow>,
}

/// A row of a line, measured by how it lets the line grow.
#[derive(Clone, Copy)]
struct LineRow(Row);

impl Item for LineRow {
    type Measure = Walks;

    fn measure(&self) -> Walks {
        let (left, right) = growth(self.0.op);
        Walks::of(left, right)
    }

    fn join(one: Walks, other: Walks) -> Walks {
        Walks::join(one, other)
    }
}

fn growth(op: Op) -> (i8, i8) {
    match op {
        Op::AddLeft(_) => (1, 0),
        Op::TakeLeft => (-1, 0),
        Op::AddRight(_) => (0, 1),
        _ => (0, -1),
    }
}

impl SameLines {
    pub fn new(kind: Kind) -> SameLines {
        SameLines {
            kind,
            timeline: Timeline::new(),
            rows: Tree::empty(),
        }
    }

    fn item(&self, place: usize, index: i64) -> Option<i64> {
        let size = sum_to(&self.rows, |walks| walks.size, place);
        if !(0..size).contains(&index) {
            return None;
        }
        let (from_left, from_right) = (index + 1, size - index);
        let written = match self.kind {
            Kind::Queue => last_growing(&self.rows, |walks| walks.right, place, from_right)?,
            Kind::Stack => last_growing(&self.rows, |walks| walks.left, place, from_left)?,
            _ => last_growing_at_either(&self.rows, place, from_left, from_right)?,
        };
        match self.rows.get(written).0.op {
            Op::AddLeft(value) | Op::AddRight(value) => Some(value),
            _ => None,
        }
    }
}

impl Past for SameLines {
    fn len(&self) -> usize {
        self.timeline.len()
    }

    fn place_at(&self, time: u64) -> usize {
        self.timeline.place_at(time)
    }

    fn place_of(&self, number: u32) -> Option<usize> {
        self.timeline.place_of(number)
    }

    fn row_at(&self, place: usize) -> Row {
        self.timeline.row_at(place)
    }

    fn rows(&self) -> Vec<Row> {
        self.timeline.rows()
    }

    fn failure_after_insert(&self, place: usize, op: Op) -> Option<usize> {
        let (left, right) = growth(op);
        if left + right >= 0 {
            return None;
        }
        first_at_most(
            &self.rows,
            |walks| walks.size,
            place,
            -1 - i64::from(left + right),
        )
    }

    fn failure_after_remove(&self, place: usize) -> Option<usize> {
        let (left, right) = growth(self.rows.get(place).0.op);
        if left + right <= 0 {
            return None;
        }
        Some(
            first_at_most(
                &self.rows,
                |walks| walks.size,
                place + 1,
                i64::from(left + right) - 1,
            )? - 2,
        )
    }

    fn insert(&mut self, place: usize, row: Row) -> Option<Change> {
        self.timeline.insert(place, row);
        self.rows.insert(place, LineRow(row));
        None
    }

    fn remove(&mut self, place: usize) -> Option<Change> {
        self.timeline.remove(place);
        self.rows.remove(place);
        None
    }

    fn ask(&mut self, place: usize, question: Question) -> Answer {
        let index = match question {
            Question::Size => {
                return Answer::Number(i128::from(sum_to(&self.rows, |walks| walks.size, place)));
            }
            Question::Nth(index) => i64::try_from(index).unwrap_or(i64::MAX),
            _ => sum_to(&self.rows, |walks| walks.size, place) - 1,
        };
        Answer::of(self.item(place, index))
    }
}
