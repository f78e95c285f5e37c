//! The priority queue by pieces, as crates/pq_fusion has it: a tree of runs of up to 64 rows, in which each node has the piece
//! of its rows, and an edit passes one entry from node to node; and beside it the queue by bridges for verdicts and changes.

use crate::piece::{Bound, Edit, Piece, boundary, difference};
use crate::rows::{Answer, Change, Entry, Op, Past, Question, Row};
use crate::same_pq::Bridges;
use crate::timeline::Timeline;

/// The most rows of a run, of one that is made anew, and of a pair that becomes a run.
const FULL: usize = 64;
const FRESH: usize = 48;
const FEW: usize = 32;

struct Subtree {
    piece: Piece,
    part: Part,
}

enum Part {
    Run(Vec<Row>),
    Pair(Box<Pair>),
}

struct Pair {
    earlier: Subtree,
    later: Subtree,
    size: usize,
}

impl Subtree {
    fn of_rows(rows: &[Row]) -> Subtree {
        if rows.len() <= FRESH {
            return Subtree {
                piece: Piece::of_rows(rows),
                part: Part::Run(rows.to_vec()),
            };
        }
        let (earlier, later) = rows.split_at(rows.len() / 2);
        let pair = Pair {
            earlier: Subtree::of_rows(earlier),
            later: Subtree::of_rows(later),
            size: rows.len(),
        };
        Subtree {
            piece: Piece::fused(&pair.earlier.piece, &pair.later.piece),
            part: Part::Pair(Box::new(pair)),
        }
    }

    fn len(&self) -> usize {
        match &self.part {
            Part::Run(rows) => rows.len(),
            Part::Pair(pair) => pair.size,
        }
    }

    fn append_to(&self, all: &mut Vec<Row>) {
        match &self.part {
            Part::Run(rows) => all.extend(rows),
            Part::Pair(pair) => {
                pair.earlier.append_to(all);
                pair.later.append_to(all);
            }
        }
    }

    /// Puts a row in at a place or takes out the one there, and gives the entry that passes.
    fn edit(&mut self, place: usize, row: Option<Row>, edit: Edit) -> Bound {
        match &mut self.part {
            Part::Run(rows) if row.is_none() || rows.len() < FULL => {
                let last = row.filter(|_| place == rows.len());
                change(rows, place, row);
                let piece =
                    last.map_or_else(|| Piece::of_rows(rows), |row| self.piece.with_row(row));
                let passed = difference(&self.piece.left, &piece.left, edit.gains);
                self.piece = piece;
                passed
            }
            Part::Pair(pair) if pair.bears(place, row.is_some()) => {
                let passed = pair.edit(place, row, edit);
                self.piece.change(edit, passed);
                passed
            }
            _ => self.make_anew(place, row, edit),
        }
    }

    fn make_anew(&mut self, place: usize, row: Option<Row>, edit: Edit) -> Bound {
        let mut rows = Vec::with_capacity(self.len() + 1);
        self.append_to(&mut rows);
        change(&mut rows, place, row);
        let old = std::mem::replace(self, Subtree::of_rows(&rows));
        difference(&old.piece.left, &self.piece.left, edit.gains)
    }

    /// Appends what makes up the first rows: the pieces of nodes, and at last some rows of a run.
    fn path<'a>(&'a self, to: usize, path: &mut Vec<Step<'a>>) {
        if to == 0 {
            return;
        }
        match &self.part {
            _ if to == self.len() => path.push(Step::Piece(&self.piece)),
            Part::Run(rows) => path.push(Step::Rows(&rows[..to])),
            Part::Pair(pair) => {
                let before = pair.earlier.len();
                pair.earlier.path(to.min(before), path);
                pair.later.path(to.saturating_sub(before), path);
            }
        }
    }
}

fn change(rows: &mut Vec<Row>, place: usize, row: Option<Row>) {
    match row {
        Some(row) => rows.insert(place, row),
        None => drop(rows.remove(place)),
    }
}

impl Pair {
    /// Whether an edit at a place is one of the earlier side.
    fn is_earlier(&self, place: usize, adds: bool) -> bool {
        place < self.earlier.len() || (adds && place == self.earlier.len())
    }

    /// Whether both sides are in balance after an edit, and too long for a run where a row is taken out.
    fn bears(&self, place: usize, adds: bool) -> bool {
        let (one, other) = (self.earlier.len(), self.later.len());
        let changed = |len: usize| if adds { len + 1 } else { len - 1 };
        let (one, other) = match self.is_earlier(place, adds) {
            true => (changed(one), other),
            false => (one, changed(other)),
        };
        one < 3 * other && other < 3 * one && (adds || one + other > FEW)
    }

    /// What stands between what the later side takes and what it leaves. An entry that comes in behind all passes itself in any case.
    fn boundary(&self, place: usize, adds: bool, gains: bool) -> Bound {
        if adds && gains && place == self.size {
            return Bound::Low;
        }
        boundary(&self.earlier.piece, &self.later.piece, gains)
    }

    /// Edits one side, and gives the entry that passes in both together.
    fn edit(&mut self, place: usize, row: Option<Row>, edit: Edit) -> Bound {
        let bound = self.boundary(place, row.is_some(), edit.gains);
        let passed = if self.is_earlier(place, row.is_some()) {
            bound.max(self.earlier.edit(place, row, edit))
        } else {
            let place = place - self.earlier.len();
            let passed = self.later.edit(place, row, edit);
            edit.own.max(bound.min(passed))
        };
        self.size = self.earlier.len() + self.later.len();
        passed
    }
}

enum Step<'a> {
    Piece(&'a Piece),
    Rows(&'a [Row]),
}

/// How many entries are left, and how many of them come before one.
fn tally(path: &[Step], bound: Entry) -> (usize, usize) {
    let (mut left, mut before) = (0_usize, 0_usize);
    for step in path {
        match step {
            Step::Piece(piece) => {
                left = left.saturating_sub(piece.unmet) + piece.left.len();
                before = (before + piece.removed.before(bound)).saturating_sub(piece.takings())
                    + piece.left.before(bound);
            }
            Step::Rows(rows) => {
                for row in *rows {
                    if let Op::Ins { key } = row.op {
                        left += 1;
                        before += usize::from((key, row.number) < bound);
                    } else {
                        left = left.saturating_sub(1);
                        before = before.saturating_sub(1);
                    }
                }
            }
        }
    }
    (left, before)
}

pub struct SameFused {
    timeline: Timeline,
    present: Bridges,
    past: Subtree,
}

impl SameFused {
    pub fn new() -> SameFused {
        SameFused {
            timeline: Timeline::new(),
            present: Bridges::new(),
            past: Subtree::of_rows(&[]),
        }
    }

    fn path(&self, place: usize) -> Vec<Step<'_>> {
        let mut path = Vec::new();
        self.past.path(place, &mut path);
        path
    }

    /// The key at an index of what is left at a place: that of the last entry put in anywhere before which no more are left than
    /// the index says.
    fn key_at(&self, place: usize, index: usize) -> Option<i64> {
        let path = self.path(place);
        let (mut low, mut high, mut key) = (0, self.present.added_len(), None);
        while low < high {
            let middle = low + (high - low) / 2;
            let entry = self.present.added(middle);
            let (left, before) = tally(&path, entry);
            if index >= left {
                return None;
            }
            if before <= index {
                (low, key) = (middle + 1, Some(entry.0));
            } else {
                high = middle;
            }
        }
        key
    }
}

impl Past for SameFused {
    fn len(&self) -> usize {
        self.timeline.len()
    }

    fn place_at(&self, time: u64) -> usize {
        self.timeline.place_at(time)
    }

    fn place_of(&self, number: u32) -> Option<usize> {
        self.timeline.place_of(number)
    }

    fn row_at(&self, place: usize) -> Row {
        self.timeline.row_at(place)
    }

    fn rows(&self) -> Vec<Row> {
        self.timeline.rows()
    }

    fn failure_after_insert(&self, place: usize, op: Op) -> Option<usize> {
        if op.adds() {
            None
        } else {
            self.present.first_empty(place)
        }
    }

    fn failure_after_remove(&self, place: usize) -> Option<usize> {
        if self.timeline.row_at(place).op.adds() {
            Some(self.present.first_empty(place + 1)? - 2)
        } else {
            None
        }
    }

    fn insert(&mut self, place: usize, row: Row) -> Option<Change> {
        self.timeline.insert(place, row);
        self.past.edit(place, Some(row), Edit::of(row, true));
        Some(self.present.insert(place, row))
    }

    fn append(&mut self, row: Row) -> Option<Change> {
        let place = self.len();
        self.timeline.insert(place, row);
        Some(self.present.insert(place, row))
    }

    fn close(&mut self) {
        self.past = Subtree::of_rows(&self.timeline.rows());
    }

    fn remove(&mut self, place: usize) -> Option<Change> {
        let row = self.timeline.remove(place);
        self.past.edit(place, None, Edit::of(row, false));
        Some(self.present.remove(place))
    }

    fn ask(&mut self, place: usize, question: Question) -> Answer {
        let is_present = place == self.len();
        match question {
            Question::Size => {
                let left = tally(&self.path(place), (0, 0)).0;
                Answer::Number(left as i128)
            }
            Question::Nth(index) if is_present => Answer::of(self.present.nth(index as u32)),
            Question::Nth(index) => Answer::of(self.key_at(place, index as usize)),
            _ => Answer::Nothing,
        }
    }
}
