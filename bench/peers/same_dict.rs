//! The dictionary by lifetimes, as crates/retro_dictionary has it: its parts are in the folder dictionary.

use crate::index::Op as KeyOp;
use crate::past::{self, Dictionary, Past as _};
use crate::rows::{Answer, Change, Op, Past, Question, Row};
use crate::timeline::Timeline;

pub struct SameDict {
    timeline: Timeline,
    dictionary: Dictionary,
}

fn op_of(op: Op) -> KeyOp {
    match op {
        Op::Put { key, value } => KeyOp::Put { key, value },
        Op::Del { key } => KeyOp::Del { key },
        _ => unreachable!("a dictionary has rows of its own kind"),
    }
}

impl SameDict {
    pub fn new() -> SameDict {
        SameDict {
            timeline: Timeline::new(),
            dictionary: Dictionary::new(),
        }
    }
}

impl Past for SameDict {
    fn len(&self) -> usize {
        self.timeline.len()
    }

    fn place_at(&self, time: u64) -> usize {
        self.timeline.place_at(time)
    }

    fn place_of(&self, number: u32) -> Option<usize> {
        self.timeline.place_of(number)
    }

    fn row_at(&self, place: usize) -> Row {
        self.timeline.row_at(place)
    }

    fn rows(&self) -> Vec<Row> {
        self.timeline.rows()
    }

    fn failure_after_insert(&self, place: usize, op: Op) -> Option<usize> {
        self.dictionary
            .failure_after_insert(place as u32, op_of(op))
            .map(|index| index as usize)
    }

    fn failure_after_remove(&self, place: usize) -> Option<usize> {
        self.dictionary
            .failure_after_remove(place as u32)
            .map(|index| index as usize)
    }

    fn insert(&mut self, place: usize, row: Row) -> Option<Change> {
        self.timeline.insert(place, row);
        self.dictionary.insert(
            place as u32,
            past::Row {
                number: row.number,
                time: row.time,
                op: op_of(row.op),
            },
        );
        None
    }

    fn remove(&mut self, place: usize) -> Option<Change> {
        self.timeline.remove(place);
        self.dictionary.remove(place as u32);
        None
    }

    fn ask(&mut self, place: usize, question: Question) -> Answer {
        let question = match question {
            Question::Get(key) => past::Question::Get { key },
            Question::Succ(key) => past::Question::Succ { key },
            Question::Pred(key) => past::Question::Pred { key },
            Question::Count(low, high) => past::Question::Count { low, high },
            Question::Sum(low, high) => past::Question::Sum { low, high },
            _ => past::Question::Count {
                low: i64::MIN,
                high: i64::MAX,
            },
        };
        match self.dictionary.ask(place as u32, question) {
            past::Answer::Number(number) => Answer::Number(number),
            past::Answer::Pair(pair) => Answer::Pair(pair.key, pair.value),
            past::Answer::Nothing => Answer::Nothing,
        }
    }
}
