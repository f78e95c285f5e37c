//! A history as one writes it by hand in an hour: a vector of rows in order of time, performed from the first one on
//! whenever the past is edited or asked, into a container of std's. A row at the end goes to the present alone.

use crate::rows::{Answer, Change, Kind, Op, Past, Question, Row};
use std::cmp::Reverse;
use std::collections::{BTreeMap, BinaryHeap, VecDeque};

enum State {
    Items(VecDeque<i64>),
    Pairs(BTreeMap<i64, i64>),
    Entries(BinaryHeap<Reverse<(i64, u32)>>),
}

impl State {
    fn empty(kind: Kind) -> State {
        match kind {
            Kind::Dict => State::Pairs(BTreeMap::new()),
            Kind::Pq | Kind::Pqf => State::Entries(BinaryHeap::new()),
            _ => State::Items(VecDeque::new()),
        }
    }

    /// Performs an operation, and says whether it could be performed.
    fn perform(&mut self, op: Op, number: u32) -> bool {
        match (self, op) {
            (State::Items(items), Op::AddLeft(value)) => items.push_front(value),
            (State::Items(items), Op::AddRight(value)) => items.push_back(value),
            (State::Items(items), Op::TakeLeft) => return items.pop_front().is_some(),
            (State::Items(items), Op::TakeRight) => return items.pop_back().is_some(),
            (State::Pairs(pairs), Op::Put { key, value }) => drop(pairs.insert(key, value)),
            (State::Pairs(pairs), Op::Del { key }) => return pairs.remove(&key).is_some(),
            (State::Entries(entries), Op::Ins { key }) => entries.push(Reverse((key, number))),
            (State::Entries(entries), Op::DelMin) => return entries.pop().is_some(),
            _ => return false,
        }
        true
    }

    /// Whether there is something for an operation to take.
    fn holds(&self, op: Op) -> bool {
        match (self, op) {
            (State::Pairs(pairs), Op::Del { key }) => pairs.contains_key(&key),
            (State::Entries(entries), _) => !entries.is_empty(),
            (State::Items(items), _) => !items.is_empty(),
            _ => false,
        }
    }

    fn answer(&self, question: Question) -> Answer {
        match (self, question) {
            (State::Items(items), Question::Size) => Answer::Number(items.len() as i128),
            (State::Items(items), Question::Nth(index)) => {
                Answer::of(items.get(index as usize).copied())
            }
            (State::Items(items), _) => Answer::of(items.back().copied()),
            (State::Entries(entries), Question::Size) => Answer::Number(entries.len() as i128),
            (State::Entries(entries), Question::Nth(0)) => {
                Answer::of(entries.peek().map(|entry| entry.0.0))
            }
            (State::Entries(entries), Question::Nth(index)) => {
                let mut sorted: Vec<_> = entries.iter().map(|entry| entry.0).collect();
                sorted.sort_unstable();
                Answer::of(sorted.get(index as usize).map(|entry| entry.0))
            }
            (State::Entries(_), _) => Answer::Nothing,
            (State::Pairs(pairs), question) => of_pairs(pairs, question),
        }
    }
}

fn of_pairs(pairs: &BTreeMap<i64, i64>, question: Question) -> Answer {
    let copied = |(key, value): (&i64, &i64)| (*key, *value);
    match question {
        Question::Size => Answer::Number(pairs.len() as i128),
        Question::Get(key) => Answer::of(pairs.get(&key).copied()),
        Question::Succ(key) => Answer::of_pair(pairs.range(key..).next().map(copied)),
        Question::Pred(key) => Answer::of_pair(pairs.range(..=key).next_back().map(copied)),
        Question::Count(low, high) => Answer::Number(pairs.range(low..=high).count() as i128),
        Question::Sum(low, high) => Answer::Number(
            pairs
                .range(low..=high)
                .map(|pair| i128::from(*pair.1))
                .sum(),
        ),
        _ => Answer::Nothing,
    }
}

pub struct Replay {
    kind: Kind,
    rows: Vec<Row>,
    present: State,
}

impl Replay {
    pub fn new(kind: Kind) -> Replay {
        Replay {
            kind,
            rows: Vec::new(),
            present: State::empty(kind),
        }
    }

    /// The state after the rows before a place.
    fn state_at(&self, place: usize) -> State {
        let mut state = State::empty(self.kind);
        for row in &self.rows[..place] {
            state.perform(row.op, row.number);
        }
        state
    }

    /// The index of the first of these operations that cannot be performed.
    fn failure(&self, ops: impl Iterator<Item = (Op, u32)>) -> Option<usize> {
        let mut state = State::empty(self.kind);
        ops.enumerate()
            .find_map(|(index, (op, number))| (!state.perform(op, number)).then_some(index))
    }

    fn ops(&self) -> impl Iterator<Item = (Op, u32)> + '_ {
        self.rows.iter().map(|row| (row.op, row.number))
    }
}

impl Past for Replay {
    fn len(&self) -> usize {
        self.rows.len()
    }

    fn place_at(&self, time: u64) -> usize {
        self.rows.partition_point(|row| row.time <= time)
    }

    fn place_of(&self, number: u32) -> Option<usize> {
        self.rows.iter().position(|row| row.number == number)
    }

    fn row_at(&self, place: usize) -> Row {
        self.rows[place]
    }

    fn failure_after_insert(&self, place: usize, op: Op) -> Option<usize> {
        if op.adds() {
            return None;
        }
        if place == self.rows.len() {
            return (!self.present.holds(op)).then_some(place);
        }
        let after = self.ops().skip(place);
        self.failure(self.ops().take(place).chain([(op, u32::MAX)]).chain(after))
    }

    fn failure_after_remove(&self, place: usize) -> Option<usize> {
        if !self.rows[place].op.adds() {
            return None;
        }
        self.failure(self.ops().take(place).chain(self.ops().skip(place + 1)))
    }

    fn rows(&self) -> Vec<Row> {
        self.rows.clone()
    }

    fn insert(&mut self, place: usize, row: Row) -> Option<Change> {
        let is_last = place == self.rows.len();
        self.rows.insert(place, row);
        if is_last {
            self.present.perform(row.op, row.number);
        } else {
            self.present = self.state_at(self.rows.len());
        }
        None
    }

    fn remove(&mut self, place: usize) -> Option<Change> {
        self.rows.remove(place);
        self.present = self.state_at(self.rows.len());
        None
    }

    fn ask(&mut self, place: usize, question: Question) -> Answer {
        if place == self.rows.len() {
            self.present.answer(question)
        } else {
            self.state_at(place).answer(question)
        }
    }
}
