//! A dictionary over leaves: the rows in order of time, and for each key the numbers of its rows in that order. A question
//! about one key is a search among its rows; neighbours, counts and sums go from key to key.

use crate::leaves::{Item, Leaves, Sum};
use crate::rows::{Answer, Change, Op, Past, Question, Row};
use std::collections::BTreeMap;

#[derive(Clone, Copy, Default)]
pub struct Last {
    time: u64,
}

impl Sum for Last {
    fn join(self, after: Last) -> Last {
        Last {
            time: self.time.max(after.time),
        }
    }

    fn time(self) -> u64 {
        self.time
    }
}

#[derive(Clone, Copy)]
struct Timed {
    number: u32,
    time: u64,
}

impl Item for Timed {
    type Sum = Last;

    fn sum(&self) -> Last {
        Last { time: self.time }
    }

    fn number(&self) -> u32 {
        self.number
    }

    fn time(&self) -> u64 {
        self.time
    }
}

fn key_of(op: Op) -> i64 {
    match op {
        Op::Put { key, .. } | Op::Del { key } => key,
        _ => 0,
    }
}

pub struct BestDict {
    rows: Leaves<Timed>,
    keys: BTreeMap<i64, Vec<u32>>,
    /// The time and the operation of each number.
    told: Vec<(u64, Op)>,
}

impl BestDict {
    pub fn new() -> BestDict {
        BestDict {
            rows: Leaves::new(),
            keys: BTreeMap::new(),
            told: vec![(0, Op::TakeLeft)],
        }
    }

    /// How many of these rows stand before a place, at which or after which all rows have this time or a later one.
    fn before(&self, numbers: &[u32], place: usize, time: u64) -> usize {
        numbers.partition_point(|number| {
            let at = self.told[*number as usize].0;
            at < time || (at == time && self.rows.place_of(*number) < Some(place))
        })
    }

    fn time_at(&self, place: usize) -> u64 {
        if place < self.rows.len() {
            self.rows.get(place).time
        } else {
            u64::MAX
        }
    }

    fn op(&self, number: u32) -> Op {
        self.told[number as usize].1
    }

    /// The value of a key before a place.
    fn value(&self, numbers: &[u32], place: usize, time: u64) -> Option<i64> {
        let count = self.before(numbers, place, time);
        match self.op(numbers[count.checked_sub(1)?]) {
            Op::Put { value, .. } => Some(value),
            _ => None,
        }
    }

    /// Whether a key has a value before a place, and its next row where that one takes it out.
    fn beside(&self, key: i64, place: usize, skipped: usize) -> (bool, Option<u32>) {
        let Some(numbers) = self.keys.get(&key) else {
            return (false, None);
        };
        let count = self.before(numbers, place, self.time_at(place));
        let is_put = |number: &u32| matches!(self.op(*number), Op::Put { .. });
        let next = numbers
            .get(count + skipped)
            .filter(|number| !is_put(number));
        (count > 0 && is_put(&numbers[count - 1]), next.copied())
    }
}

impl Past for BestDict {
    fn len(&self) -> usize {
        self.rows.len()
    }

    fn place_at(&self, time: u64) -> usize {
        self.rows.place_at(time)
    }

    fn place_of(&self, number: u32) -> Option<usize> {
        self.rows.place_of(number)
    }

    fn row_at(&self, place: usize) -> Row {
        let row = self.rows.get(place);
        Row {
            number: row.number,
            time: row.time,
            op: self.op(row.number),
        }
    }

    fn rows(&self) -> Vec<Row> {
        let mut rows = Vec::with_capacity(self.len());
        self.rows.each(0, self.len(), |row| {
            rows.push(Row {
                number: row.number,
                time: row.time,
                op: self.op(row.number),
            })
        });
        rows
    }

    fn failure_after_insert(&self, place: usize, op: Op) -> Option<usize> {
        let Op::Del { key } = op else { return None };
        let (is_there, next) = self.beside(key, place, 0);
        if !is_there {
            return Some(place);
        }
        Some(self.rows.place_of(next?)? + 1)
    }

    fn failure_after_remove(&self, place: usize) -> Option<usize> {
        let Op::Put { key, .. } = self.op(self.rows.get(place).number) else {
            return None;
        };
        let (is_there, next) = self.beside(key, place, 1);
        if is_there {
            None
        } else {
            Some(self.rows.place_of(next?)? - 1)
        }
    }

    fn insert(&mut self, place: usize, row: Row) -> Option<Change> {
        let key = key_of(row.op);
        let count = self.keys.get(&key).map_or(0, |numbers| {
            self.before(numbers, place, self.time_at(place))
        });
        self.keys.entry(key).or_default().insert(count, row.number);
        if row.number as usize >= self.told.len() {
            self.told.resize(row.number as usize + 1, (0, Op::TakeLeft));
        }
        self.told[row.number as usize] = (row.time, row.op);
        self.rows.insert(
            place,
            Timed {
                number: row.number,
                time: row.time,
            },
        );
        None
    }

    fn remove(&mut self, place: usize) -> Option<Change> {
        let key = key_of(self.op(self.rows.get(place).number));
        let count = self.before(&self.keys[&key], place, self.time_at(place));
        let numbers = self.keys.get_mut(&key).unwrap();
        numbers.remove(count);
        if numbers.is_empty() {
            self.keys.remove(&key);
        }
        self.rows.remove(place);
        None
    }

    fn ask(&mut self, place: usize, question: Question) -> Answer {
        let time = self.time_at(place);
        let pair =
            |(key, numbers): (&i64, &Vec<u32>)| Some((*key, self.value(numbers, place, time)?));
        let within = |low: i64, high: i64| self.keys.range(low..=high).filter_map(pair);
        match question {
            Question::Get(key) => Answer::of(
                self.keys
                    .get(&key)
                    .and_then(|numbers| self.value(numbers, place, time)),
            ),
            Question::Succ(key) => Answer::of_pair(self.keys.range(key..).find_map(pair)),
            Question::Pred(key) => Answer::of_pair(self.keys.range(..=key).rev().find_map(pair)),
            Question::Count(low, high) => Answer::Number(within(low, high).count() as i128),
            Question::Sum(low, high) => {
                Answer::Number(within(low, high).map(|pair| i128::from(pair.1)).sum())
            }
            _ => Answer::Number(self.keys.iter().filter_map(pair).count() as i128),
        }
    }
}
