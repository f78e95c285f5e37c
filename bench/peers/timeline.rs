//! Rows in order of time over runs, labels and trees, as crates/order_timeline and crates/order_labels have them: a number
//! is looked up in pages of a table, which gives the name of a run; the run's label says where it stands.

use crate::rows::Row;
use crate::tree::{Item, Tree};

impl Item for Row {
    type Measure = ();
    fn measure(&self) {}
    fn join(_: (), _: ()) {}
}

#[derive(Clone, Copy)]
struct Label(u64);

impl Item for Label {
    type Measure = ();
    fn measure(&self) {}
    fn join(_: (), _: ()) {}
}

/// The name of a run, and how many rows it has.
#[derive(Clone, Copy)]
struct Run {
    name: u32,
    rows: u32,
}

impl Item for Run {
    type Measure = u32;

    fn measure(&self) -> u32 {
        self.rows
    }

    fn join(one: u32, other: u32) -> u32 {
        one + other
    }
}

const LIMIT: u64 = 1 << 40;
const LONGEST_RUN: u32 = 32;

pub struct Timeline {
    rows: Tree<Row>,
    runs: Tree<Run>,
    labels: Tree<Label>,
    /// The label of each name.
    table: Vec<u64>,
    numbers: Numbers,
}

/// The name of each row's run, by the row's number, in pages. A page without a name is empty.
struct Numbers(Vec<Vec<Option<u32>>>);

const SPAN: usize = 256;

impl Numbers {
    fn get(&self, number: u32) -> Option<u32> {
        let number = number as usize;
        *self.0.get(number / SPAN)?.get(number % SPAN)?
    }

    fn insert(&mut self, number: u32, name: u32) {
        let number = number as usize;
        while self.0.len() <= number / SPAN {
            self.0.push(Vec::new());
        }
        let page = &mut self.0[number / SPAN];
        if page.is_empty() {
            page.resize(SPAN, None);
        }
        page[number % SPAN] = Some(name);
    }

    fn remove(&mut self, number: u32) {
        let number = number as usize;
        let page = &mut self.0[number / SPAN];
        page[number % SPAN] = None;
        if page.iter().all(|name| name.is_none()) {
            *page = Vec::new();
        }
    }
}

impl Timeline {
    pub fn new() -> Timeline {
        let mut timeline = Timeline {
            rows: Tree::empty(),
            runs: Tree::empty(),
            labels: Tree::empty(),
            table: Vec::new(),
            numbers: Numbers(Vec::new()),
        };
        timeline.add_run(0, 0);
        timeline
    }

    pub fn len(&self) -> usize {
        self.rows.len()
    }

    pub fn row_at(&self, place: usize) -> Row {
        self.rows.get(place)
    }

    pub fn rows(&self) -> Vec<Row> {
        let mut rows = Vec::with_capacity(self.len());
        self.rows.each(&mut |row| rows.push(row));
        rows
    }

    pub fn place_at(&self, time: u64) -> usize {
        self.rows.partition_point(|row| row.time <= time)
    }

    fn add_run(&mut self, at: usize, rows: u32) -> u32 {
        let name = self.table.len() as u32;
        let count = self.labels.len();
        let before = if at == 0 {
            0
        } else {
            self.labels.get(at - 1).0
        };
        let after = if at == count {
            LIMIT
        } else {
            self.labels.get(at).0
        };
        self.runs.insert(at, Run { name, rows });
        self.labels.insert(at, Label((before + after) / 2));
        self.table.push((before + after) / 2);
        if after - before < 2 {
            let gap = 1 << (LIMIT / (count as u64 + 2)).ilog2();
            for index in 0..=count {
                let label = (index as u64 + 1) * gap;
                self.labels.change(index, |old| old.0 = label);
                self.table[self.runs.get(index).name as usize] = label;
            }
        }
        name
    }

    /// The run that holds a place.
    fn run_of(&self, place: usize) -> usize {
        match self.runs.first_place(0, &|rows| rows as usize > place) {
            Some(after) => after - 1,
            None => self.runs.len() - 1,
        }
    }

    pub fn place_of(&self, number: u32) -> Option<usize> {
        let label = self.table[self.numbers.get(number)? as usize];
        let run = self.labels.partition_point(|other| other.0 < label);
        let start = self.runs.prefix(run) as usize;
        let end = start + self.runs.get(run).rows as usize;
        self.rows.find(start, end, &|row| row.number == number)
    }

    pub fn insert(&mut self, place: usize, row: Row) {
        let at = if place == 0 {
            0
        } else {
            self.run_of(place - 1)
        };
        let run = self.runs.get(at);
        self.numbers.insert(row.number, run.name);
        self.rows.insert(place, row);
        self.runs.change(at, |run| run.rows += 1);
        if run.rows >= LONGEST_RUN {
            let all = run.rows + 1;
            let kept = if at + 1 == self.runs.len() {
                all - 1
            } else {
                all / 2
            };
            self.runs.change(at, |run| run.rows = kept);
            let name = self.add_run(at + 1, all - kept);
            let start = self.runs.prefix(at + 1) as usize;
            for place in start..start + (all - kept) as usize {
                self.numbers.insert(self.rows.get(place).number, name);
            }
        }
    }

    pub fn remove(&mut self, place: usize) -> Row {
        let at = self.run_of(place);
        let row = self.rows.get(place);
        self.numbers.remove(row.number);
        self.rows.remove(place);
        self.runs.change(at, |run| run.rows -= 1);
        if self.runs.get(at).rows == 0 && self.runs.len() > 1 {
            self.runs.remove(at);
            self.labels.remove(at);
        }
        row
    }
}
