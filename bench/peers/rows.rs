//! Rows, questions and answers, and what each design has to give.

#[derive(Clone, Copy, PartialEq, Eq)]
pub enum Kind {
    Queue,
    Stack,
    Deque,
    Dict,
    Pq,
    /// A priority queue in the other of its two forms.
    Pqf,
}

/// A queue is taken from at its left end, and a stack has its top there.
#[derive(Clone, Copy)]
pub enum Op {
    AddLeft(i64),
    AddRight(i64),
    TakeLeft,
    TakeRight,
    Put { key: i64, value: i64 },
    Del { key: i64 },
    Ins { key: i64 },
    DelMin,
}

impl Op {
    /// Whether it puts something in.
    pub fn adds(self) -> bool {
        matches!(
            self,
            Op::AddLeft(_) | Op::AddRight(_) | Op::Put { .. } | Op::Ins { .. }
        )
    }
}

#[derive(Clone, Copy)]
pub struct Row {
    pub number: u32,
    pub time: u64,
    pub op: Op,
}

#[derive(Clone, Copy)]
pub enum Question {
    Size,
    /// The item at an index from the left; of a priority queue the key at an index from the least one.
    Nth(u64),
    Right,
    Get(i64),
    Succ(i64),
    Pred(i64),
    Count(i64, i64),
    Sum(i64, i64),
}

#[derive(Clone, Copy)]
pub enum Answer {
    Nothing,
    Number(i128),
    Pair(i64, i64),
}

impl Answer {
    pub fn of(value: Option<i64>) -> Answer {
        value.map_or(Answer::Nothing, |value| Answer::Number(i128::from(value)))
    }

    pub fn of_pair(pair: Option<(i64, i64)>) -> Answer {
        pair.map_or(Answer::Nothing, |(key, value)| Answer::Pair(key, value))
    }
}

/// A key, and the number of the row that added it.
pub type Entry = (i64, u32);

/// How an edit of a priority queue changes its present: the bridge, the entry, and whether it is gained.
#[derive(Clone, Copy)]
pub struct Change {
    pub bridge: Option<usize>,
    pub entry: Entry,
    pub gained: bool,
}

/// Rows in order of time that can all be performed. An edit is made only where its test names no row that fails; the
/// index of such a row is one in the edited rows.
pub trait Past {
    fn len(&self) -> usize;
    /// How many rows stand at a time or before it.
    fn place_at(&self, time: u64) -> usize;
    fn place_of(&self, number: u32) -> Option<usize>;
    fn row_at(&self, place: usize) -> Row;
    fn failure_after_insert(&self, place: usize, op: Op) -> Option<usize>;
    fn failure_after_remove(&self, place: usize) -> Option<usize>;
    /// A design that knows the change of a priority queue tells it.
    fn insert(&mut self, place: usize, row: Row) -> Option<Change>;
    fn remove(&mut self, place: usize) -> Option<Change>;
    /// Puts in a row of a block, behind all others. What a design can make of all rows at once it makes in `close`.
    fn append(&mut self, row: Row) -> Option<Change> {
        self.insert(self.len(), row)
    }
    /// Ends a block.
    fn close(&mut self) {}
    fn ask(&mut self, place: usize, question: Question) -> Answer;
    fn rows(&self) -> Vec<Row>;
}
