//! The priority queue by bridges, as crates/bridge_pq has it: rows with their marks in one tree, the entries in their order
//! in another; and its past by checkpoints, as crates/checkpoint_full has it. A checkpoint is lent to a question: its present
//! is read over a cursor, and what came in since is kept in a heap.

use std::cmp::Reverse;
use std::collections::BinaryHeap;

use crate::rows::{Answer, Change, Entry, Op, Past, Question, Row};
use crate::timeline::Timeline;
use crate::tree::{Item, Tree, Walk};

/// No entry, beside which each dead one is greater, and each survivor less.
const NO_DEAD: Entry = (i64::MIN, 0);
const NO_SURVIVOR: Entry = (i64::MAX, u32::MAX);

#[derive(Clone, Copy)]
struct MarkedRow {
    row: Row,
    survives: bool,
}

/// The walks of the weights and of how many entries are held, and the greatest dead entry and the least survivor with their
/// places.
#[derive(Clone, Copy)]
struct RowMeasure {
    size: usize,
    weights: Walk,
    held: Walk,
    dead: (Entry, usize),
    survivor: (Entry, usize),
}

impl Default for RowMeasure {
    fn default() -> RowMeasure {
        RowMeasure {
            size: 0,
            weights: Walk::default(),
            held: Walk::default(),
            dead: (NO_DEAD, 0),
            survivor: (NO_SURVIVOR, 0),
        }
    }
}

impl Item for MarkedRow {
    type Measure = RowMeasure;

    fn measure(&self) -> RowMeasure {
        let one = RowMeasure {
            size: 1,
            held: Walk::of(1),
            ..RowMeasure::default()
        };
        match self.row.op {
            Op::Ins { key } if self.survives => RowMeasure {
                survivor: ((key, self.row.number), 0),
                ..one
            },
            Op::Ins { key } => RowMeasure {
                weights: Walk::of(1),
                dead: ((key, self.row.number), 0),
                ..one
            },
            _ => RowMeasure {
                weights: Walk::of(-1),
                held: Walk::of(-1),
                ..one
            },
        }
    }

    fn join(one: RowMeasure, other: RowMeasure) -> RowMeasure {
        let moved = |(entry, place): (Entry, usize)| (entry, place + one.size);
        RowMeasure {
            size: one.size + other.size,
            weights: Walk::join(one.weights, other.weights),
            held: Walk::join(one.held, other.held),
            dead: if other.dead.0 > one.dead.0 {
                moved(other.dead)
            } else {
                one.dead
            },
            survivor: if other.survivor.0 < one.survivor.0 {
                moved(other.survivor)
            } else {
                one.survivor
            },
        }
    }
}

/// An entry, and whether it is in the present.
#[derive(Clone, Copy)]
struct MarkedEntry {
    entry: Entry,
    present: bool,
}

impl Item for MarkedEntry {
    type Measure = u32;

    fn measure(&self) -> u32 {
        u32::from(self.present)
    }

    fn join(one: u32, other: u32) -> u32 {
        one + other
    }
}

#[derive(Clone)]
pub struct Bridges {
    rows: Tree<MarkedRow>,
    entries: Tree<MarkedEntry>,
}

impl Bridges {
    pub fn new() -> Bridges {
        Bridges {
            rows: Tree::empty(),
            entries: Tree::empty(),
        }
    }

    pub fn first_empty(&self, from: usize) -> Option<usize> {
        let start = self.rows.prefix(from).held.sum();
        self.rows
            .first_place(from, &|measure| start <= i64::from(measure.held.falls))
    }

    fn first_bridge(&self, from: usize) -> usize {
        let start = self.rows.prefix(from).weights.sum();
        self.rows
            .first_place(from, &|measure| start <= i64::from(measure.weights.falls))
            .unwrap()
    }

    fn last_bridge(&self, to: usize) -> usize {
        let end = self.rows.prefix(to).weights.sum();
        self.rows
            .last_place(to, &|measure| end <= i64::from(measure.weights.rises))
            .unwrap()
    }

    /// How many entries the rows put in, be they in the present or not.
    pub fn added_len(&self) -> usize {
        self.entries.len()
    }

    /// The one at a rank of these, in their order.
    pub fn added(&self, rank: usize) -> Entry {
        self.entries.get(rank).entry
    }

    fn entry_place(&self, entry: Entry) -> usize {
        self.entries.partition_point(|marked| marked.entry < entry)
    }

    fn mark(&mut self, entry: Entry, place: usize, survives: bool) {
        self.rows.change(place, |marked| marked.survives = survives);
        let place = self.entry_place(entry);
        self.entries
            .change(place, |marked| marked.present = survives);
    }

    pub fn insert(&mut self, place: usize, row: Row) -> Change {
        let moved = |other| if other < place { other } else { other + 1 };
        let (bridge, entry, there, gained) = match row.op {
            Op::Ins { key } => {
                let own = (key, row.number);
                let bridge = self.last_bridge(place);
                let (dead, at) = self.rows.suffix(bridge).dead;
                let (entry, there) = if dead > own {
                    (dead, moved(bridge + at))
                } else {
                    (own, place)
                };
                self.entries.insert(
                    self.entry_place(own),
                    MarkedEntry {
                        entry: own,
                        present: false,
                    },
                );
                (bridge, entry, there, true)
            }
            _ => {
                let bridge = self.first_bridge(place);
                let (entry, at) = self.rows.prefix(bridge).survivor;
                (bridge, entry, moved(at), false)
            }
        };
        self.rows.insert(
            place,
            MarkedRow {
                row,
                survives: false,
            },
        );
        self.mark(entry, there, gained);
        Change {
            bridge: Some(bridge),
            entry,
            gained,
        }
    }

    pub fn remove(&mut self, place: usize) -> Change {
        let moved = |other| if other < place { other } else { other - 1 };
        let MarkedRow { row, survives } = self.rows.get(place);
        let found = match row.op {
            Op::Ins { .. } if survives => None,
            Op::Ins { .. } => {
                let bridge = self.first_bridge(place + 1);
                let (entry, at) = self.rows.prefix(bridge).survivor;
                Some((bridge, entry, moved(at), false))
            }
            _ => {
                let bridge = self.last_bridge(place);
                let (entry, at) = self.rows.suffix(bridge).dead;
                Some((bridge, entry, moved(bridge + at), true))
            }
        };
        self.rows.remove(place);
        if let Op::Ins { key } = row.op {
            self.entries.remove(self.entry_place((key, row.number)));
        }
        match (found, row.op) {
            (Some((bridge, entry, there, gained)), _) => {
                self.mark(entry, there, gained);
                Change {
                    bridge: Some(bridge),
                    entry,
                    gained,
                }
            }
            (None, Op::Ins { key }) => Change {
                bridge: None,
                entry: (key, row.number),
                gained: false,
            },
            (None, _) => unreachable!("only an entry that survives leaves without a bridge"),
        }
    }

    fn len(&self) -> usize {
        self.rows.len()
    }

    pub fn nth(&self, index: u32) -> Option<i64> {
        let place = self.entries.first_place(0, &|present| present > index)?;
        Some(self.entries.get(place - 1).entry.0)
    }

    /// The key at an index of what a later queue, which has these rows first, holds at a place.
    fn nth_after(&self, later: &Bridges, place: usize, index: u32) -> Option<i64> {
        let mut moves = vec![None; place - self.len()];
        later
            .rows
            .read(self.len(), |marked| marked.added(), &mut moves);
        let mut held = Held::new(&self.entries);
        for added in moves {
            match added {
                Some(entry) => held.fresh.push(Reverse(entry)),
                None => {
                    held.take();
                }
            }
        }
        let near = (held.fresh.len() as u32).min(index);
        held.pass(index - near);
        for _ in 0..near {
            held.take();
        }
        held.take().map(|entry| entry.0)
    }
}

impl MarkedRow {
    fn added(&self) -> Option<Entry> {
        match self.row.op {
            Op::Ins { key } => Some((key, self.row.number)),
            _ => None,
        }
    }
}

/// How many entries a cursor reads at a time.
const WINDOW: usize = 32;

/// A walk through the present of a queue, the least entry first.
struct Cursor<'a> {
    entries: &'a Tree<MarkedEntry>,
    passed: u32,
    window: [MarkedEntry; WINDOW],
    next: usize,
    end: usize,
}

impl Cursor<'_> {
    fn take(&mut self) -> Option<Entry> {
        while self.next < self.end {
            let item = self.window[self.next];
            self.next += 1;
            if item.present {
                self.passed += 1;
                return Some(item.entry);
            }
        }
        let passed = self.passed;
        let place = self.entries.first_place(0, &|present| present > passed)? - 1;
        self.end = self.entries.read(place, |item| *item, &mut self.window);
        self.next = 1;
        self.passed += 1;
        Some(self.window[0].entry)
    }
}

/// The entries of an earlier queue that were not taken, the first of them apart, and those that came in since.
struct Held<'a> {
    first: Option<Entry>,
    left: Cursor<'a>,
    fresh: BinaryHeap<Reverse<Entry>>,
}

impl<'a> Held<'a> {
    fn new(entries: &'a Tree<MarkedEntry>) -> Held<'a> {
        let none = MarkedEntry {
            entry: (0, 0),
            present: false,
        };
        let mut left = Cursor {
            entries,
            passed: 0,
            window: [none; WINDOW],
            next: 0,
            end: 0,
        };
        Held {
            first: left.take(),
            left,
            fresh: BinaryHeap::new(),
        }
    }

    fn take(&mut self) -> Option<Entry> {
        match (self.fresh.peek(), self.first) {
            (Some(Reverse(fresh)), first) if first.is_none_or(|first| *fresh < first) => {
                self.fresh.pop().map(|Reverse(fresh)| fresh)
            }
            (_, first) => {
                self.first = self.left.take();
                first
            }
        }
    }

    /// Goes over so many of the entries that were there.
    fn pass(&mut self, count: u32) {
        if count > 0 {
            self.left.passed += count - 1;
            self.left.end = 0;
            self.first = self.left.take();
        }
    }
}

const LEAST_WIDTH: usize = 1_024;
const MOST_CHECKPOINTS: usize = 31;
/// How far apart places are that follow one another closely.
const CLOSE: usize = 32;

pub struct SamePq {
    timeline: Timeline,
    present: Bridges,
    /// Structures of first rows, the latest first and the start last; none before the first question about the past.
    checkpoints: Vec<Bridges>,
    /// Those that were dropped, the last of them first, one in each gap.
    spares: Vec<Bridges>,
    width: usize,
    /// A copy that follows close questions, the place of the last one, and how many there were.
    copy: Option<Bridges>,
    last: usize,
    run: usize,
}

impl SamePq {
    pub fn new() -> SamePq {
        SamePq {
            timeline: Timeline::new(),
            present: Bridges::new(),
            checkpoints: Vec::new(),
            spares: Vec::new(),
            width: LEAST_WIDTH,
            copy: None,
            last: usize::MAX,
            run: 0,
        }
    }

    /// Makes a checkpoint at the start and at each multiple of the least width that needs few enough.
    fn make(&mut self) {
        let last = self.len().saturating_sub(1);
        while last / self.width > MOST_CHECKPOINTS {
            self.width *= 2;
        }
        let mut structure = self.copy_at(&self.present, last / self.width * self.width);
        while structure.len() > 0 {
            let earlier = self.copy_at(&structure, structure.len().saturating_sub(self.width));
            self.checkpoints.push(structure);
            structure = earlier;
        }
        self.checkpoints.push(structure);
    }

    fn copy_at(&self, later: &Bridges, place: usize) -> Bridges {
        let mut structure = later.clone();
        self.move_to(&mut structure, place);
        structure
    }

    /// The copy is good as far as no row before its end has changed.
    fn after_edit(&mut self, place: usize) {
        if place < self.last {
            self.last = usize::MAX;
        }
        self.copy.take_if(|structure| structure.len() > place);
    }

    /// The index of the latest checkpoint that is not after the place.
    fn nearest(&self, place: usize) -> usize {
        self.checkpoints
            .iter()
            .position(|structure| structure.len() <= place)
            .unwrap()
    }

    /// Where the checkpoint before this index stands, or the present.
    fn place_before(&self, index: usize) -> usize {
        match index {
            0 => self.present.len(),
            _ => self.checkpoints[index - 1].len(),
        }
    }

    /// Makes a checkpoint between the neighbours of the place where they are a width apart.
    fn make_room(&mut self, place: usize) {
        if self.checkpoints.is_empty() {
            return;
        }
        let index = self.nearest(place);
        let earlier = self.checkpoints[index].len();
        let later = self.place_before(index);
        if later < earlier + self.width {
            return;
        }
        let at = if place == later {
            later
        } else {
            earlier + (later - earlier) / 2
        };
        let between = match (self.spare_between(earlier, later), index) {
            (Some(mut structure), _) => {
                self.move_to(&mut structure, at);
                structure
            }
            (None, 0) => self.copy_at(&self.present, at),
            (None, _) => self.copy_at(&self.checkpoints[index - 1], at),
        };
        self.checkpoints.insert(index, between);
    }

    /// Takes out what was dropped between two places.
    fn spare_between(&mut self, earlier: usize, later: usize) -> Option<Bridges> {
        let index = self
            .spares
            .iter()
            .position(|structure| (earlier..=later).contains(&structure.len()))?;
        Some(self.spares.remove(index))
    }

    /// Drops each checkpoint whose neighbours are at most a width apart.
    fn thin(&mut self) {
        let mut index = 0;
        while index + 1 < self.checkpoints.len() {
            let (earlier, later) = (self.checkpoints[index + 1].len(), self.place_before(index));
            if later <= earlier + self.width {
                self.spare_between(earlier, later);
                let dropped = self.checkpoints.remove(index);
                self.spares.insert(0, dropped);
            } else {
                index += 1;
            }
        }
    }

    fn settle(&mut self) {
        self.thin();
        if self.checkpoints.len() > 1 + MOST_CHECKPOINTS {
            self.width *= 2;
            self.thin();
        }
        self.spares
            .truncate(1 + MOST_CHECKPOINTS - self.checkpoints.len());
    }

    fn changed(&mut self, place: usize) -> impl Iterator<Item = &mut Bridges> {
        self.checkpoints
            .iter_mut()
            .chain(self.spares.iter_mut())
            .filter(move |structure| structure.len() > place)
    }

    /// Whether a structure is moved to the place for a question.
    fn serves(&self, structure: &Bridges, between: usize, place: usize) -> bool {
        let apart = structure.len().abs_diff(place);
        let goes_on = self.run >= self.width / CLOSE;
        2 * apart <= 3 * between && (goes_on || CLOSE * apart <= between)
    }

    /// Copies the nearest checkpoint where close questions go on and no copy is near.
    fn follow(&mut self, place: usize, index: usize) {
        let follows = self.last <= place && place - self.last <= CLOSE;
        self.run = if follows { self.run + 1 } else { 0 };
        self.last = place;
        let between = place - self.checkpoints[index].len();
        let near = self.copy.as_ref().is_some_and(|structure| {
            self.serves(structure, between, place) || structure.len().abs_diff(place) <= self.width
        });
        if self.run >= self.width / CLOSE && !near {
            self.copy = Some(self.checkpoints[index].clone());
        }
    }

    fn nth_at(&mut self, place: usize, index: u32) -> Option<i64> {
        if self.checkpoints.is_empty() {
            self.make();
        }
        let nearest = self.nearest(place);
        self.follow(place, nearest);
        let between = place - self.checkpoints[nearest].len();
        if between == 0 {
            return self.checkpoints[nearest].nth(index);
        }
        match self.copy.take() {
            Some(mut structure) if self.serves(&structure, between, place) => {
                self.move_to(&mut structure, place);
                let answer = structure.nth(index);
                self.copy = Some(structure);
                answer
            }
            other => {
                self.copy = other;
                self.checkpoints[nearest].nth_after(&self.present, place, index)
            }
        }
    }

    /// Appends rows, or takes them off, until a structure performs as many first rows as this.
    fn move_to(&self, structure: &mut Bridges, place: usize) {
        while structure.len() < place {
            structure.insert(structure.len(), self.present.rows.get(structure.len()).row);
        }
        while structure.len() > place {
            structure.remove(structure.len() - 1);
        }
    }
}

impl Past for SamePq {
    fn len(&self) -> usize {
        self.timeline.len()
    }

    fn place_at(&self, time: u64) -> usize {
        self.timeline.place_at(time)
    }

    fn place_of(&self, number: u32) -> Option<usize> {
        self.timeline.place_of(number)
    }

    fn row_at(&self, place: usize) -> Row {
        self.timeline.row_at(place)
    }

    fn rows(&self) -> Vec<Row> {
        self.timeline.rows()
    }

    fn failure_after_insert(&self, place: usize, op: Op) -> Option<usize> {
        if op.adds() {
            None
        } else {
            self.present.first_empty(place)
        }
    }

    fn failure_after_remove(&self, place: usize) -> Option<usize> {
        if self.timeline.row_at(place).op.adds() {
            Some(self.present.first_empty(place + 1)? - 2)
        } else {
            None
        }
    }

    fn insert(&mut self, place: usize, row: Row) -> Option<Change> {
        self.timeline.insert(place, row);
        self.make_room(place);
        let change = self.present.insert(place, row);
        self.changed(place).for_each(|structure| {
            structure.insert(place, row);
        });
        self.after_edit(place);
        self.settle();
        Some(change)
    }

    fn remove(&mut self, place: usize) -> Option<Change> {
        self.timeline.remove(place);
        self.changed(place).for_each(|structure| {
            structure.remove(place);
        });
        self.after_edit(place);
        let change = self.present.remove(place);
        self.settle();
        Some(change)
    }

    fn ask(&mut self, place: usize, question: Question) -> Answer {
        match question {
            Question::Size => {
                Answer::Number(i128::from(self.present.rows.prefix(place).held.sum()))
            }
            Question::Nth(index) if place == self.len() => {
                Answer::of(self.present.nth(index as u32))
            }
            Question::Nth(index) => Answer::of(self.nth_at(place, index as u32)),
            _ => Answer::Nothing,
        }
    }
}
