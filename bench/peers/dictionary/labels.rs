//! Labels of rows, as crates/order_labels has them, chosen as crates/retro_dictionary does.

use crate::tree::{Item, Tree};

#[derive(Clone, Copy)]
pub struct Label(u64);

impl Item for Label {
    type Measure = ();
    fn measure(&self) {}
    fn join(_: (), _: ()) {}
}

/// Where labels end.
pub const END: u64 = 1 << 40;

/// The label of the row at an index, once all of so many rows are relabelled.
pub fn spread(index: u32, count: u32) -> u64 {
    let gap = 1 << (END / (u64::from(count) + 1)).ilog2();
    (u64::from(index) + 1) * gap
}

/// Which of the rows beside a place came in lately.
#[derive(Clone, Copy)]
pub enum Lately {
    Before,
    After,
    Neither,
}

/// So many insertions lie between two relabellings at the least.
const LEAST_INSERTIONS: u32 = 22;

/// A row takes one part in so many of a gap at the least.
const PARTS: u64 = 4096;

/// The labels beside a place: the last two before it, and the first two from it on.
#[derive(Clone, Copy)]
struct Beside {
    former: u64,
    before: u64,
    after: u64,
    later: u64,
}

/// The greatest power of two up to a distance.
fn rounded(distance: u64) -> u64 {
    1 << distance.max(1).ilog2()
}

/// The label of a row after all others: half the last gap further on, within a quarter of the room.
fn label_after(beside: Beside) -> u64 {
    let last = beside.before;
    let (gap, room) = (last - beside.former, END - last);
    let unit = rounded((room >> 17).max((gap / 2).min(room / 4)));
    last.next_multiple_of(unit) + unit
}

/// Labels of rows, which rise from above 0 to below the end, and how many were put in since all were relabelled.
pub struct Labels {
    rows: Tree<Label>,
    since: u32,
}

impl Labels {
    pub fn new() -> Labels {
        Labels {
            rows: Tree::empty(),
            since: 0,
        }
    }

    fn count(&self) -> u32 {
        self.rows.len() as u32
    }

    pub fn at(&self, place: u32) -> u64 {
        self.rows.get(place as usize).0
    }

    pub fn before(&self, place: u32) -> u64 {
        if place == 0 { 0 } else { self.at(place - 1) }
    }

    /// The labels beside a place: 0 stands before all of them, and the end of labels after them.
    fn beside(&self, place: u32) -> Beside {
        let mut labels = [0, 0, END, END];
        let count = place.min(2);
        self.rows.read(
            (place - count) as usize,
            |label| label.0,
            &mut labels[2 - count as usize..],
        );
        let [former, before, after, later] = labels;
        Beside {
            former,
            before,
            after,
            later,
        }
    }

    /// The label of a new row, where one is left.
    pub fn free_label(&self, place: u32, lately: Lately) -> Option<u64> {
        let beside = self.beside(place);
        if beside.after - beside.before < 2 {
            return None;
        }
        if place != self.count() || place == 0 {
            return Some(self.label_beside(place, beside, lately));
        }
        Some(label_after(beside))
    }

    /// The label of a row before others: near the one beside it that came in lately, or half the way.
    fn label_beside(&self, place: u32, beside: Beside, lately: Lately) -> u64 {
        let Beside {
            former,
            before,
            after,
            later,
        } = beside;
        let gap = after - before;
        let near = |beyond: u64| (gap / PARTS).max((beyond / 2).min(gap / 4));
        let distance = match lately {
            Lately::Before if place == 0 => near(END),
            Lately::Before => near(before - former),
            Lately::After if place == self.count() => near(END),
            Lately::After => near(later - after),
            Lately::Neither => gap / 2,
        };
        let owed = 1 << (LEAST_INSERTIONS - 1).saturating_sub(self.since);
        let unit = rounded((gap / 2).min(distance.max(owed)));
        match lately {
            Lately::Before | Lately::Neither => before + unit,
            Lately::After => after - unit,
        }
    }

    /// Puts a new row in at a label that is left there.
    pub fn insert(&mut self, place: u32, label: u64) {
        self.rows.insert(place as usize, Label(label));
        self.since = (self.since + 1).min(LEAST_INSERTIONS);
    }

    /// Puts a new row in where no label is left: all rows are relabelled.
    pub fn insert_relabelled(&mut self, place: u32) {
        self.rows.insert(place as usize, Label(END));
        self.since = 0;
        let count = self.count();
        for index in 0..count {
            self.rows
                .change(index as usize, |label| *label = Label(spread(index, count)));
        }
    }

    pub fn remove(&mut self, place: u32) {
        self.rows.remove(place as usize);
    }

    pub fn place_of(&self, label: u64) -> Option<u32> {
        let count = self.rows.partition_point(|other| other.0 <= label) as u32;
        let place = count.checked_sub(1)?;
        (self.at(place) == label).then_some(place)
    }

    pub fn all(&self) -> Vec<u64> {
        (0..self.count()).map(|place| self.at(place)).collect()
    }
}
