//! Lifetimes in the spans of a segment tree, searched at any label, as crates/lifetime_segments has them with the search of
//! crates/retro_dictionary.

use crate::weighted::{Item, Monoid, Tree};

#[derive(Clone, Copy, Debug, PartialEq, Eq, PartialOrd, Ord)]
pub struct KeyPair {
    pub key: i64,
    pub value: i64,
}

#[derive(Clone, Copy)]
pub struct Pairs {
    items: u32,
    sum: i128,
}

impl Monoid for Pairs {
    const UNIT: Pairs = Pairs { items: 0, sum: 0 };

    #[inline(always)]
    fn join(self, other: Pairs) -> Pairs {
        Pairs {
            items: self.items + other.items,
            sum: self.sum + other.sum,
        }
    }
}

impl Item for KeyPair {
    type Measure = Pairs;

    fn measure(&self) -> Pairs {
        Pairs {
            items: 1,
            sum: i128::from(self.value),
        }
    }
}

/// The keys from `low` to `high`, both included.
#[derive(Clone, Copy)]
pub struct KeyRange {
    pub low: i64,
    pub high: i64,
}

/// What is found of the pairs whose keys lie in a range.
#[derive(Clone, Copy)]
pub struct Found {
    pub count: u32,
    pub sum: i128,
    pub least: Option<KeyPair>,
    pub greatest: Option<KeyPair>,
}

impl Found {
    pub const NONE: Found = Found {
        count: 0,
        sum: 0,
        least: None,
        greatest: None,
    };

    fn of(pairs: &Tree<KeyPair>, range: KeyRange) -> Found {
        let KeyRange { low, high } = range;
        let from = pairs.partition_point(|pair| pair.key < low);
        let to = pairs.partition_point(|pair| pair.key <= high);
        if to <= from {
            return Found::NONE;
        }
        let measure = pairs.between(from, to);
        Found {
            count: to - from,
            sum: measure.sum,
            least: Some(pairs.get(from)),
            greatest: Some(pairs.get(to - 1)),
        }
    }

    /// One more pair, after all others.
    fn add(&mut self, pair: KeyPair) {
        self.count += 1;
        self.sum = self.sum.wrapping_add(i128::from(pair.value));
        self.least = Some(self.least.unwrap_or(pair));
        self.greatest = Some(pair);
    }

    fn combine(self, other: Found) -> Found {
        let least = match (self.least, other.least) {
            (Some(a), Some(b)) => Some(a.min(b)),
            (None, found) | (found, None) => found,
        };
        Found {
            count: self.count + other.count,
            sum: self.sum.wrapping_add(other.sum),
            least,
            greatest: self.greatest.max(other.greatest),
        }
    }
}

/// A pair, and the labels at which it is there.
#[derive(Clone, Copy, PartialEq, Eq, PartialOrd, Ord)]
pub struct Lifetime {
    pub from: u64,
    pub to: u64,
    pub pair: KeyPair,
}

impl Item for Lifetime {
    type Measure = u32;

    fn measure(&self) -> u32 {
        1
    }
}

impl Lifetime {
    fn is_whole(&self, level: u32) -> bool {
        self.from == 0 && 1 << level <= self.to
    }

    /// What of it is in a second half of this level, seen from where that half begins.
    fn in_second(self, level: u32) -> Lifetime {
        Lifetime {
            from: self.from.saturating_sub(1 << level),
            to: self.to.saturating_sub(1 << level),
            ..self
        }
    }

    fn ending(self, to: u64) -> Lifetime {
        Lifetime { to, ..self }
    }

    /// What of it lies in a span of this level.
    fn clipped(self, level: u32) -> Lifetime {
        self.ending(self.to.min(1 << level))
    }

    fn holds(self, label: u64) -> bool {
        self.from <= label && label < self.to
    }
}

/// The lifetimes in a span of labels: as they are where they are few, and else divided over the span itself and its halves.
enum Spans {
    Few(Few),
    Full(Box<Span>),
}

/// A few lifetimes in their order.
struct Few(Vec<Lifetime>);

impl Few {
    fn len(&self) -> usize {
        self.0.len()
    }

    fn place_of(&self, life: Lifetime) -> usize {
        self.0.partition_point(|other| (other.pair, other.from, other.to) < (life.pair, life.from, life.to))
    }

    fn put(&mut self, life: Lifetime) {
        let place = self.place_of(life);
        if self.0.len() == self.0.capacity() {
            self.0.reserve_exact(8);
        }
        self.0.insert(place, life);
    }

    fn take_out(&mut self, life: Lifetime) {
        let place = self.place_of(life);
        self.0.remove(place);
    }

    /// Takes one out and puts another one in, in its place where it stands in order there.
    fn exchange(&mut self, life: Lifetime, other: Lifetime) {
        let (place, next) = (self.place_of(life), self.place_of(other));
        if next == place || next == place + 1 {
            self.0[place] = other;
        } else {
            self.put(other);
            self.take_out(life);
        }
    }
}

struct Span {
    pairs: Tree<KeyPair>,
    left: Spans,
    right: Spans,
}

/// The level of the span of all labels.
const LEVELS: u32 = 40;

/// So many lifetimes of a span are kept as they are at the most.
const FEW: usize = 255;

impl Spans {
    fn new() -> Spans {
        Spans::Few(Few(Vec::new()))
    }

    fn is_nothing(&self) -> bool {
        matches!(self, Spans::Few(few) if few.len() == 0)
    }
}

impl Span {
    fn is_bare(&self) -> bool {
        self.pairs.len() == 0 && self.left.is_nothing() && self.right.is_nothing()
    }
}

fn add(spans: &mut Spans, level: u32, life: Lifetime) {
    match spans {
        Spans::Full(span) => add_to_span(span, level, life),
        Spans::Few(few) if few.len() < FEW => few.put(life.clipped(level)),
        Spans::Few(few) => {
            let mut span = divided(few, level);
            add_to_span(&mut span, level, life);
            *spans = Spans::Full(span);
        }
    }
}

fn divided(few: &Few, level: u32) -> Box<Span> {
    let mut span = Box::new(Span {
        pairs: Tree::empty(),
        left: Spans::new(),
        right: Spans::new(),
    });
    for life in few.0.iter().rev() {
        add_to_span(&mut span, level, *life);
    }
    span
}

fn add_to_span(span: &mut Span, level: u32, life: Lifetime) {
    if life.is_whole(level) {
        span.pairs.put(life.pair);
    } else {
        add_below(span, level - 1, life);
    }
}

/// Into the halves of a span, which have this level.
fn add_below(span: &mut Span, level: u32, life: Lifetime) {
    if life.from < 1 << level {
        add(&mut span.left, level, life);
    }
    if 1 << level < life.to {
        add(&mut span.right, level, life.in_second(level));
    }
}

fn take(spans: &mut Spans, level: u32, life: Lifetime) {
    match spans {
        Spans::Few(few) => few.take_out(life.clipped(level)),
        Spans::Full(span) => {
            if life.is_whole(level) {
                span.pairs.take_out(life.pair);
            } else {
                take_below(span, level - 1, life);
            }
            if span.is_bare() {
                *spans = Spans::new();
            }
        }
    }
}

/// Out of the halves of a span, which have this level.
fn take_below(span: &mut Span, level: u32, life: Lifetime) {
    if life.from < 1 << level {
        take(&mut span.left, level, life);
    }
    if 1 << level < life.to {
        take(&mut span.right, level, life.in_second(level));
    }
}

/// Moves where a lifetime ends. Spans that the lifetime has with either end are left as they are.
fn move_end(spans: &mut Spans, level: u32, life: Lifetime, next: u64) {
    let moved = life.ending(next);
    let span = match spans {
        Spans::Few(few) => return few.exchange(life.clipped(level), moved.clipped(level)),
        Spans::Full(span) => span,
    };
    match (life.is_whole(level), moved.is_whole(level)) {
        (true, true) => {}
        (true, false) => {
            add_below(span, level - 1, moved);
            span.pairs.take_out(life.pair);
        }
        (false, true) => {
            span.pairs.put(life.pair);
            take_below(span, level - 1, life);
        }
        (false, false) => move_below(span, level - 1, life, next),
    }
}

fn move_below(span: &mut Span, level: u32, life: Lifetime, next: u64) {
    let half = 1 << level;
    let (later, later_next) = (life.in_second(level), next.saturating_sub(half));
    match (half < life.to, half < next) {
        (true, true) => move_end(&mut span.right, level, later, later_next),
        (true, false) => {
            move_first(&mut span.left, level, life, next);
            take(&mut span.right, level, later);
        }
        (false, true) => {
            add(&mut span.right, level, later.ending(later_next));
            move_first(&mut span.left, level, life, next);
        }
        (false, false) => move_first(&mut span.left, level, life, next),
    }
}

fn move_first(left: &mut Spans, level: u32, life: Lifetime, next: u64) {
    if life.from < 1 << level && life.to.min(next) < 1 << level {
        move_end(left, level, life, next);
    }
}

#[inline(never)]
fn ask_few(few: &Few, label: u64, range: KeyRange) -> Found {
    let mut found = Found::NONE;
    let from = few.0.partition_point(|other| other.pair.key < range.low);
    for life in &few.0[from..] {
        if range.high < life.pair.key {
            break;
        }
        if life.holds(label) {
            found.add(life.pair);
        }
    }
    found
}

fn ask(spans: &Spans, level: u32, label: u64, range: KeyRange) -> Found {
    let span = match spans {
        Spans::Few(few) => return ask_few(few, label, range),
        Spans::Full(span) => span,
    };
    if level == 0 {
        return Found::of(&span.pairs, range);
    }
    if span.pairs.len() == 0 {
        return ask_half(span, level - 1, label, range);
    }
    ask_whole(span, level - 1, label, range)
}

/// What is found of the pairs of a span, and of those below it.
#[inline(never)]
fn ask_whole(span: &Span, level: u32, label: u64, range: KeyRange) -> Found {
    let below = ask_half(span, level, label, range);
    Found::of(&span.pairs, range).combine(below)
}

/// What is found of the pairs below a span.
fn ask_half(span: &Span, level: u32, label: u64, range: KeyRange) -> Found {
    let half = 1 << level;
    if label < half {
        ask(&span.left, level, label, range)
    } else {
        ask(&span.right, level, label - half, range)
    }
}

/// Lifetimes by where they begin, and their pairs in the spans that make them up.
pub struct Segments {
    held: Tree<Lifetime>,
    root: Spans,
}

impl Segments {
    pub fn new() -> Segments {
        Segments {
            held: Tree::empty(),
            root: Spans::new(),
        }
    }

    fn is_at(&self, place: u32, life: Lifetime) -> bool {
        place < self.held.len() && self.held.get(place) == life
    }

    pub fn add(&mut self, life: Lifetime) {
        self.held.put(life);
        add(&mut self.root, LEVELS, life);
    }

    pub fn take(&mut self, life: Lifetime) {
        let place = self.held.place_of(life);
        if self.is_at(place, life) {
            self.held.remove(place);
            take(&mut self.root, LEVELS, life);
        }
    }

    /// Moves where a lifetime that is there ends.
    pub fn move_end(&mut self, life: Lifetime, next: u64) {
        let place = self.held.place_of(life);
        if !self.is_at(place, life) {
            return;
        }
        self.held.exchange(life, life.ending(next));
        move_end(&mut self.root, LEVELS, life, next);
    }

    pub fn ask(&self, label: u64, range: KeyRange) -> Found {
        ask(&self.root, LEVELS, label, range)
    }
}
