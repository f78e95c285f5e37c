//! A list kept in a weight-balanced tree whose leaves hold up to 32 items, the last of them beside the root, as
//! crates/weighted_tree has it.

/// An item, and what a range of items amounts to.
pub trait Item: Copy {
    type Measure: Copy + Default;
    fn measure(&self) -> Self::Measure;
    fn join(one: Self::Measure, other: Self::Measure) -> Self::Measure;
}

/// The most items of a leaf.
const FULL: usize = 32;

#[derive(Clone)]
struct Node<T: Item> {
    left: Link<T>,
    item: T,
    right: Link<T>,
}

#[derive(Clone)]
enum Part<T: Item> {
    Leaf(Vec<T>),
    Node(Box<Node<T>>),
}

#[derive(Clone)]
struct Link<T: Item> {
    part: Part<T>,
    size: u32,
    nodes: u32,
    measure: T::Measure,
}

fn measured<T: Item>(items: &[T]) -> T::Measure {
    items.iter().fold(T::Measure::default(), |seen, item| {
        T::join(seen, item.measure())
    })
}

impl<T: Item> Link<T> {
    fn empty() -> Link<T> {
        Link {
            part: Part::Leaf(Vec::new()),
            size: 0,
            nodes: 0,
            measure: T::Measure::default(),
        }
    }

    fn len(&self) -> usize {
        self.size as usize
    }

    fn take(&mut self) -> Link<T> {
        std::mem::replace(self, Link::empty())
    }

    fn leaf(items: Vec<T>) -> Link<T> {
        Link {
            size: items.len() as u32,
            nodes: 0,
            measure: measured(&items),
            part: Part::Leaf(items),
        }
    }

    fn of(node: Box<Node<T>>) -> Link<T> {
        let size = node.left.size + node.right.size + 1;
        let nodes = node.left.nodes + node.right.nodes + 1;
        let measure = T::join(
            T::join(node.left.measure, node.item.measure()),
            node.right.measure,
        );
        Link {
            part: Part::Node(node),
            size,
            nodes,
            measure,
        }
    }

    fn node(&self) -> &Node<T> {
        match &self.part {
            Part::Node(node) => node,
            Part::Leaf(_) => unreachable!(),
        }
    }

    fn into_node(self) -> Box<Node<T>> {
        match self.part {
            Part::Node(node) => node,
            Part::Leaf(_) => unreachable!(),
        }
    }

    fn weight(&self) -> u32 {
        self.nodes + 1
    }

    fn rotate_left(mut node: Box<Node<T>>) -> Link<T> {
        let mut right = node.right.take().into_node();
        node.right = right.left.take();
        right.left = Link::of(node);
        Link::of(right)
    }

    fn rotate_right(mut node: Box<Node<T>>) -> Link<T> {
        let mut left = node.left.take().into_node();
        node.left = left.right.take();
        left.right = Link::of(node);
        Link::of(left)
    }

    fn balanced(mut node: Box<Node<T>>) -> Link<T> {
        if node.right.weight() > 3 * node.left.weight() {
            let right = node.right.node();
            if right.left.weight() >= 2 * right.right.weight() {
                node.right = Link::rotate_right(node.right.take().into_node());
            }
            Link::rotate_left(node)
        } else if node.left.weight() > 3 * node.right.weight() {
            let left = node.left.node();
            if left.right.weight() >= 2 * left.left.weight() {
                node.left = Link::rotate_left(node.left.take().into_node());
            }
            Link::rotate_right(node)
        } else {
            Link::of(node)
        }
    }

    /// A node over the halves of a full leaf.
    fn divided(mut items: Vec<T>) -> Box<Node<T>> {
        let later = items.split_off(FULL / 2 + 1);
        let item = items.pop().unwrap();
        items.shrink_to(items.len().next_multiple_of(8));
        Box::new(Node {
            left: Link::leaf(items),
            item,
            right: Link::leaf(later),
        })
    }

    fn insert(&mut self, place: usize, item: T) {
        if let Part::Leaf(items) = &mut self.part
            && items.len() < FULL
        {
            if items.len() == items.capacity() {
                items.reserve_exact(8 - items.len() % 8);
            }
            self.measure = if place == items.len() {
                items.push(item);
                T::join(self.measure, item.measure())
            } else {
                items.insert(place, item);
                measured(items)
            };
            self.size += 1;
            return;
        }
        let mut node = match self.take().part {
            Part::Leaf(items) => Link::divided(items),
            Part::Node(node) => node,
        };
        let before = node.left.len();
        if place <= before {
            node.left.insert(place, item);
        } else {
            node.right.insert(place - before - 1, item);
        }
        *self = Link::balanced(node);
    }

    /// Puts a node and what is on its right after all items. It has nothing on its left.
    fn append(&mut self, mut node: Box<Node<T>>) {
        *self = match self.take() {
            Link {
                part: Part::Node(mut root),
                ..
            } => {
                root.right.append(node);
                Link::balanced(root)
            }
            leaf => {
                node.left = leaf;
                Link::of(node)
            }
        };
    }

    fn take_first(self) -> (T, Link<T>) {
        match self.part {
            Part::Leaf(mut items) => {
                let first = items.remove(0);
                (first, Link::leaf(items))
            }
            Part::Node(mut node) => {
                if node.left.size == 0 {
                    (node.item, node.right.take())
                } else {
                    let (first, rest) = node.left.take().take_first();
                    node.left = rest;
                    (first, Link::balanced(node))
                }
            }
        }
    }

    fn remove(&mut self, place: usize) {
        let mut node = match self.take().part {
            Part::Leaf(mut items) => {
                items.remove(place);
                *self = Link::leaf(items);
                return;
            }
            Part::Node(node) => node,
        };
        let before = node.left.len();
        *self = if place < before {
            node.left.remove(place);
            Link::balanced(node)
        } else if place > before {
            node.right.remove(place - before - 1);
            Link::balanced(node)
        } else if node.right.size == 0 {
            node.left.take()
        } else {
            let (first, rest) = node.right.take().take_first();
            node.item = first;
            node.right = rest;
            Link::balanced(node)
        };
    }

    fn change(&mut self, place: usize, change: impl FnOnce(&mut T)) {
        let mut node = match self.take().part {
            Part::Leaf(mut items) => {
                change(&mut items[place]);
                *self = Link::leaf(items);
                return;
            }
            Part::Node(node) => node,
        };
        let before = node.left.len();
        if place < before {
            node.left.change(place, change);
        } else if place > before {
            node.right.change(place - before - 1, change);
        } else {
            change(&mut node.item);
        }
        *self = Link::of(node);
    }

    fn get(&self, mut place: usize) -> T {
        let mut link = self;
        loop {
            let node = match &link.part {
                Part::Leaf(items) => return items[place],
                Part::Node(node) => node,
            };
            let before = node.left.len();
            if place == before {
                return node.item;
            } else if place < before {
                link = &node.left;
            } else {
                place -= before + 1;
                link = &node.right;
            }
        }
    }

    /// Writes what is shown of the items from a place on into a slice, as many as fit or are there, and gives their number.
    fn read<U: Copy>(&self, from: usize, shown: &impl Fn(&T) -> U, read: &mut [U]) -> usize {
        if from >= self.len() || read.is_empty() {
            return 0;
        }
        let node = match &self.part {
            Part::Leaf(items) => {
                let found = &items[from..];
                for (copy, item) in read.iter_mut().zip(found) {
                    *copy = shown(item);
                }
                return found.len().min(read.len());
            }
            Part::Node(node) => node,
        };
        let before = node.left.len();
        if from > before {
            return node.right.read(from - before - 1, shown, read);
        }
        let count = node.left.read(from, shown, read);
        let Some((copy, rest)) = read[count..].split_first_mut() else {
            return count;
        };
        *copy = shown(&node.item);
        count + 1 + node.right.read(0, shown, rest)
    }

    /// Visits the items in their order.
    fn each(&self, visit: &mut impl FnMut(T)) {
        match &self.part {
            Part::Leaf(items) => items.iter().for_each(|item| visit(*item)),
            Part::Node(node) => {
                node.left.each(visit);
                visit(node.item);
                node.right.each(visit);
            }
        }
    }

    /// The first place from one to before another whose item passes a test.
    fn find(&self, from: usize, to: usize, test: &impl Fn(&T) -> bool) -> Option<usize> {
        if to <= from {
            return None;
        }
        match &self.part {
            Part::Leaf(items) => items[from..to.min(items.len())]
                .iter()
                .position(test)
                .map(|at| from + at),
            Part::Node(node) => {
                let before = node.left.len();
                if let Some(place) = node.left.find(from, to.min(before), test) {
                    return Some(place);
                }
                if from <= before && before < to && test(&node.item) {
                    return Some(before);
                }
                let (from, to) = (
                    from.saturating_sub(before + 1),
                    to.saturating_sub(before + 1),
                );
                let place = node.right.find(from, to, test)?;
                Some(place + before + 1)
            }
        }
    }

    /// How many first items pass a test, which no item after one that fails it passes.
    fn partition_point(&self, test: impl Fn(&T) -> bool) -> usize {
        let (mut link, mut passed) = (self, 0);
        loop {
            match &link.part {
                Part::Leaf(items) => return passed + items.partition_point(&test),
                Part::Node(node) if test(&node.item) => {
                    passed += node.left.len() + 1;
                    link = &node.right;
                }
                Part::Node(node) => link = &node.left,
            }
        }
    }

    /// The measure of the items before a place.
    #[inline(always)]
    fn prefix(&self, mut place: usize) -> T::Measure {
        let (mut link, mut seen) = (self, T::Measure::default());
        while place > 0 {
            if place >= link.len() {
                return T::join(seen, link.measure);
            }
            let node = match &link.part {
                Part::Leaf(items) => return T::join(seen, measured(&items[..place])),
                Part::Node(node) => node,
            };
            let before = node.left.len();
            if place <= before {
                link = &node.left;
            } else {
                seen = T::join(T::join(seen, node.left.measure), node.item.measure());
                place -= before + 1;
                link = &node.right;
            }
        }
        seen
    }

    /// The measure of the items from a place on.
    #[inline(always)]
    fn suffix(&self, place: usize) -> T::Measure {
        let (mut link, mut rest) = (self, self.len() - place);
        let mut after = T::Measure::default();
        while rest < link.len() {
            let node = match &link.part {
                Part::Leaf(items) => {
                    return T::join(measured(&items[items.len() - rest..]), after);
                }
                Part::Node(node) => node,
            };
            let count = node.right.len();
            if rest <= count {
                link = &node.right;
            } else {
                after = T::join(node.item.measure(), T::join(node.right.measure, after));
                rest -= count + 1;
                link = &node.left;
            }
        }
        T::join(link.measure, after)
    }

    fn on(
        &self,
        from: usize,
        base: usize,
        test: &impl Fn(T::Measure) -> bool,
        seen: &mut T::Measure,
    ) -> Option<usize> {
        if from == 0 {
            let all = T::join(*seen, self.measure);
            if !test(all) {
                *seen = all;
                return None;
            }
        }
        let node = match &self.part {
            Part::Leaf(items) => {
                for (index, item) in items.iter().enumerate().skip(from) {
                    *seen = T::join(*seen, item.measure());
                    if test(*seen) {
                        return Some(base + index + 1);
                    }
                }
                return None;
            }
            Part::Node(node) => node,
        };
        let before = node.left.len();
        if from < before {
            if let Some(found) = node.left.on(from, base, test, seen) {
                return Some(found);
            }
        }
        if from <= before {
            *seen = T::join(*seen, node.item.measure());
            if test(*seen) {
                return Some(base + before + 1);
            }
        }
        node.right.on(
            from.saturating_sub(before + 1),
            base + before + 1,
            test,
            seen,
        )
    }

    fn back(
        &self,
        to: usize,
        base: usize,
        test: &impl Fn(T::Measure) -> bool,
        seen: &mut T::Measure,
    ) -> Option<usize> {
        if to >= self.len() {
            let all = T::join(self.measure, *seen);
            if !test(all) {
                *seen = all;
                return None;
            }
        }
        let node = match &self.part {
            Part::Leaf(items) => {
                for (index, item) in items.iter().enumerate().take(to).rev() {
                    *seen = T::join(item.measure(), *seen);
                    if test(*seen) {
                        return Some(base + index);
                    }
                }
                return None;
            }
            Part::Node(node) => node,
        };
        let before = node.left.len();
        if to > before {
            if let Some(found) = node
                .right
                .back(to - before - 1, base + before + 1, test, seen)
            {
                return Some(found);
            }
            *seen = T::join(node.item.measure(), *seen);
            if test(*seen) {
                return Some(base + before);
            }
        }
        node.left.back(to.min(before), base, test, seen)
    }
}

/// A list whose last items stand in a leaf beside the root, once there are more than fill a leaf.
#[derive(Clone)]
pub struct Tree<T: Item> {
    root: Link<T>,
    tail: Option<Box<Link<T>>>,
}

impl<T: Item> Tree<T> {
    pub fn empty() -> Tree<T> {
        Tree {
            root: Link::empty(),
            tail: None,
        }
    }

    pub fn len(&self) -> usize {
        self.root.len() + self.tail.as_ref().map_or(0, |tail| tail.len())
    }

    pub fn insert(&mut self, place: usize, item: T) {
        let before = self.root.len();
        if place < before || (self.tail.is_none() && before < FULL) {
            return self.root.insert(place, item);
        }
        let tail = self.tail.get_or_insert_with(|| Box::new(Link::empty()));
        if tail.len() < FULL {
            return tail.insert(place - before, item);
        }
        let Part::Leaf(mut items) = tail.take().part else {
            unreachable!()
        };
        let first = if place == before {
            item
        } else {
            let first = items.remove(0);
            items.insert(place - before - 1, item);
            first
        };
        self.root.append(Box::new(Node {
            left: Link::empty(),
            item: first,
            right: Link::leaf(items),
        }));
    }

    pub fn remove(&mut self, place: usize) {
        let before = self.root.len();
        match &mut self.tail {
            Some(tail) if place >= before => tail.remove(place - before),
            _ => self.root.remove(place),
        }
    }

    pub fn change(&mut self, place: usize, change: impl FnOnce(&mut T)) {
        let before = self.root.len();
        match &mut self.tail {
            Some(tail) if place >= before => tail.change(place - before, change),
            _ => self.root.change(place, change),
        }
    }

    pub fn get(&self, place: usize) -> T {
        let before = self.root.len();
        match &self.tail {
            Some(tail) if place >= before => tail.get(place - before),
            _ => self.root.get(place),
        }
    }

    /// Writes what is shown of the items from a place on into a slice, as many as fit or are there, and gives their number.
    pub fn read<U: Copy>(&self, from: usize, shown: impl Fn(&T) -> U, read: &mut [U]) -> usize {
        let count = self.root.read(from, &shown, read);
        let (from, rest) = (from.saturating_sub(self.root.len()), &mut read[count..]);
        let tail = self.tail.as_ref();
        count + tail.map_or(0, |tail| tail.read(from, &shown, rest))
    }

    /// Visits the items in their order.
    pub fn each(&self, visit: &mut impl FnMut(T)) {
        self.root.each(visit);
        if let Some(tail) = &self.tail {
            tail.each(visit);
        }
    }

    /// The first place from one to before another whose item passes a test.
    pub fn find(&self, from: usize, to: usize, test: &impl Fn(&T) -> bool) -> Option<usize> {
        let before = self.root.len();
        if let Some(place) = self.root.find(from, to.min(before), test) {
            return Some(place);
        }
        let (from, to) = (from.saturating_sub(before), to.saturating_sub(before));
        Some(before + self.tail.as_ref()?.find(from, to, test)?)
    }

    /// How many first items pass a test, which no item after one that fails it passes.
    pub fn partition_point(&self, test: impl Fn(&T) -> bool) -> usize {
        match &self.tail {
            Some(tail) if tail.size > 0 && test(&tail.get(0)) => {
                self.root.len() + tail.partition_point(test)
            }
            _ => self.root.partition_point(test),
        }
    }

    /// The measure of the items before a place.
    #[inline(always)]
    pub fn prefix(&self, place: usize) -> T::Measure {
        let before = self.root.len();
        match &self.tail {
            Some(tail) if place > before => T::join(self.root.measure, tail.prefix(place - before)),
            _ => self.root.prefix(place),
        }
    }

    /// The measure of the items from a place on.
    #[inline(always)]
    pub fn suffix(&self, place: usize) -> T::Measure {
        let before = self.root.len();
        match &self.tail {
            Some(tail) if place >= before => tail.suffix(place - before),
            Some(tail) => T::join(self.root.suffix(place), tail.measure),
            None => self.root.suffix(place),
        }
    }

    /// The first place from `from` on up to which the measure from there on passes.
    pub fn first_place(&self, from: usize, test: &impl Fn(T::Measure) -> bool) -> Option<usize> {
        let mut seen = T::Measure::default();
        if test(seen) {
            return Some(from);
        }
        let before = self.root.len();
        if from < before
            && let Some(place) = self.root.on(from, 0, test, &mut seen)
        {
            return Some(place);
        }
        let tail = self.tail.as_ref()?;
        tail.on(from.saturating_sub(before), before, test, &mut seen)
    }

    /// The last place up to `to` from which on the measure up to there passes.
    pub fn last_place(&self, to: usize, test: &impl Fn(T::Measure) -> bool) -> Option<usize> {
        let mut seen = T::Measure::default();
        if test(seen) {
            return Some(to);
        }
        let before = self.root.len();
        if to > before
            && let Some(tail) = &self.tail
            && let Some(place) = tail.back(to - before, before, test, &mut seen)
        {
            return Some(place);
        }
        self.root.back(to.min(before), 0, test, &mut seen)
    }
}

/// By how much sums fall below their start, and how far they end above their lowest point.
#[derive(Clone, Copy, Default)]
pub struct Walk {
    pub falls: u32,
    pub rises: u32,
}

impl Walk {
    pub fn sum(self) -> i64 {
        i64::from(self.rises) - i64::from(self.falls)
    }

    pub fn of(sign: i8) -> Walk {
        Walk {
            falls: u32::from(sign < 0),
            rises: u32::from(sign > 0),
        }
    }

    pub fn join(one: Walk, other: Walk) -> Walk {
        Walk {
            falls: one.falls + other.falls.saturating_sub(one.rises),
            rises: other.rises + one.rises.saturating_sub(other.falls),
        }
    }
}

/// The walks of the size of a line and of both its ends.
#[derive(Clone, Copy, Default)]
pub struct Walks {
    pub size: Walk,
    pub left: Walk,
    pub right: Walk,
}

impl Walks {
    pub fn of(left: i8, right: i8) -> Walks {
        Walks {
            size: Walk::of(left + right),
            left: Walk::of(left),
            right: Walk::of(right),
        }
    }

    pub fn join(one: Walks, other: Walks) -> Walks {
        Walks {
            size: Walk::join(one.size, other.size),
            left: Walk::join(one.left, other.left),
            right: Walk::join(one.right, other.right),
        }
    }
}

/// The sum of a walk up to a place.
pub fn sum_to<T: Item<Measure = Walks>>(
    rows: &Tree<T>,
    walk: impl Fn(Walks) -> Walk,
    place: usize,
) -> i64 {
    walk(rows.prefix(place)).sum()
}

/// The first place from `from` on where the sum is at most a value. Most often there is none, which the measure of all items from
/// there on tells before any search.
pub fn first_at_most<T: Item<Measure = Walks>>(
    rows: &Tree<T>,
    walk: impl Fn(Walks) -> Walk,
    from: usize,
    value: i64,
) -> Option<usize> {
    let start = sum_to(rows, &walk, from);
    if start - i64::from(walk(rows.suffix(from)).falls) > value {
        return None;
    }
    rows.first_place(from, &|walks| start - i64::from(walk(walks).falls) <= value)
}

/// The last place up to `to` from which on the sum rises by so much above its least value.
pub fn last_growing<T: Item<Measure = Walks>>(
    rows: &Tree<T>,
    walk: impl Fn(Walks) -> Walk,
    to: usize,
    count: i64,
) -> Option<usize> {
    rows.last_place(to, &|walks| i64::from(walk(walks).rises) >= count)
}

/// The last place up to `to` from which on a line grows by so much, at its left end or at its right end.
pub fn last_growing_at_either<T: Item<Measure = Walks>>(
    rows: &Tree<T>,
    to: usize,
    at_left: i64,
    at_right: i64,
) -> Option<usize> {
    rows.last_place(to, &|walks| {
        i64::from(walks.left.rises) >= at_left || i64::from(walks.right.rises) >= at_right
    })
}
