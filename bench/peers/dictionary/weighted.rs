//! Weight-balanced trees that measure ranges of their items, with up to 32 items to a leaf, as crates/weighted_tree has them.

use std::mem;

/// What a range of items amounts to.
pub trait Monoid: Copy {
    const UNIT: Self;
    fn join(self, other: Self) -> Self;
}

pub trait Item: Copy {
    type Measure: Monoid;
    fn measure(&self) -> Self::Measure;
}

/// The most items of a leaf.
const FULL: usize = 32;

pub enum Tree<T: Item> {
    Leaf {
        items: Vec<T>,
        measure: T::Measure,
    },
    Full {
        size: u32,
        nodes: u32,
        node: Box<Node<T>>,
        measure: T::Measure,
    },
}

pub struct Node<T: Item> {
    left: Tree<T>,
    item: T,
    right: Tree<T>,
}

fn measured<T: Item>(items: &[T]) -> T::Measure {
    items
        .iter()
        .fold(T::Measure::UNIT, |seen, item| seen.join(item.measure()))
}

impl<T: Item> Tree<T> {
    pub fn empty() -> Tree<T> {
        Tree::Leaf {
            items: Vec::new(),
            measure: T::Measure::UNIT,
        }
    }

    pub fn len(&self) -> u32 {
        match self {
            Tree::Leaf { items, .. } => items.len() as u32,
            Tree::Full { size, .. } => *size,
        }
    }

    fn nodes(&self) -> u32 {
        match self {
            Tree::Leaf { .. } => 0,
            Tree::Full { nodes, .. } => *nodes,
        }
    }

    fn weight(&self) -> u32 {
        self.nodes() + 1
    }

    fn whole(&self) -> T::Measure {
        match self {
            Tree::Leaf { measure, .. } | Tree::Full { measure, .. } => *measure,
        }
    }

    fn take(&mut self) -> Tree<T> {
        mem::replace(self, Tree::empty())
    }

    fn into_root(self) -> Box<Node<T>> {
        match self {
            Tree::Leaf { .. } => unreachable!(),
            Tree::Full { node, .. } => node,
        }
    }

    fn leaf(items: Vec<T>) -> Tree<T> {
        Tree::Leaf {
            measure: measured(&items),
            items,
        }
    }

    fn of(node: Box<Node<T>>) -> Tree<T> {
        Tree::Full {
            size: node.left.len() + 1 + node.right.len(),
            nodes: node.left.nodes() + 1 + node.right.nodes(),
            measure: node.around(node.left.whole(), node.right.whole()),
            node,
        }
    }

    pub fn get(&self, place: u32) -> T {
        let (mut tree, mut place) = (self, place);
        loop {
            let node = match tree {
                Tree::Leaf { items, .. } => return items[place as usize],
                Tree::Full { node, .. } => node,
            };
            let before = node.left.len();
            if place == before {
                return node.item;
            } else if place < before {
                tree = &node.left;
            } else {
                place -= before + 1;
                tree = &node.right;
            }
        }
    }

    /// The measure of the items from `from` to before `to`.
    #[inline(always)]
    pub fn between(&self, from: u32, to: u32) -> T::Measure {
        let (mut tree, mut start, mut end) = (self, from, to);
        while start < end {
            let node = match tree {
                Tree::Leaf { items, .. } => return measured(&items[start as usize..end as usize]),
                Tree::Full { node, .. } => node,
            };
            let before = node.left.len();
            if end <= before {
                tree = &node.left;
            } else if start > before {
                tree = &node.right;
                start = start - before - 1;
                end = end - before - 1;
            } else {
                return node.around(node.left.from(start), node.right.before(end - before - 1));
            }
        }
        T::Measure::UNIT
    }

    #[inline(always)]
    fn before(&self, to: u32) -> T::Measure {
        let (mut tree, mut rest, mut passed) = (self, to, T::Measure::UNIT);
        while rest < tree.len() {
            let node = match tree {
                Tree::Leaf { items, .. } => return passed.join(measured(&items[..rest as usize])),
                Tree::Full { node, .. } => node,
            };
            let count = node.left.len();
            if rest <= count {
                tree = &node.left;
            } else {
                passed = passed.join(node.left.whole()).join(node.item.measure());
                rest = rest - count - 1;
                tree = &node.right;
            }
        }
        passed.join(tree.whole())
    }

    #[inline(always)]
    fn from(&self, from: u32) -> T::Measure {
        let (mut tree, mut rest, mut passed) = (self, self.len() - from, T::Measure::UNIT);
        while rest < tree.len() {
            let node = match tree {
                Tree::Leaf { items, .. } => {
                    return measured(&items[items.len() - rest as usize..]).join(passed);
                }
                Tree::Full { node, .. } => node,
            };
            let count = node.right.len();
            if rest <= count {
                tree = &node.right;
            } else {
                passed = node.item.measure().join(node.right.whole().join(passed));
                rest = rest - count - 1;
                tree = &node.left;
            }
        }
        tree.whole().join(passed)
    }

    /// How many items a test holds of, where it holds of none after one of which it does not.
    pub fn partition_point(&self, test: impl Fn(&T) -> bool) -> u32 {
        let (mut tree, mut passed) = (self, 0);
        loop {
            match tree {
                Tree::Leaf { items, .. } => return passed + items.partition_point(&test) as u32,
                Tree::Full { node, .. } if test(&node.item) => {
                    passed += node.left.len() + 1;
                    tree = &node.right;
                }
                Tree::Full { node, .. } => tree = &node.left,
            }
        }
    }

    /// A node over the halves of a full leaf.
    fn divided(mut items: Vec<T>) -> Box<Node<T>> {
        let later = items.split_off(FULL / 2 + 1);
        let item = items.pop().unwrap();
        items.shrink_to(items.len().next_multiple_of(8));
        Box::new(Node {
            left: Tree::leaf(items),
            item,
            right: Tree::leaf(later),
        })
    }

    pub fn insert(&mut self, place: u32, item: T) {
        let mut node = match self.take() {
            Tree::Leaf { mut items, .. } if items.len() < FULL => {
                if items.len() == items.capacity() {
                    items.reserve_exact(8 - items.len() % 8);
                }
                items.insert(place as usize, item);
                *self = Tree::leaf(items);
                return;
            }
            Tree::Leaf { items, .. } => Tree::divided(items),
            Tree::Full { node, .. } => node,
        };
        let before = node.left.len();
        if place <= before {
            node.left.insert(place, item);
        } else {
            node.right.insert(place - before - 1, item);
        }
        *self = Tree::balanced(node);
    }

    pub fn remove(&mut self, place: u32) -> T {
        let mut node = match self.take() {
            Tree::Leaf { mut items, .. } => {
                let item = items.remove(place as usize);
                *self = Tree::leaf(items);
                return item;
            }
            Tree::Full { node, .. } => node,
        };
        let before = node.left.len();
        if place == before {
            let item = node.item;
            if node.right.len() == 0 {
                *self = node.left.take();
            } else {
                node.item = node.right.take_first();
                *self = Tree::balanced(node);
            }
            return item;
        }
        let item = if place < before {
            node.left.remove(place)
        } else {
            node.right.remove(place - before - 1)
        };
        *self = Tree::balanced(node);
        item
    }

    fn take_first(&mut self) -> T {
        let mut node = match self.take() {
            Tree::Leaf { mut items, .. } => {
                let first = items.remove(0);
                *self = Tree::leaf(items);
                return first;
            }
            Tree::Full { node, .. } => node,
        };
        if node.left.len() == 0 {
            *self = node.right.take();
            return node.item;
        }
        let first = node.left.take_first();
        *self = Tree::balanced(node);
        first
    }

    pub fn replace(&mut self, place: u32, item: T) {
        let mut node = match self.take() {
            Tree::Leaf { mut items, .. } => {
                items[place as usize] = item;
                *self = Tree::leaf(items);
                return;
            }
            Tree::Full { node, .. } => node,
        };
        let before = node.left.len();
        if place < before {
            node.left.replace(place, item);
        } else if place > before {
            node.right.replace(place - before - 1, item);
        } else {
            node.item = item;
        }
        *self = Tree::of(node);
    }

    fn balanced(mut node: Box<Node<T>>) -> Tree<T> {
        let (left, right) = (node.left.weight(), node.right.weight());
        if left > 3 * right {
            let mut child = node.left.take().into_root();
            if child.right.weight() < 2 * child.left.weight() {
                node.left = child.right.take();
                child.right = Tree::of(node);
                return Tree::of(child);
            }
            let mut inner = child.right.take().into_root();
            child.right = inner.left.take();
            node.left = inner.right.take();
            inner.left = Tree::of(child);
            inner.right = Tree::of(node);
            Tree::of(inner)
        } else if right > 3 * left {
            let mut child = node.right.take().into_root();
            if child.left.weight() < 2 * child.right.weight() {
                node.right = child.left.take();
                child.left = Tree::of(node);
                return Tree::of(child);
            }
            let mut inner = child.left.take().into_root();
            child.left = inner.right.take();
            node.right = inner.left.take();
            inner.right = Tree::of(child);
            inner.left = Tree::of(node);
            Tree::of(inner)
        } else {
            Tree::of(node)
        }
    }
}

impl<T: Item> Node<T> {
    fn around(&self, before: T::Measure, after: T::Measure) -> T::Measure {
        before.join(self.item.measure()).join(after)
    }
}

impl Monoid for u32 {
    const UNIT: u32 = 0;

    fn join(self, other: u32) -> u32 {
        self + other
    }
}

/// A tree whose items stand in their order.
impl<T: Item + Ord> Tree<T> {
    pub fn place_of(&self, item: T) -> u32 {
        self.partition_point(|other| *other < item)
    }

    pub fn put(&mut self, item: T) {
        self.insert(self.place_of(item), item);
    }

    pub fn take_out(&mut self, item: T) {
        self.remove(self.place_of(item));
    }

    /// Takes an item out and puts another one in, in its place where it stands in order there.
    pub fn exchange(&mut self, item: T, other: T) {
        let place = self.place_of(item);
        let follows = place == 0 || self.get(place - 1) < other;
        let stays = follows && (place + 1 == self.len() || other < self.get(place + 1));
        if stays {
            self.replace(place, other);
        } else {
            self.put(other);
            self.take_out(item);
        }
    }
}
