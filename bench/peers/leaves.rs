//! A list of rows for speed alone: 64 items to a leaf, 64 leaves to a group, and a row of groups; each leaf and each
//! group has what its items amount to beside it. A table says in which leaf the row of a number is.

pub trait Sum: Copy + Default {
    /// What two neighbouring ranges amount to.
    fn join(self, after: Self) -> Self;
    /// The time of the last item.
    fn time(self) -> u64;
}

pub trait Item: Copy {
    type Sum: Sum;
    fn sum(&self) -> Self::Sum;
    fn number(&self) -> u32;
    fn time(&self) -> u64;
}

const MOST: usize = 64;
const GONE: u32 = u32::MAX;

struct Leaf<T> {
    items: Vec<T>,
    group: u32,
}

/// Children in order, with how many items each has and what these amount to, and the same of all children before it.
struct Children<S> {
    ids: Vec<u32>,
    lens: Vec<u32>,
    sums: Vec<S>,
    starts: Vec<u32>,
    before: Vec<S>,
}

impl<S: Sum> Children<S> {
    fn empty() -> Children<S> {
        Children {
            ids: Vec::new(),
            lens: Vec::new(),
            sums: Vec::new(),
            starts: Vec::new(),
            before: Vec::new(),
        }
    }

    fn put(&mut self, at: usize, id: u32, len: u32, sum: S) {
        self.ids.insert(at, id);
        self.lens.insert(at, len);
        self.sums.insert(at, sum);
        self.add_up(at);
    }

    fn set(&mut self, at: usize, len: u32, sum: S) {
        self.lens[at] = len;
        self.sums[at] = sum;
        self.add_up(at + 1);
    }

    fn take(&mut self, at: usize) {
        self.ids.remove(at);
        self.lens.remove(at);
        self.sums.remove(at);
        self.add_up(at);
    }

    /// Adds up anew what stands before each child from this one on.
    fn add_up(&mut self, at: usize) {
        let (mut start, mut sum) = match at {
            0 => (0, S::default()),
            _ => (
                self.starts[at - 1] + self.lens[at - 1],
                self.before[at - 1].join(self.sums[at - 1]),
            ),
        };
        self.starts.truncate(at);
        self.before.truncate(at);
        for index in at..self.ids.len() {
            self.starts.push(start);
            self.before.push(sum);
            start += self.lens[index];
            sum = sum.join(self.sums[index]);
        }
    }

    fn half(&mut self) -> Children<S> {
        let at = self.ids.len() / 2;
        let mut half = Children {
            ids: self.ids.split_off(at),
            lens: self.lens.split_off(at),
            sums: self.sums.split_off(at),
            ..Children::empty()
        };
        half.add_up(0);
        self.add_up(at);
        half
    }

    fn all(&self) -> (u32, S) {
        let last = self.ids.len() - 1;
        (
            self.starts[last] + self.lens[last],
            self.before[last].join(self.sums[last]),
        )
    }

    fn at(&self, id: u32) -> usize {
        self.ids.iter().position(|other| *other == id).unwrap()
    }

    /// The child that holds a place, and the place in it; the last child has its end too.
    fn child(&self, place: usize) -> (usize, usize) {
        let at = self
            .starts
            .partition_point(|start| *start as usize <= place)
            - 1;
        (at, place - self.starts[at] as usize)
    }
}

fn joined<S: Sum>(sums: &[S]) -> S {
    sums.iter().fold(S::default(), |all, sum| all.join(*sum))
}

fn amount<T: Item>(items: &[T]) -> T::Sum {
    items
        .iter()
        .fold(T::Sum::default(), |all, item| all.join(item.sum()))
}

pub struct Leaves<T: Item> {
    len: usize,
    top: Children<T::Sum>,
    groups: Vec<Children<T::Sum>>,
    leaves: Vec<Leaf<T>>,
    homes: Vec<u32>,
}

/// Where an item is: its group, its leaf in the group, and its index in the leaf.
struct Spot {
    group: usize,
    leaf: usize,
    index: usize,
}

impl<T: Item> Leaves<T> {
    pub fn new() -> Leaves<T> {
        let mut list = Leaves {
            len: 0,
            top: Children::empty(),
            groups: vec![Children::empty()],
            leaves: Vec::new(),
            homes: Vec::new(),
        };
        list.leaves.push(Leaf {
            items: Vec::with_capacity(MOST + 1),
            group: 0,
        });
        list.groups[0].put(0, 0, 0, T::Sum::default());
        list.top.put(0, 0, 0, T::Sum::default());
        list
    }

    pub fn len(&self) -> usize {
        self.len
    }

    fn group(&self, at: usize) -> &Children<T::Sum> {
        &self.groups[self.top.ids[at] as usize]
    }

    fn items(&self, group: usize, leaf: usize) -> &[T] {
        &self.leaves[self.group(group).ids[leaf] as usize].items
    }

    fn spot(&self, place: usize) -> Spot {
        let (group, place) = self.top.child(place);
        let (leaf, index) = self.group(group).child(place);
        Spot { group, leaf, index }
    }

    pub fn get(&self, place: usize) -> T {
        let spot = self.spot(place);
        self.items(spot.group, spot.leaf)[spot.index]
    }

    /// Visits the items from one place to another in their order.
    pub fn each(&self, from: usize, to: usize, mut visit: impl FnMut(&T)) {
        let spot = self.spot(from);
        let (mut left, mut leaf, mut index) = (to - from, spot.leaf, spot.index);
        for group in spot.group..self.top.ids.len() {
            for at in leaf..self.group(group).ids.len() {
                let items = &self.items(group, at)[index..];
                let count = left.min(items.len());
                items[..count].iter().for_each(&mut visit);
                left -= count;
                if left == 0 {
                    return;
                }
                index = 0;
            }
            leaf = 0;
        }
    }

    pub fn place_of(&self, number: u32) -> Option<usize> {
        let home = *self.homes.get(number as usize)?;
        if home == GONE {
            return None;
        }
        let leaf = &self.leaves[home as usize];
        let index = leaf.items.iter().position(|item| item.number() == number)?;
        let group = &self.groups[leaf.group as usize];
        let at = self.top.at(leaf.group);
        Some((self.top.starts[at] + group.starts[group.at(home)]) as usize + index)
    }

    /// How many items have this time or an earlier one.
    pub fn place_at(&self, time: u64) -> usize {
        if self.len == 0 || self.top.sums[self.top.sums.len() - 1].time() <= time {
            return self.len;
        }
        let group = self.top.sums.partition_point(|sum| sum.time() <= time);
        let leaf = self
            .group(group)
            .sums
            .partition_point(|sum| sum.time() <= time);
        let before = self.top.starts[group] + self.group(group).starts[leaf];
        before as usize
            + self
                .items(group, leaf)
                .partition_point(|item| item.time() <= time)
    }

    /// What the items before a place amount to.
    pub fn prefix(&self, place: usize) -> T::Sum {
        let spot = self.spot(place);
        if place == self.len {
            return self.top.all().1;
        }
        let all = self.top.before[spot.group].join(self.group(spot.group).before[spot.leaf]);
        all.join(amount(&self.items(spot.group, spot.leaf)[..spot.index]))
    }

    /// What the items from a place on amount to.
    pub fn suffix(&self, place: usize) -> T::Sum {
        let spot = self.spot(place);
        let all = amount(&self.items(spot.group, spot.leaf)[spot.index..]);
        all.join(joined(&self.group(spot.group).sums[spot.leaf + 1..]))
            .join(joined(&self.top.sums[spot.group + 1..]))
    }

    /// How many first items it takes until they pass a test, which all longer beginnings pass too.
    pub fn first_of_all(&self, test: impl Fn(T::Sum) -> bool) -> Option<usize> {
        if !test(self.top.all().1) {
            return None;
        }
        let Some(group) = self
            .top
            .before
            .partition_point(|sum| !test(*sum))
            .checked_sub(1)
        else {
            return Some(0);
        };
        let seen = self.top.before[group];
        let leaf = self
            .group(group)
            .before
            .partition_point(|sum| !test(seen.join(*sum)))
            - 1;
        let mut seen = seen.join(self.group(group).before[leaf]);
        let mut place = (self.top.starts[group] + self.group(group).starts[leaf]) as usize;
        for item in self.items(group, leaf) {
            seen = seen.join(item.sum());
            place += 1;
            if test(seen) {
                break;
            }
        }
        Some(place)
    }

    /// The first place from `from` on up to which the items from there on pass a test.
    pub fn first_place(&self, from: usize, test: impl Fn(T::Sum) -> bool) -> Option<usize> {
        let mut seen = T::Sum::default();
        if test(seen) {
            return Some(from);
        }
        let spot = self.spot(from);
        let (mut place, mut leaf, mut index) = (from, spot.leaf, spot.index);
        for group in spot.group..self.top.ids.len() {
            if leaf == 0 && index == 0 {
                let all = seen.join(self.top.sums[group]);
                if !test(all) {
                    seen = all;
                    place += self.top.lens[group] as usize;
                    continue;
                }
            }
            for at in leaf..self.group(group).ids.len() {
                if index == 0 {
                    let all = seen.join(self.group(group).sums[at]);
                    if !test(all) {
                        seen = all;
                        place += self.group(group).lens[at] as usize;
                        continue;
                    }
                }
                for item in &self.items(group, at)[index..] {
                    seen = seen.join(item.sum());
                    place += 1;
                    if test(seen) {
                        return Some(place);
                    }
                }
                index = 0;
            }
            leaf = 0;
        }
        None
    }

    /// The last place up to `to` from which on the items up to there pass a test.
    pub fn last_place(&self, to: usize, test: impl Fn(T::Sum) -> bool) -> Option<usize> {
        let mut seen = T::Sum::default();
        if test(seen) {
            return Some(to);
        }
        let spot = self.spot(to);
        let mut place = to;
        for group in (0..=spot.group).rev() {
            let is_whole = group < spot.group;
            if is_whole {
                let all = self.top.sums[group].join(seen);
                if !test(all) {
                    seen = all;
                    place -= self.top.lens[group] as usize;
                    continue;
                }
            }
            let leaves = if is_whole {
                self.group(group).ids.len()
            } else {
                spot.leaf + 1
            };
            for at in (0..leaves).rev() {
                let items = self.items(group, at);
                let is_cut = !is_whole && at == spot.leaf;
                if !is_cut {
                    let all = self.group(group).sums[at].join(seen);
                    if !test(all) {
                        seen = all;
                        place -= items.len();
                        continue;
                    }
                }
                for item in items[..if is_cut { spot.index } else { items.len() }]
                    .iter()
                    .rev()
                {
                    seen = item.sum().join(seen);
                    place -= 1;
                    if test(seen) {
                        return Some(place);
                    }
                }
            }
        }
        None
    }

    fn settle(&mut self, spot: &Spot) {
        let id = self.top.ids[spot.group] as usize;
        let leaf = &self.leaves[self.groups[id].ids[spot.leaf] as usize];
        let (len, sum) = (leaf.items.len() as u32, amount(&leaf.items));
        self.groups[id].set(spot.leaf, len, sum);
        let (len, sum) = self.groups[id].all();
        self.top.set(spot.group, len, sum);
    }

    pub fn change(&mut self, place: usize, change: impl FnOnce(&mut T)) {
        let spot = self.spot(place);
        let id = self.group(spot.group).ids[spot.leaf] as usize;
        change(&mut self.leaves[id].items[spot.index]);
        self.settle(&spot);
    }

    pub fn insert(&mut self, place: usize, item: T) {
        let is_last = place == self.len;
        let spot = self.spot(place);
        let group_id = self.top.ids[spot.group] as usize;
        let id = self.groups[group_id].ids[spot.leaf];
        let number = item.number() as usize;
        if number >= self.homes.len() {
            self.homes.resize(number + 1, GONE);
        }
        self.len += 1;
        if is_last && self.leaves[id as usize].items.len() < MOST {
            self.homes[number] = id;
            self.leaves[id as usize].items.push(item);
            for children in [&mut self.groups[group_id], &mut self.top] {
                *children.lens.last_mut().unwrap() += 1;
                let sum = children.sums.last_mut().unwrap();
                *sum = sum.join(item.sum());
            }
            return;
        }
        if self.leaves[id as usize].items.len() < MOST {
            self.homes[number] = id;
            self.leaves[id as usize].items.insert(spot.index, item);
            self.settle(&spot);
            return;
        }
        let fresh = self.leaves.len() as u32;
        let at = if is_last { MOST } else { MOST / 2 };
        let mut moved = Vec::with_capacity(MOST);
        moved.extend_from_slice(&self.leaves[id as usize].items[at..]);
        self.leaves[id as usize].items.truncate(at);
        for other in &moved {
            self.homes[other.number() as usize] = fresh;
        }
        if spot.index >= at {
            self.homes[number] = fresh;
            moved.insert(spot.index - at, item);
        } else {
            self.homes[number] = id;
            self.leaves[id as usize].items.insert(spot.index, item);
        }
        self.leaves.push(Leaf {
            items: moved,
            group: group_id as u32,
        });
        self.groups[group_id].put(spot.leaf + 1, fresh, 0, T::Sum::default());
        self.settle(&Spot {
            group: spot.group,
            leaf: spot.leaf + 1,
            index: 0,
        });
        self.settle(&spot);
        if self.groups[group_id].ids.len() > MOST {
            self.halve(spot.group);
        }
    }

    fn halve(&mut self, group: usize) {
        let fresh = self.groups.len() as u32;
        let id = self.top.ids[group] as usize;
        let half = self.groups[id].half();
        for leaf in &half.ids {
            self.leaves[*leaf as usize].group = fresh;
        }
        let (len, sum) = half.all();
        self.groups.push(half);
        self.top.put(group + 1, fresh, len, sum);
        let (len, sum) = self.groups[id].all();
        self.top.set(group, len, sum);
    }

    /// Takes an item out. A leaf that is empty goes, unless it is the last one; leaves are not joined.
    pub fn remove(&mut self, place: usize) -> T {
        let spot = self.spot(place);
        let group_id = self.top.ids[spot.group] as usize;
        let id = self.groups[group_id].ids[spot.leaf] as usize;
        let item = self.leaves[id].items.remove(spot.index);
        self.homes[item.number() as usize] = GONE;
        self.len -= 1;
        self.settle(&spot);
        if self.leaves[id].items.is_empty() && self.len > 0 {
            self.leaves[id].items = Vec::new();
            self.groups[group_id].take(spot.leaf);
            if self.groups[group_id].ids.is_empty() {
                self.top.take(spot.group);
            }
        }
        item
    }
}
