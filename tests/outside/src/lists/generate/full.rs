//! Lists in which one replica comes to a limit of its store, is refused there and goes on. It is the first one, here called the full one.

use inputs::{FIRST_ITEM, ItemId, LAST_ITEM, SplitMix64};

use super::{Given, Making};

/// What the full replica has no more room for.
#[derive(Clone, Copy, Debug, PartialEq, Eq)]
pub enum Limit {
    Replicas,
    Ranges,
    Records,
    /// Replicas and records.
    Both,
}

/// The most replicas and records of a store.
const REPLICAS: usize = 16;
const RECORDS: usize = 256;

impl Limit {
    pub fn replicas(self, random: &mut SplitMix64) -> usize {
        match self {
            Self::Replicas | Self::Both => random.between(REPLICAS + 2, REPLICAS + 5),
            Self::Ranges => random.between(2, 4),
            Self::Records => random.between(3, 12),
        }
    }

    pub fn items(self, random: &mut SplitMix64) -> usize {
        match self {
            Self::Replicas => random.between(2, 20),
            Self::Ranges => random.between(34, 48),
            Self::Records | Self::Both => random.between(RECORDS + 2, RECORDS + 6),
        }
    }
}

impl Making<'_> {
    /// Calls that fill a store, then some that are refused and some that are not, then any.
    pub fn full(&mut self, limit: Limit) {
        self.careful = true;
        match limit {
            Limit::Ranges => self.too_many_ranges(),
            _ => self.too_many_changes(limit),
        }
        self.careful = false;
        for _ in 0..self.random.between(3, 8) {
            let replica = if self.random.once_in(2) { 0 } else { self.replica() };
            self.any(replica, 35);
        }
    }

    /// The full replica learns single ids of another, and at last all of them.
    fn too_many_ranges(&mut self) {
        self.edit(1);
        let mut items = self.items.clone();
        if self.random.once_in(2) {
            self.random.shuffle(&mut items);
        }
        for item in items {
            self.make_with(1, Given::Nothing, [item, item]);
            self.apply_to(0, self.batches - 1);
            self.sometimes_any();
        }
        let span = self.span();
        self.make_with(0, Given::Nothing, span);
        self.edit(0);
        self.make_with(1, Given::Nothing, [FIRST_ITEM, LAST_ITEM]);
        self.apply_to(0, self.batches - 1);
    }

    /// The full replica takes in the changes of others, which have few records each.
    fn too_many_changes(&mut self, limit: Limit) {
        // One that makes no change of its own before it knows 16 others has no room left for itself.
        let silent = !self.random.once_in(3);
        let known = match limit {
            Limit::Records => self.list.replicas.len() - 2,
            _ if silent => REPLICAS,
            _ => REPLICAS - 1,
        };
        let (items, late) = self.in_time_and_late(limit);
        self.deal(&items, usize::from(silent), known);
        let in_parts = limit == Limit::Replicas && self.random.once_in(3);
        self.gather(known, in_parts);
        self.go_beyond(known, &items, &late);
        self.go_on(known, &items);
    }

    /// The items that the full replica has room for, almost all or all that it has, and the others.
    fn in_time_and_late(&mut self, limit: Limit) -> (Vec<ItemId>, Vec<ItemId>) {
        if limit == Limit::Replicas {
            let items = (0..self.random.between(REPLICAS, 2 * REPLICAS)).map(|_| self.item()).collect();
            return (items, vec![self.item()]);
        }
        let mut items = self.items.clone();
        if self.random.once_in(2) {
            self.random.shuffle(&mut items);
        }
        let late = items.split_off(self.random.between(RECORDS - 4, RECORDS));
        (items, late)
    }

    /// Replicas from a first to a last one edit the items, each some of its own, in turn or one after the other.
    fn deal(&mut self, items: &[ItemId], first: usize, last: usize) {
        let replicas = last - first + 1;
        let in_turn = self.random.once_in(2);
        for (place, item) in items.iter().enumerate() {
            let turn = if in_turn { place % replicas } else { place * replicas / items.len() };
            self.edit_item(first + turn, *item);
            self.sometimes_any();
        }
    }

    /// The full replica takes in all that replicas 1 to a last one have, or a part of it each, in any order.
    fn gather(&mut self, last: usize, in_parts: bool) {
        let mut batches = Vec::new();
        for replica in 1..=last {
            let mut ends = if in_parts { [self.item(), self.item()] } else { [FIRST_ITEM, LAST_ITEM] };
            ends.sort();
            batches.push(self.batches);
            self.make_with(replica, Given::Nothing, ends);
        }
        self.random.shuffle(&mut batches);
        for batch in batches {
            self.apply_to(0, batch);
            self.sometimes_any();
        }
    }

    /// The full replica edits items that it may have no room for and deletes others; such items come from a replica that it does not know,
    /// and from one that it knows.
    fn go_beyond(&mut self, known: usize, items: &[ItemId], late: &[ItemId]) {
        let one = self.random.between(1, known);
        let mut steps = [0, 1, 2, 3];
        self.random.shuffle(&mut steps);
        for step in steps {
            match step {
                0 => late.iter().for_each(|item| self.edit_item(0, *item)),
                1 => items.iter().take(6).for_each(|item| self.delete_item(0, *item)),
                2 => self.bring(known + 1, late),
                _ => self.bring(one, late),
            }
        }
    }

    /// Another replica edits items and sends all that it has to the full one.
    fn bring(&mut self, replica: usize, items: &[ItemId]) {
        items.iter().for_each(|item| self.edit_item(replica, *item));
        self.make_with(replica, Given::Nothing, [FIRST_ITEM, LAST_ITEM]);
        self.apply_to(0, self.batches - 1);
    }

    /// The full replica is sent a change that it has room for, makes one, and sends all that it has.
    fn go_on(&mut self, known: usize, items: &[ItemId]) {
        let (from, to) = (self.random.between(1, known), self.replica());
        let item = *self.random.choose(items);
        self.edit_item(from, item);
        self.make_with(from, Given::Nothing, [item, item]);
        self.apply_to(0, self.batches - 1);
        self.edit_item(0, item);
        self.make_with(0, Given::Of(to, 0), [FIRST_ITEM, LAST_ITEM]);
        self.apply_to(to, self.batches - 1);
    }

    /// Seldom any call on another replica than the full one.
    fn sometimes_any(&mut self) {
        if self.random.once_in(30) {
            self.careful = false;
            let replica = self.random.between(1, self.list.replicas.len() - 1);
            self.any(replica, 35);
            self.careful = true;
        }
    }
}
