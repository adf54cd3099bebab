//! Random lists of calls.

mod full;
mod round;

use inputs::{Batch, FIRST_ITEM, ItemId, Knowledge, LAST_ITEM, ReplicaId, Room, SplitMix64, faulty, next_item};

use super::list::{Call, Given, List};
pub use full::Limit;
pub use round::{Breach, DISTRICTS, broken, round};

const LARGEST_TICK: u64 = i64::MAX as u64;

/// What a list is after.
#[derive(Clone, Copy, Debug, PartialEq, Eq)]
pub enum Style {
    /// Few replicas and items, so that edits collide.
    Usual,
    /// More replicas than a knowledge has room for.
    Replicas,
    /// More ranges than a knowledge has room for: batches of single ids.
    Ranges,
    /// More records than a store has room for; over 300 calls.
    Records,
    /// Replicas that start with ticks far above those of others, or near the largest one.
    Ticks,
    /// A replica that comes to a limit and goes on.
    Full(Limit),
}

pub fn style(random: &mut SplitMix64) -> Style {
    match random.below(100) {
        0 | 1 => Style::Records,
        2..=5 => Style::Replicas,
        6..=9 => Style::Ranges,
        10..=17 => Style::Ticks,
        18..=22 => Style::Full(Limit::Replicas),
        23..=27 => Style::Full(Limit::Ranges),
        28..=31 => Style::Full(Limit::Records),
        32..=34 => Style::Full(Limit::Both),
        _ => Style::Usual,
    }
}

/// A random list of a style.
pub fn list(random: &mut SplitMix64, style: Style) -> List {
    let replicas = match style {
        Style::Usual if random.once_in(12) => random.between(7, 14),
        Style::Usual | Style::Ticks => random.between(2, 6),
        Style::Replicas => random.between(15, 24),
        Style::Ranges => random.between(2, 4),
        Style::Records => random.between(2, 3),
        Style::Full(limit) => limit.replicas(random),
    };
    let items = match style {
        Style::Usual | Style::Ticks => random.between(2, 7),
        Style::Replicas => random.between(2, 20),
        Style::Ranges => random.between(36, 48),
        Style::Records => random.between(259, 300),
        Style::Full(limit) => limit.items(random),
    };
    let replicas = replica_ids(random, replicas).into_iter().map(|id| (id, start_tick(random, style))).collect();
    let (items, list) = (item_ids(random, items), List { replicas, calls: Vec::new(), round: None });
    let mut making = Making { items, list, batches: 0, careful: false, random };
    match style {
        Style::Usual | Style::Ticks => making.usual(),
        Style::Replicas => making.replicas(),
        Style::Ranges => making.ranges(),
        Style::Records => making.records(),
        Style::Full(limit) => making.full(limit),
    }
    making.undelivered();
    making.list
}

fn start_tick(random: &mut SplitMix64, style: Style) -> u64 {
    match style {
        Style::Ticks => match random.below(6) {
            0 => LARGEST_TICK - random.below(12) as u64,
            1 => 1 << random.between(20, 62),
            2 => random.between(1, 300) as u64,
            _ => 0,
        },
        _ => 0,
    }
}

/// Ids that differ in the first byte only, in the last only, or everywhere.
fn replica_ids(random: &mut SplitMix64, count: usize) -> Vec<ReplicaId> {
    let base: ReplicaId = if random.once_in(2) { [0; 16] } else { random.bytes() };
    let style = random.below(3);
    let mut ids: Vec<ReplicaId> = (0..count)
        .map(|place| match style {
            0 => base.with(0, place as u8 * 9),
            1 => base.with(15, place as u8 * 9),
            _ => random.bytes::<16>().with(7, place as u8),
        })
        .collect();
    random.shuffle(&mut ids);
    ids
}

/// Ids one after the other, ids that differ in the first byte only, or anywhere; often with the first and the last of all.
fn item_ids(random: &mut SplitMix64, count: usize) -> Vec<ItemId> {
    let base: ItemId = if random.once_in(2) { [0; 24] } else { random.bytes() };
    let style = if count > 250 { 2 } else { random.below(4) };
    let mut items: Vec<ItemId> = (0..count)
        .map(|place| match style {
            0 => base.with(0, place as u8 * 5),
            1 => base.with(23, place as u8 * 2),
            2 => base.with(22, (place / 256) as u8).with(23, place as u8),
            _ => random.bytes::<24>().with(11, place as u8),
        })
        .collect();
    if random.once_in(3) {
        items[0] = FIRST_ITEM;
        items[count - 1] = LAST_ITEM;
    }
    items.sort();
    items
}

trait With {
    /// The same with another byte at a place.
    fn with(self, place: usize, byte: u8) -> Self;
}

impl<const N: usize> With for [u8; N] {
    fn with(mut self, place: usize, byte: u8) -> Self {
        self[place] = byte;
        self
    }
}

struct Making<'a> {
    items: Vec<ItemId>,
    list: List,
    /// How many batches have a name.
    batches: usize,
    /// Whether ids have their length and buffers are long enough.
    careful: bool,
    random: &'a mut SplitMix64,
}

impl Making<'_> {
    /// Every sort of call in any order, about some of the ids.
    fn usual(&mut self) {
        let calls = if self.random.once_in(40) { self.random.between(61, 120) } else { self.random.between(8, 42) };
        let edits = *self.random.choose(&[20, 35, 50]);
        for _ in 0..calls {
            let replica = self.replica();
            if self.random.once_in(25) {
                self.in_parts(replica);
            }
            self.any(replica, edits);
        }
    }

    /// Any sort of call; so many in a hundred are edits.
    fn any(&mut self, replica: usize, edits: usize) {
        match self.random.below(100) {
            choice if choice < edits => self.edit(replica),
            choice if choice < edits + 10 => self.delete(replica),
            choice if choice < edits + 10 + (90 - edits) / 2 => self.make(replica),
            _ => self.apply(replica),
        }
    }

    /// One replica is sent a part of what another knows, and then a longer part that is made for one that knows all of it.
    fn in_parts(&mut self, from: usize) {
        let (to, last) = (self.replica(), self.item());
        let mut ends = [self.item(), self.item()];
        ends.sort();
        self.edit_item(from, last.max(ends[1]));
        self.make_with(from, Given::Nothing, ends);
        self.apply_to(to, self.batches - 1);
        self.make_with(from, Given::Of(from, 0), [ends[0], last.max(ends[1])]);
        self.apply_to(to, self.batches - 1);
    }

    /// All replicas edit, and some take in what all others have.
    fn replicas(&mut self) {
        let count = self.list.replicas.len();
        let hubs = [self.replica(), self.replica()];
        // One that makes no change before it knows many others has no room left for itself.
        let silent = self.random.once_in(2);
        for replica in 0..count {
            if hubs[0] != replica || !silent {
                self.edit(replica);
            }
            self.make_with(replica, Given::Nothing, [FIRST_ITEM, LAST_ITEM]);
            if self.random.once_in(3) {
                self.apply_to(hubs[1], self.batches - 1);
            }
        }
        let mut order: Vec<usize> = (0..self.batches).collect();
        self.random.shuffle(&mut order);
        for batch in order {
            self.apply_to(hubs[0], batch);
            if !silent && self.random.once_in(8) {
                self.edit(hubs[0]);
                self.delete(hubs[0]);
            }
        }
        for _ in 0..6 {
            let hub = *self.random.choose(&hubs);
            self.edit(hub);
            self.delete(hub);
            self.make(hub);
            let replica = self.replica();
            self.apply(replica);
        }
    }

    /// One replica sends single ids, or a few, to another.
    fn ranges(&mut self) {
        let (from, to) = (0, 1);
        let mut order: Vec<usize> = (0..self.items.len()).collect();
        if self.random.once_in(2) {
            self.random.shuffle(&mut order);
        }
        for place in order {
            let item = self.items[place];
            if self.random.once_in(4) {
                self.edit(from);
            } else {
                self.edit_item(from, item);
            }
            let next = next_item(&item).unwrap_or(item);
            let last = if self.random.once_in(8) { next } else { item };
            let given = if self.random.once_in(2) { Given::Nothing } else { Given::Of(to, 0) };
            self.make_with(from, given, [item, last]);
            let replica = if self.random.once_in(10) { self.replica() } else { to };
            self.apply_to(replica, self.batches - 1);
            if self.random.once_in(10) {
                self.edit(to);
            }
            if self.random.once_in(5) {
                self.make(to);
            }
        }
        for _ in 0..8 {
            let replica = self.replica();
            self.make(to);
            self.apply(replica);
        }
    }

    /// Replicas with different items, together more than a store may have; or one that has them all.
    fn records(&mut self) {
        let items = self.items.clone();
        let alone = self.random.once_in(2);
        let parts = self.list.replicas.len();
        for (place, item) in items.iter().enumerate() {
            let replica = if alone { 0 } else { place * parts / items.len() };
            self.edit_item(replica, *item);
            if self.random.once_in(20) {
                self.delete(replica);
            }
        }
        for _ in 0..14 {
            let (replica, other) = (self.replica(), self.replica());
            self.make_with(replica, Given::Of(other, 0), [FIRST_ITEM, LAST_ITEM]);
            self.apply_to(other, self.batches - 1);
            self.make(replica);
            self.edit(other);
            self.apply(other);
        }
    }

    /// Batches that nobody is given in the list.
    fn undelivered(&mut self) {
        for _ in 0..self.random.between(2, 4) {
            let (replica, other) = (self.replica(), self.replica());
            if self.random.once_in(3) {
                self.edit(replica);
            }
            let given = if self.random.once_in(2) { Given::Nothing } else { Given::Of(other, 0) };
            let span = if self.random.once_in(3) { self.span() } else { [FIRST_ITEM, LAST_ITEM] };
            self.make_with(replica, given, span);
        }
        // Two that are never refused.
        for _ in 0..2 {
            let (replica, batch) = (self.replica(), self.batches);
            let (first, last) = (FIRST_ITEM.to_vec(), LAST_ITEM.to_vec());
            self.batches += 1;
            self.list.calls.push(Call::Make {
                replica,
                batch,
                given: Given::Nothing,
                first,
                last,
                room: Room::More(0),
            });
        }
    }

    fn replica(&mut self) -> usize {
        self.random.below(self.list.replicas.len())
    }

    fn item(&mut self) -> ItemId {
        *self.random.choose(&self.items)
    }

    /// Mostly a buffer that is long enough, often just so. A careful one may be so for a result beyond the limits too.
    fn room(&mut self) -> Room {
        match self.random.below(40) {
            0..=2 if self.careful => Room::Bytes(Batch::LONGEST + 99),
            0 => Room::Bytes(self.random.below(400)),
            1 => Room::Less(1),
            2 => Room::Less(self.random.between(1, 100)),
            3..=9 => Room::More(self.random.between(1, 99)),
            _ => Room::More(0),
        }
    }

    /// The id; seldom with another length.
    fn id(&mut self, id: &[u8]) -> Vec<u8> {
        let mut id = id.to_vec();
        if !self.careful && self.random.once_in(60) {
            id.resize(self.random.between(0, 40), 0);
        }
        id
    }

    fn edit(&mut self, replica: usize) {
        let item = self.item();
        self.edit_item(replica, item);
    }

    fn edit_item(&mut self, replica: usize, item: ItemId) {
        let tag: [u8; 16] = if self.random.once_in(10) { [0; 16] } else { self.random.bytes() };
        let (item, tag, room) = (self.id(&item), self.id(&tag), self.room());
        self.list.calls.push(Call::Edit { replica, item, tag, room });
    }

    fn delete(&mut self, replica: usize) {
        let item = self.item();
        self.delete_item(replica, item);
    }

    fn delete_item(&mut self, replica: usize, item: ItemId) {
        let (item, room) = (self.id(&item), self.room());
        self.list.calls.push(Call::Delete { replica, item, room });
    }

    /// A span of one id, of all, or between two of the ids or their neighbours; seldom the wrong way round.
    fn span(&mut self) -> [ItemId; 2] {
        let mut ends = [self.item(), self.item()];
        match self.random.below(10) {
            0..=2 => return [FIRST_ITEM, LAST_ITEM],
            3 | 4 => ends[1] = ends[0],
            5 => ends[0] = FIRST_ITEM,
            6 => ends[1] = LAST_ITEM,
            7 => ends[0] = next_item(&ends[0]).unwrap_or(ends[0]),
            _ => {}
        }
        if !self.random.once_in(40) {
            ends.sort();
        }
        ends
    }

    /// A knowledge that nobody need have: ticks of the replicas that may never have been made, or bytes with a fault.
    fn made_up(&mut self) -> Vec<u8> {
        if self.random.once_in(4) {
            return self.random.choose(&faulty(&Knowledge::filled(2, 3, 3))).clone();
        }
        let mut knowledge = Knowledge::filled(2, 3, 2);
        knowledge.replicas = [self.replica(), self.replica()].map(|replica| self.list.replicas[replica].0).to_vec();
        knowledge.vectors.iter_mut().flatten().for_each(|(_, tick)| *tick = self.random.below(4) as u64);
        knowledge.ranges[1].0 = self.item();
        if knowledge.replicas[0] == knowledge.replicas[1] || knowledge.ranges[1].0 == FIRST_ITEM {
            return Knowledge::late_start().bytes();
        }
        knowledge.bytes()
    }

    fn make(&mut self, replica: usize) {
        let other = self.replica();
        let given = match self.random.below(20) {
            0..=6 => Given::Nothing,
            7..=13 => Given::Of(other, 0),
            14..=16 => Given::Of(other, self.random.between(1, 5)),
            17 | 18 if self.batches > 0 => Given::Learned(self.random.below(self.batches)),
            _ => Given::Bytes(self.made_up()),
        };
        let span = self.span();
        self.make_with(replica, given, span);
    }

    fn make_with(&mut self, replica: usize, given: Given, span: [ItemId; 2]) {
        let [first, last] = span.map(|item| self.id(&item));
        let (batch, room) = (self.batches, self.room());
        self.batches += 1;
        self.list.calls.push(Call::Make { replica, batch, given, first, last, room });
    }

    /// A batch that was made lately or at any time.
    fn apply(&mut self, replica: usize) {
        if self.batches > 0 {
            let back = if self.random.once_in(2) { self.batches.min(3) } else { self.batches };
            let batch = self.batches - 1 - self.random.below(back);
            self.apply_to(replica, batch);
        }
    }

    fn apply_to(&mut self, replica: usize, batch: usize) {
        let room = self.room();
        self.list.calls.push(Call::Apply { replica, batch, room });
    }
}
