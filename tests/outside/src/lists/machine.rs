//! The plain history machine, which says what each replica knows and holds after a list of calls. It is fed the replica and the arguments of
//! each call that was not refused, and for an apply which make wrote the batch; it takes nothing from the bytes of a store or batch.

use std::collections::{BTreeMap, BTreeSet};

pub type Item = [u8; 24];
pub type Id = [u8; 16];

/// A version that was made, with its record. A deletion has no tag.
#[derive(Clone, Debug, PartialEq, Eq)]
pub struct Made {
    pub item: Item,
    pub tick: u64,
    pub replica: Id,
    pub create: (Id, u64),
    pub tag: Option<[u8; 16]>,
}

/// What a make remembers.
struct Remembered {
    first: Item,
    last: Item,
    known: Vec<Vec<u64>>,
}

pub struct Machine {
    ids: Vec<Id>,
    /// The items at which known ticks can change: the first of all, the first of each span and the one behind its last. The ticks of an item are
    /// those at the greatest place at or below it.
    places: Vec<Item>,
    /// For each replica the known tick by place and replica.
    known: Vec<Vec<Vec<u64>>>,
    /// The versions of each item.
    versions: BTreeMap<Item, Vec<Made>>,
    batches: BTreeMap<usize, Remembered>,
}

impl Machine {
    /// Replicas with their ids, and with the own ticks that they start with, which are 0 for new ones; and all spans of the list of calls.
    pub fn new(replicas: &[(Id, u64)], spans: impl Iterator<Item = (Item, Item)>) -> Self {
        let mut places = BTreeSet::from([[0; 24]]);
        for (first, last) in spans {
            places.insert(first);
            places.extend(behind(&last));
        }
        let nothing = vec![vec![0; replicas.len()]; places.len()];
        let mut known = vec![nothing; replicas.len()];
        for (replica, (_, tick)) in replicas.iter().enumerate() {
            known[replica].iter_mut().for_each(|row| row[replica] = *tick);
        }
        let ids = replicas.iter().map(|(id, _)| *id).collect();
        Self { ids, places: places.into_iter().collect(), known, versions: BTreeMap::new(), batches: BTreeMap::new() }
    }

    /// An edit with a tag, or a deletion.
    pub fn change(&mut self, replica: usize, item: Item, tag: Option<[u8; 16]>) {
        let largest = self.known[replica].iter().flatten().max().copied().unwrap_or(0);
        let (id, tick) = (self.ids[replica], largest + 1);
        let create = self.greatest(replica, &item).map_or((id, tick), |version| version.create);
        self.versions.entry(item).or_default().push(Made { item, tick, replica: id, create, tag });
        self.known[replica].iter_mut().for_each(|row| row[replica] = tick);
    }

    pub fn make(&mut self, replica: usize, batch: usize, first: Item, last: Item) {
        self.batches.insert(batch, Remembered { first, last, known: self.known[replica].clone() });
    }

    pub fn apply(&mut self, replica: usize, batch: usize) {
        let batch = &self.batches[&batch];
        for (place, item) in self.places.iter().enumerate() {
            if batch.first <= *item && *item <= batch.last {
                for (known, learned) in self.known[replica][place].iter_mut().zip(&batch.known[place]) {
                    *known = *learned.max(known);
                }
            }
        }
    }

    pub fn places(&self) -> &[Item] {
        &self.places
    }

    /// The tick that a replica knows for an item and a replica id; 0 for an id that is no replica's. The first place is at or below every item.
    pub fn known(&self, replica: usize, item: &Item, id: &Id) -> u64 {
        let place = self.places.partition_point(|place| place <= item) - 1;
        self.ids.iter().position(|other| other == id).map_or(0, |other| self.known[replica][place][other])
    }

    /// The records that a replica holds, by rising item id.
    pub fn records(&self, replica: usize) -> Vec<&Made> {
        self.versions.keys().filter_map(|item| self.greatest(replica, item)).collect()
    }

    /// The greatest version of an item that a replica's ticks contain, by tick and then replica id.
    fn greatest(&self, replica: usize, item: &Item) -> Option<&Made> {
        let contained = |version: &&Made| version.tick <= self.known(replica, item, &version.replica);
        let versions = self.versions.get(item)?.iter();
        versions.filter(contained).max_by_key(|version| (version.tick, version.replica))
    }
}

/// The id behind an item's; nothing follows the last one.
fn behind(item: &Item) -> Option<Item> {
    let mut next = *item;
    let place = next.iter().rposition(|byte| *byte != 255)?;
    next[place] += 1;
    next[place + 1..].fill(0);
    Some(next)
}

#[cfg(test)]
mod tests {
    use super::*;

    const ALL: (Item, Item) = ([0; 24], [255; 24]);
    const P: Id = [1; 16];
    const Q: Id = [2; 16];

    fn item(number: u8) -> Item {
        let mut item = [0; 24];
        item[23] = number;
        item
    }

    fn versions(machine: &Machine, replica: usize) -> Vec<(u8, Id, u64)> {
        machine.records(replica).iter().map(|made| (made.item[23], made.replica, made.tick)).collect()
    }

    #[test]
    fn k10_two_first_edits_of_one_item() {
        let mut machine = Machine::new(&[(P, 0), (Q, 0)], [ALL].into_iter());
        machine.change(0, item(1), Some([3; 16]));
        machine.change(1, item(1), Some([4; 16]));
        machine.make(1, 0, ALL.0, ALL.1);
        machine.apply(0, 0);
        assert_eq!(versions(&machine, 0), [(1, Q, 1)]);
        machine.change(0, item(1), None);
        assert_eq!(versions(&machine, 0), [(1, P, 2)]);
        assert_eq!(machine.records(0)[0].create, (Q, 1));
        assert_eq!(versions(&machine, 1), [(1, Q, 1)]);
    }

    #[test]
    fn nothing_is_learned_outside_the_span() {
        let span = (item(2), item(3));
        let mut machine = Machine::new(&[(P, 0), (Q, 7)], [ALL, span].into_iter());
        for number in 1..=4 {
            machine.change(0, item(number), Some([number; 16]));
        }
        machine.make(0, 5, span.0, span.1);
        machine.apply(1, 5);
        assert_eq!(versions(&machine, 1), [(2, P, 2), (3, P, 3)]);
        for (number, tick) in [(0, 0), (1, 0), (2, 4), (3, 4), (4, 0)] {
            assert_eq!(machine.known(1, &item(number), &P), tick);
            assert_eq!(machine.known(1, &item(number), &Q), 7);
        }
        machine.change(1, item(9), None);
        assert_eq!(machine.known(1, &ALL.1, &Q), 8);
    }
}
