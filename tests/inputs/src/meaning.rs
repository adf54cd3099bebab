//! What a knowledge means, said slowly and plainly over values instead of bytes. The quick code is compared with it, and it
//! makes the inputs that are in normal form.

use std::collections::BTreeSet;

use crate::edits::{one_less, one_more};
use crate::knowledge::Knowledge;

pub type ItemId = [u8; 24];
pub type ReplicaId = [u8; 16];

pub const FIRST_ITEM: ItemId = [0; 24];
pub const LAST_ITEM: ItemId = [255; 24];

/// The next item id; nothing follows the last one.
pub fn next_item(item: &ItemId) -> Option<ItemId> {
    if *item == LAST_ITEM { None } else { one_more(item).try_into().ok() }
}

/// The item id before; nothing is before the first one.
pub fn item_before(item: &ItemId) -> Option<ItemId> {
    if *item == FIRST_ITEM { None } else { one_less(item).try_into().ok() }
}

impl Knowledge {
    /// The tick known for an item and a replica: take the range with the greatest bound at or below the item, its vector,
    /// the replica's element there; 0 if any is missing.
    pub fn known(&self, item: &ItemId, replica: &ReplicaId) -> u64 {
        let at_or_below = self.ranges.iter().filter(|(bound, _)| bound <= item);
        let Some((_, index)) = at_or_below.max_by_key(|(bound, _)| *bound) else { return 0 };
        let Some(vector) = self.vectors.get(*index as usize) else { return 0 };
        let element = vector.iter().find(|(key, _)| self.replicas.get(*key as usize) == Some(replica));
        element.map_or(0, |(_, tick)| *tick)
    }

    /// Whether it contains a version: the tick is 1 or more and at most the known one.
    pub fn contains(&self, item: &ItemId, replica: &ReplicaId, tick: u64) -> bool {
        1 <= tick && tick <= self.known(item, replica)
    }

    /// The first's tick minus the second's.
    pub fn lead(&self, second: &Self, item: &ItemId, replica: &ReplicaId) -> i128 {
        i128::from(self.known(item, replica)) - i128::from(second.known(item, replica))
    }

    /// Whether it knows at least as much as the second throughout a span: at its first item and at every bound in it,
    /// for every replica of the two.
    pub fn covers(&self, second: &Self, first_item: &ItemId, last_item: &ItemId) -> bool {
        let mut places = self.bounds();
        places.extend(second.bounds());
        places.retain(|bound| first_item <= bound && bound <= last_item);
        places.insert(*first_item);
        let mut replicas = self.replica_set();
        replicas.extend(second.replica_set());
        places.iter().all(|item| replicas.iter().all(|id| self.known(item, id) >= second.known(item, id)))
    }

    /// The lowest item, and there the lowest replica, for which its tick is below the second's: of all bounds and replicas of
    /// the two.
    pub fn first_lack(&self, second: &Self) -> Option<(ItemId, ReplicaId)> {
        let mut places = self.bounds();
        places.extend(second.bounds());
        places.insert(FIRST_ITEM);
        let mut replicas = self.replica_set();
        replicas.extend(second.replica_set());
        let lacks = |item: &ItemId, id: &ReplicaId| self.known(item, id) < second.known(item, id);
        places.iter().find_map(|item| Some((*item, *replicas.iter().find(|id| lacks(item, id))?)))
    }

    /// The normal form.
    pub fn normalised(&self) -> Self {
        Self::with_ticks(self.bounds(), self.replica_set(), |item, replica| self.known(item, replica))
    }

    /// The larger known tick everywhere, in normal form.
    pub fn merged(&self, second: &Self) -> Self {
        let mut places = self.bounds();
        places.extend(second.bounds());
        let mut replicas = self.replica_set();
        replicas.extend(second.replica_set());
        Self::with_ticks(places, replicas, |item, id| self.known(item, id).max(second.known(item, id)))
    }

    /// The known ticks inside a span and 0 outside, in normal form.
    pub fn projected(&self, first_item: &ItemId, last_item: &ItemId) -> Self {
        let mut places = self.bounds();
        places.insert(*first_item);
        places.extend(next_item(last_item));
        Self::with_ticks(places, self.replica_set(), |item, replica| {
            let inside = first_item <= item && item <= last_item;
            if inside { self.known(item, replica) } else { 0 }
        })
    }

    /// The knowledge in normal form that has the given ticks, which change at the given places only and are 0 for all
    /// other replicas.
    pub fn with_ticks(
        mut places: BTreeSet<ItemId>,
        mut replicas: BTreeSet<ReplicaId>,
        tick: impl Fn(&ItemId, &ReplicaId) -> u64,
    ) -> Self {
        places.insert(FIRST_ITEM);
        replicas.retain(|replica| places.iter().any(|item| tick(item, replica) > 0));
        let mut vectors: Vec<Vec<(u32, u64)>> = vec![Vec::new()];
        let mut ranges: Vec<(ItemId, u32)> = Vec::new();
        for item in &places {
            let ticks = (0..).zip(replicas.iter().map(|replica| tick(item, replica)));
            let vector: Vec<(u32, u64)> = ticks.filter(|(_, tick)| *tick > 0).collect();
            let index = vectors.iter().position(|other| *other == vector).unwrap_or(vectors.len());
            if index == vectors.len() {
                vectors.push(vector);
            }
            if ranges.last().is_none_or(|(_, before)| *before != index as u32) {
                ranges.push((*item, index as u32));
            }
        }
        Self { replicas: replicas.into_iter().collect(), vectors, ranges }
    }

    /// Whether it is in normal form.
    pub fn is_normal(&self) -> bool {
        self.normal_rules().iter().all(|(_, holds)| *holds)
    }

    /// The rules of the normal form, and whether each of them holds.
    pub fn normal_rules(&self) -> [(&'static str, bool); 10] {
        let used = |key| self.vectors.iter().flatten().any(|(other, _)| *other == key);
        let content = |(_, index): &(ItemId, u32)| &self.vectors[*index as usize];
        let mut first_uses: Vec<u32> = Vec::new();
        for (_, index) in &self.ranges {
            if *index != 0 && !first_uses.contains(index) {
                first_uses.push(*index);
            }
        }
        let distinct = self.vectors.iter().collect::<BTreeSet<_>>().len() == self.vectors.len();
        [
            ("replicas rise", self.replicas.is_sorted_by(|a, b| a < b)),
            ("replicas are used", (0..self.replicas.len() as u32).all(used)),
            ("starts at zero", self.ranges.first().is_some_and(|(bound, _)| *bound == FIRST_ITEM)),
            ("bounds rise", self.ranges.is_sorted_by(|(a, _), (b, _)| a < b)),
            ("neighbours differ", self.ranges.is_sorted_by(|a, b| content(a) != content(b))),
            ("first is empty", self.vectors.first().is_some_and(Vec::is_empty)),
            ("in order of first use", first_uses == (1..self.vectors.len() as u32).collect::<Vec<_>>()),
            ("distinct", distinct),
            ("elements rise", self.vectors.iter().all(|vector| vector.is_sorted_by(|(a, _), (b, _)| a < b))),
            ("ticks say something", self.vectors.iter().flatten().all(|(_, tick)| *tick >= 1)),
        ]
    }

    pub fn bounds(&self) -> BTreeSet<ItemId> {
        self.ranges.iter().map(|(bound, _)| *bound).collect()
    }

    pub fn replica_set(&self) -> BTreeSet<ReplicaId> {
        self.replicas.iter().copied().collect()
    }
}

#[cfg(test)]
mod tests {
    use super::*;
    use crate::knowledge::{item_id, replica_id};
    use crate::splitmix::SplitMix64;

    #[test]
    fn ids_and_their_neighbours() {
        assert_eq!(next_item(&FIRST_ITEM), Some(item_id(1)));
        assert_eq!(next_item(&item_id(u128::MAX)).and_then(|id| item_before(&id)), Some(item_id(u128::MAX)));
        assert_eq!(next_item(&LAST_ITEM), None);
        assert_eq!(item_before(&FIRST_ITEM), None);
        assert_eq!(item_before(&LAST_ITEM).and_then(|id| next_item(&id)), Some(LAST_ITEM));
    }

    #[test]
    fn the_normal_form_is_normal_and_its_own_normal_form() {
        let random = &mut SplitMix64::new(2);
        let mut normal_before = 0;
        for _ in 0..1000 {
            let knowledge = Knowledge::random(random);
            normal_before += usize::from(knowledge.is_normal());
            let normal = knowledge.normalised();
            assert!(normal.is_normal(), "{knowledge:?}");
            assert_eq!(knowledge.is_normal(), normal == knowledge);
            assert_eq!(normal.normalised(), normal);
        }
        assert!(normal_before < 200);
    }

    #[test]
    fn k4_k6_k7_merged_and_projected() {
        let [a, b] = [Knowledge::a(), Knowledge::b()];
        let merged = a.merged(&b);
        assert_eq!(merged.bytes().len(), 177);
        assert_eq!(merged.known(&item_id(7), &replica_id(1)), 5);
        assert_eq!(merged.known(&item_id(7), &replica_id(2)), 2);
        assert_eq!(a.projected(&item_id(1), &item_id(1)).bytes().len(), 205);
        assert_eq!(a.projected(&item_id(1), &LAST_ITEM).bytes().len(), 177);
    }
}
