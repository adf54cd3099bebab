//! Stores and batches in which one rule of validity is broken, or two.

use crate::knowledge::{Knowledge, Written, item_id, replica_id};
use crate::meaning::{ItemId, LAST_ITEM, ReplicaId, item_before, next_item};
use crate::record::{LIVE, Record, TOMBSTONE};
use crate::store::{Batch, Store};
use crate::stores::alike;

/// Bytes with the name of what is wrong with them.
pub type Broken = (String, Vec<u8>);

/// A change that breaks a rule. Those of bytes come after all others.
enum Breach<T> {
    Value(&'static str, Box<dyn Fn(&mut T)>),
    /// A change of the bytes of a knowledge inside, of which there is a first or also a second.
    Knowledge(&'static str, usize, OnBytes),
    Bytes(&'static str, OnBytes),
}

impl<T> Breach<T> {
    fn value(name: &'static str, change: impl Fn(&mut T) + 'static) -> Self {
        Self::Value(name, Box::new(change))
    }

    fn name(&self) -> &'static str {
        match self {
            Self::Value(name, _) | Self::Knowledge(name, ..) | Self::Bytes(name, _) => name,
        }
    }
}

/// A store or a batch.
trait Whole: Clone {
    fn knowledges(&self) -> Vec<Vec<u8>>;
    fn bytes_with(&self, knowledges: &[Vec<u8>]) -> Vec<u8>;
}

impl Whole for Store {
    fn knowledges(&self) -> Vec<Vec<u8>> {
        vec![self.knowledge.bytes()]
    }

    fn bytes_with(&self, knowledges: &[Vec<u8>]) -> Vec<u8> {
        self.write_with(&unnamed(&knowledges[0])).bytes
    }
}

impl Whole for Batch {
    fn knowledges(&self) -> Vec<Vec<u8>> {
        vec![self.needed.bytes(), self.learned.bytes()]
    }

    fn bytes_with(&self, knowledges: &[Vec<u8>]) -> Vec<u8> {
        self.write_with(&unnamed(&knowledges[0]), &unnamed(&knowledges[1])).bytes
    }
}

/// Bytes without the names of their fields.
fn unnamed(bytes: &[u8]) -> Written {
    Written { bytes: bytes.to_vec(), fields: Vec::new() }
}

/// The bytes after all these changes.
fn broken<T: Whole>(whole: &T, breaches: &[&Breach<T>]) -> Broken {
    let mut whole = whole.clone();
    for breach in breaches {
        if let Breach::Value(_, change) = breach {
            change(&mut whole);
        }
    }
    let mut knowledges = whole.knowledges();
    for breach in breaches {
        if let Breach::Knowledge(_, which, change) = breach {
            change(&mut knowledges[*which]);
        }
    }
    let mut bytes = whole.bytes_with(&knowledges);
    for breach in breaches {
        if let Breach::Bytes(_, change) = breach {
            change(&mut bytes);
        }
    }
    let names: Vec<_> = breaches.iter().map(|breach| breach.name()).collect();
    (names.join(" and "), bytes)
}

/// Each change alone.
fn alone<T: Whole>(whole: &T, breaches: &[Breach<T>]) -> Vec<Broken> {
    breaches.iter().map(|breach| broken(whole, &[breach])).collect()
}

/// Each two changes, in either order.
fn in_pairs<T: Whole>(whole: &T, breaches: &[Breach<T>]) -> Vec<Broken> {
    let pairs = breaches.iter().flat_map(|first| breaches.iter().map(move |second| [first, second]));
    pairs.filter(|[first, second]| first.name() != second.name()).map(|pair| broken(whole, &pair)).collect()
}

/// The store that rules are broken in: three replicas, four ranges, records of both kinds.
pub fn sound_store() -> Store {
    Store::filled(3, 4, 9)
}

/// The batch that rules are broken in: a part of what another store knows.
pub fn sound_batch() -> Batch {
    let mut batch = sound_store().made(&Knowledge::b(), &item_id(2), &item_id(12)).expect("it is small");
    batch.needed = Knowledge::filled(2, 3, 3);
    batch.records.retain(|record| !batch.needed.contains(&record.item, &record.change.0, record.change.1));
    batch
}

pub fn broken_stores() -> Vec<Broken> {
    alone(&sound_store(), &store_breaches())
}

pub fn stores_broken_twice() -> Vec<Broken> {
    in_pairs(&sound_store(), &store_breaches())
}

pub fn broken_batches() -> Vec<Broken> {
    let mut all = alone(&sound_batch(), &batch_breaches());
    // With nothing inside, only the order of its ends is wrong.
    let nothing = Knowledge::smallest();
    let empty = Batch { needed: nothing.clone(), learned: nothing, records: Vec::new(), ..sound_batch() };
    let turned = Batch { first: empty.last, last: empty.first, ..empty };
    all.push(("an empty span turned around".to_owned(), turned.bytes()));
    // In a span of all ids, only their number is wrong.
    let many = Store::filled(2, 3, 257);
    let whole = Batch { learned: many.knowledge, records: many.records, ..Batch::whole(&Store::new(many.own)) };
    all.push(("257 records of a whole store".to_owned(), whole.bytes()));
    all
}

pub fn batches_broken_twice() -> Vec<Broken> {
    in_pairs(&sound_batch(), &batch_breaches())
}

fn store_breaches() -> Vec<Breach<Store>> {
    let values: [(&str, OnValue<Store>); 3] = [
        ("the own tick unlike in one range", |store| unlike(store, 1)),
        ("the own tick missing in one range", |store| unlike(store, -9000)),
        ("another's id for the own", |store| store.own = replica_id(2)),
    ];
    let bytes: [(&str, OnBytes); 5] = [
        ("the length of the knowledge one more", |bytes| add(bytes, 17, 1)),
        ("the length of the knowledge one less", |bytes| add(bytes, 17, u32::MAX)),
        ("the count of records one more", |bytes| add(bytes, 21, 1)),
        ("the count of records one less", |bytes| add(bytes, 21, u32::MAX)),
        ("a count of records that overflows", |bytes| add(bytes, 21, 1 << 31)),
    ];
    let mut all: Vec<Breach<Store>> = Vec::new();
    for (name, change) in knowledge_changes() {
        all.push(Breach::value(name, move |store: &mut Store| change(&mut store.knowledge)));
    }
    for (name, change) in record_changes() {
        all.push(Breach::value(name, move |store: &mut Store| change(&mut store.records, &store.knowledge)));
    }
    all.extend(values.map(|(name, change)| Breach::value(name, change)));
    all.extend(knowledge_byte_changes().into_iter().map(|(name, change)| Breach::Knowledge(name, 0, change)));
    all.extend(byte_changes().into_iter().chain(bytes).map(|(name, change)| Breach::Bytes(name, change)));
    all
}

fn batch_breaches() -> Vec<Breach<Batch>> {
    let values: [(&str, OnValue<Batch>); 9] = [
        ("learned outside, all of it", |batch| learn(batch, item_id(0), LAST_ITEM)),
        ("learned one id before", |batch| learn(batch, before(&batch.first), batch.last)),
        ("learned one id behind", |batch| learn(batch, batch.first, behind(&batch.last))),
        ("a span that is too short in front", |batch| batch.first = behind(&batch.first)),
        ("a span that is too short behind", |batch| batch.last = before(&batch.last)),
        ("a span turned around", |batch| std::mem::swap(&mut batch.first, &mut batch.last)),
        ("a record before the span", |batch| batch.records[0].item = before(&batch.first)),
        ("a record behind the span", |batch| {
            let item = behind(&batch.last);
            batch.records.last_mut().into_iter().for_each(|record| record.item = item);
        }),
        ("a change that is needed", |batch| {
            let (replica, tick) = batch.records[1].change;
            batch.needed = alike(&batch.needed, &replica, tick);
        }),
    ];
    let bytes: [(&str, OnBytes); 5] = [
        ("the needed length one more", |bytes| add(bytes, 49, 1)),
        ("the learned length one more", |bytes| add(bytes, 53, 1)),
        ("a byte moved between the lengths", |bytes| {
            add(bytes, 49, 1);
            add(bytes, 53, u32::MAX);
        }),
        ("the count of records one more", |bytes| add(bytes, 57, 1)),
        ("the count of records one less", |bytes| add(bytes, 57, u32::MAX)),
    ];
    let mut all: Vec<Breach<Batch>> = Vec::new();
    for (name, change) in knowledge_changes() {
        all.push(Breach::value(name, move |batch: &mut Batch| change(&mut batch.needed)));
        all.push(Breach::value(name, move |batch: &mut Batch| change(&mut batch.learned)));
    }
    for (name, change) in record_changes() {
        all.push(Breach::value(name, move |batch: &mut Batch| change(&mut batch.records, &batch.learned)));
    }
    all.extend(values.map(|(name, change)| Breach::value(name, change)));
    for (name, change) in knowledge_byte_changes() {
        all.extend([0, 1].map(|which| Breach::Knowledge(name, which, change)));
    }
    all.extend(byte_changes().into_iter().chain(bytes).map(|(name, change)| Breach::Bytes(name, change)));
    all
}

/// The item before one that is not the first, and behind one that is not the last.
fn before(item: &ItemId) -> ItemId {
    item_before(item).unwrap_or(*item)
}

fn behind(item: &ItemId) -> ItemId {
    next_item(item).unwrap_or(*item)
}

/// Gives a batch what the store that it is made from knows in another span.
fn learn(batch: &mut Batch, first: ItemId, last: ItemId) {
    batch.learned = sound_store().knowledge.projected(&first, &last);
}

/// Adds to the four-byte number at a place, if it is there.
fn add(bytes: &mut [u8], at: usize, more: u32) {
    if let Some(place) = bytes.get_mut(at..).and_then(|rest| rest.first_chunk_mut()) {
        *place = u32::from_be_bytes(*place).wrapping_add(more).to_be_bytes();
    }
}

/// Changes the own tick in the last range; what is written is in normal form.
fn unlike(store: &mut Store, more: i64) {
    let own = store.own;
    let old = store.knowledge.clone();
    let Some((last, _)) = old.ranges.last().copied() else { return };
    let bounds = old.bounds();
    store.knowledge = Knowledge::with_ticks(bounds, old.replica_set(), |item, replica| {
        let tick = old.known(item, replica);
        if *replica == own && *item == last { tick.saturating_add_signed(more) } else { tick }
    });
    store.records.retain(|record| record.change.0 != own && record.create.0 != own);
}

/// A change of a value.
type OnValue<T> = fn(&mut T);

type OnBytes = fn(&mut Vec<u8>);
type OnKnowledge = fn(&mut Knowledge);

/// Changes after which a knowledge with some replicas and unlike ranges is not in normal form any more.
fn knowledge_changes() -> Vec<(&'static str, OnKnowledge)> {
    let mut all: Vec<(&'static str, OnKnowledge)> = vec![
        ("replicas that do not rise", |k| {
            k.replicas.reverse();
            let last = k.replicas.len().saturating_sub(1) as u32;
            for vector in &mut k.vectors {
                vector.iter_mut().for_each(|(key, _)| *key = last.saturating_sub(*key));
                vector.reverse();
            }
        }),
        ("a replica without a tick", |k| k.replicas.push([0xee; 16])),
        ("a replica id twice", |k| k.replicas.push(k.replicas.last().copied().unwrap_or([1; 16]))),
        ("17 replicas", |k| {
            for id in k.replicas.len() as u32..17 {
                k.replicas.push(replica_id(1000 + u128::from(id)));
                k.vectors.last_mut().into_iter().for_each(|vector| vector.push((id, 1)));
            }
        }),
        ("a first bound above the first id", |k| {
            if k.ranges.len() > 1 {
                k.ranges[0].0 = item_id(1);
            }
        }),
        ("neighbours with one vector", |k| {
            k.ranges.extend(k.ranges.last().copied().map(|(_, index)| (LAST_ITEM, index)))
        }),
        ("a bound twice", |k| {
            k.ranges.extend(k.ranges.last().copied().map(|(bound, index)| (bound, 1 - index.min(1))))
        }),
        ("bounds that fall", |k| {
            if k.ranges.len() > 2 {
                let bound = k.ranges[1].0;
                k.ranges[1].0 = k.ranges[2].0;
                k.ranges[2].0 = bound;
            }
        }),
        ("65 ranges", |k| {
            for place in k.ranges.len()..65 {
                k.ranges.push((item_id(1000 + place as u128), place as u32 % 2));
            }
        }),
        ("no range", |k| k.ranges.clear()),
    ];
    all.extend(vector_changes());
    all
}

fn vector_changes() -> Vec<(&'static str, OnKnowledge)> {
    vec![
        ("vectors in another order", |k| {
            if k.vectors.len() > 2 {
                k.vectors.swap(1, 2);
                for (_, index) in &mut k.ranges {
                    *index = [0, 2, 1].get(*index as usize).copied().unwrap_or(*index);
                }
            }
        }),
        ("a vector twice", |k| {
            k.ranges.push((item_id(500), 0));
            k.ranges.push((item_id(501), k.vectors.len() as u32));
            k.vectors.push(k.vectors.last().cloned().unwrap_or_default());
        }),
        ("a second empty vector", |k| {
            k.ranges.push((LAST_ITEM, k.vectors.len() as u32));
            k.vectors.push(Vec::new());
        }),
        ("a vector without a range", |k| k.vectors.push(vec![(0, 77)])),
        ("elements that fall", |k| k.vectors.iter_mut().for_each(|vector| vector.reverse())),
        ("an element twice", |k| k.vectors.iter_mut().for_each(|vector| vector.extend(vector.last().copied()))),
        ("a tick of 0", |k| on_last_element(k, |(_, tick)| *tick = 0)),
        ("a tick of 2^63", |k| on_last_element(k, |(_, tick)| *tick = 1 << 63)),
        ("a key too high", |k| on_last_element(k, |(key, _)| *key += 1)),
        ("an index too high", |k| k.ranges.extend([(LAST_ITEM, k.vectors.len() as u32)])),
        ("a first vector with an element", |k| k.vectors[0].push((0, 1))),
        ("no empty vector", |k| {
            k.vectors.remove(0);
            k.ranges.iter_mut().for_each(|(_, index)| *index = index.saturating_sub(1));
        }),
    ]
}

fn on_last_element(knowledge: &mut Knowledge, change: fn(&mut (u32, u64))) {
    knowledge.vectors.iter_mut().flatten().last().into_iter().for_each(change);
}

type OnRecords = fn(&mut Vec<Record>, &Knowledge);

/// Changes after which records are not as they must be.
fn record_changes() -> Vec<(&'static str, OnRecords)> {
    vec![
        ("a record of kind 0", |records, _| on_last(records, |record| record.kind = 0)),
        ("a record of kind 3", |records, _| on_last(records, |record| record.kind = 3)),
        ("a record of kind 4", |records, _| records[0].kind = 4),
        ("a record of kind 255", |records, _| records[0].kind = 255),
        ("a tombstone with a tag", |records, _| {
            on_last(records, |record| {
                record.kind = TOMBSTONE;
                record.tag = [0; 16];
                record.tag[15] = 1;
            });
        }),
        ("a tombstone with a tag's first byte", |records, _| {
            records[0].kind = TOMBSTONE;
            records[0].tag = [0; 16];
            records[0].tag[0] = 128;
        }),
        ("records that fall", |records, _| {
            let item = records[0].item;
            records[0].item = records[1].item;
            records[1].item = item;
        }),
        ("an item twice", |records, _| records[0].item = records[1].item),
        ("a create tick of 0", |records, _| on_last(records, |record| record.create.1 = 0)),
        ("ticks of 0", |records, _| {
            on_last(records, |record| (record.change.1, record.create.1) = (0, 0));
        }),
        ("a create tick above the change tick", |records, knowledge| {
            for record in records {
                let item = record.item;
                let known = |replica: &ReplicaId| knowledge.known(&item, replica);
                if let Some(replica) = knowledge.replicas.iter().find(|replica| known(replica) > 1) {
                    (record.change, record.create) = ((*replica, known(replica) - 1), (*replica, known(replica)));
                    return;
                }
            }
        }),
        ("a change tick of 2^63", |records, _| on_last(records, |record| record.change.1 = 1 << 63)),
        ("a change tick above the known one", |records, knowledge| {
            let record = &mut records[1];
            record.change.1 = knowledge.known(&record.item, &record.change.0) + 1;
        }),
        ("a change replica that is not known", |records, _| on_last(records, |record| record.change.0 = [0xdd; 16])),
        ("a create replica that is not known", |records, _| on_last(records, |record| record.create.0 = [0xdd; 16])),
        ("a create tick above the known one", |records, knowledge| {
            for record in records {
                let item = record.item;
                let known = |replica: &ReplicaId| knowledge.known(&item, replica);
                let mut ids = knowledge.replicas.clone();
                ids.sort_by_key(|replica| known(replica));
                if let [low, .., high] = ids[..]
                    && known(&low) < known(&high)
                {
                    (record.change, record.create) = ((high, known(&high)), (low, known(&low) + 1));
                    return;
                }
            }
        }),
        ("257 records", |records, _| {
            while let Some(last) = records.last().filter(|_| records.len() < 257) {
                let next = Record { item: behind(&last.item), kind: LIVE, ..last.clone() };
                records.push(next);
            }
        }),
    ]
}

fn on_last(records: &mut [Record], change: fn(&mut Record)) {
    records.last_mut().into_iter().for_each(change);
}

/// Changes of the bytes of a knowledge after which they have a fault.
fn knowledge_byte_changes() -> Vec<(&'static str, OnBytes)> {
    vec![
        ("a knowledge cut by one byte", |bytes| bytes.truncate(bytes.len().saturating_sub(1))),
        ("a knowledge with one byte more", |bytes| bytes.push(0)),
        ("a knowledge with another fixed field", |bytes| bytes.iter_mut().take(4).for_each(|byte| *byte = 6)),
        ("no knowledge", |bytes| bytes.clear()),
    ]
}

/// Changes of the bytes of a store or batch.
fn byte_changes() -> Vec<(&'static str, OnBytes)> {
    vec![
        ("kind 0", |bytes| bytes[0] = 0),
        ("kind 1", |bytes| bytes[0] = 1),
        ("the other kind", |bytes| bytes[0] = 7 - bytes[0]),
        ("cut by one byte", |bytes| bytes.truncate(bytes.len().saturating_sub(1))),
        ("cut by a record", |bytes| bytes.truncate(bytes.len() - Record::LENGTH)),
        ("one byte more", |bytes| bytes.push(0)),
        ("a record more than counted", |bytes| bytes.extend_from_within(bytes.len() - Record::LENGTH..)),
    ]
}

#[cfg(test)]
mod tests {
    use super::*;

    #[test]
    fn they_are_broken() {
        assert!(sound_store().is_valid() && sound_batch().is_valid());
        for (name, bytes) in broken_stores() {
            assert_eq!(Store::opened(&bytes), None, "{name}");
        }
        for (name, bytes) in broken_batches() {
            assert_eq!(Batch::opened(&bytes), None, "{name}");
        }
        let pairs = stores_broken_twice();
        let valid = pairs.iter().filter(|(_, bytes)| Store::opened(bytes).is_some()).count();
        assert!(pairs.len() > 2000 && valid < 20, "{} {valid}", pairs.len());
        let pairs = batches_broken_twice();
        let valid = pairs.iter().filter(|(_, bytes)| Batch::opened(bytes).is_some()).count();
        assert!(pairs.len() > 4000 && valid < 20, "{} {valid}", pairs.len());
    }
}
