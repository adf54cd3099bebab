//! Engines that change, make or apply in a wrong way, over values. The comparison, and the lists of calls, must notice them.

use std::cell::RefCell;

use inputs::{Batch, FIRST_ITEM, ItemId, Knowledge, LAST_ITEM, Record, Store, TOMBSTONE, Version};

use crate::calls;
use crate::changing::Engine;
use crate::lenient;
use crate::reading::{self, Found};
use crate::stand_in::Reference;

/// An edit with a tag, or a deletion.
pub type Change = fn(&Store, &ItemId, Option<[u8; 16]>) -> Result<Store, u32>;
pub type Make = fn(&Store, &Knowledge, &ItemId, &ItemId) -> Result<Batch, u32>;
pub type Apply = fn(&Store, &Batch) -> Result<Store, u32>;
/// The third number of a coverage, from all three.
pub type Figure = fn([u64; 3]) -> u64;
/// Whether the first of two knowledges covers the second, from both and the right answer.
pub type Cover = fn([&Knowledge; 2], bool) -> bool;

/// The number that is given instead of the right one, by call, arguments and length of the buffer.
pub type Number = fn(&str, &[&[u8]], usize, u32) -> u32;

/// An engine that is right where no other way is given.
#[derive(Default)]
pub struct Wrong {
    /// A rule of stores that it does not look at, and one of batches.
    pub store_rule: Option<&'static str>,
    pub batch_rule: Option<&'static str>,
    pub change: Option<Change>,
    pub make: Option<Make>,
    pub apply: Option<Apply>,
    pub figure: Option<Figure>,
    pub cover: Option<Cover>,
    pub number: Option<Number>,
    /// A refusal on which it writes a byte, and one on which it sets the length.
    pub byte_on: Option<u32>,
    pub length_on: Option<u32>,
    pub clears_the_rest: bool,
    /// So many bytes less than the result are enough for it.
    pub needs_less: usize,
}

type Written = Result<Vec<u8>, u32>;

impl Wrong {
    fn store(&self, bytes: &[u8]) -> Result<Store, u32> {
        let store = lenient::store(bytes).filter(|(_, rules)| lenient::hold(rules, self.store_rule));
        store.map(|(store, _)| store).ok_or(15)
    }

    fn batch(&self, bytes: &[u8]) -> Result<Batch, u32> {
        let batch = lenient::batch(bytes).filter(|(_, rules)| lenient::hold(rules, self.batch_rule));
        batch.map(|(batch, _)| batch).ok_or(16)
    }

    /// The result of the right way, unless a rule is left out and it is refused, or another way is given and it is not.
    fn result(&self, right: Written, has_way: bool, other: impl FnOnce() -> Written) -> Written {
        let opens = self.store_rule.is_some() || self.batch_rule.is_some();
        match right {
            Err(15 | 16) if opens => other(),
            Err(number @ (15..=17 | 1..=10)) => Err(number),
            _ if has_way => other(),
            right => right,
        }
    }

    fn give(&self, call: &str, arguments: &[&[u8]], result: Written, out: &mut [u8], written: &mut u64) -> u32 {
        let number = match &result {
            Ok(bytes) if bytes.len() > out.len() + self.needs_less => 14,
            Ok(_) => 0,
            Err(number) => *number,
        };
        let number = self.number.map_or(number, |change| change(call, arguments, out.len(), number));
        if number == 0 {
            let bytes = result.unwrap_or_default();
            let length = bytes.len().min(out.len());
            out[..length].copy_from_slice(&bytes[..length]);
            *written = bytes.len() as u64;
            if self.clears_the_rest {
                out[length..].fill(0);
            }
        }
        if self.byte_on == Some(number)
            && let Some(byte) = out.last_mut()
        {
            *byte = byte.wrapping_add(1);
        }
        if self.length_on == Some(number) {
            *written = 0;
        }
        number
    }
}

/// What a right call writes.
fn right(call: impl FnOnce(&mut [u8], &mut u64) -> u32) -> Written {
    thread_local! {
        static OUT: RefCell<Vec<u8>> = RefCell::new(vec![0; Batch::LONGEST]);
    }
    OUT.with_borrow_mut(|out| {
        let mut written = 0;
        match call(out, &mut written) {
            0 => Ok(out[..written as usize].to_vec()),
            number => Err(number),
        }
    })
}

fn id<const N: usize>(bytes: &[u8]) -> Result<[u8; N], u32> {
    bytes.try_into().map_err(|_| 17)
}

impl Engine for Wrong {
    fn new_store(&self, own: &[u8], out: &mut [u8], written: &mut u64) -> u32 {
        let result = right(|out, written| Reference.new_store(own, out, written));
        self.give("new", &[own], result, out, written)
    }

    fn edit(&self, store: &[u8], item: &[u8], tag: &[u8], out: &mut [u8], written: &mut u64) -> u32 {
        let result = right(|out, written| Reference.edit(store, item, tag, out, written));
        let result = self.result(result, self.change.is_some(), || {
            let (store, item, tag) = (self.store(store)?, id(item)?, id(tag)?);
            self.change.unwrap_or(changed)(&store, &item, Some(tag)).map(|store| store.bytes())
        });
        self.give("edit", &[store, item, tag], result, out, written)
    }

    fn delete(&self, store: &[u8], item: &[u8], out: &mut [u8], written: &mut u64) -> u32 {
        let result = right(|out, written| Reference.delete(store, item, out, written));
        let result = self.result(result, self.change.is_some(), || {
            let (store, item) = (self.store(store)?, id(item)?);
            self.change.unwrap_or(changed)(&store, &item, None).map(|store| store.bytes())
        });
        self.give("delete", &[store, item], result, out, written)
    }

    fn make(&self, store: &[u8], knowledge: &[u8], span: [&[u8]; 2], out: &mut [u8], written: &mut u64) -> u32 {
        let [first, last] = span;
        let result = right(|out, written| Reference.make(store, knowledge, span, out, written));
        let result = self.result(result, self.make.is_some(), || {
            let store = self.store(store)?;
            reference::check(knowledge)?;
            let (first, last) = (id(first)?, id(last)?);
            let make = self.make.unwrap_or(|store, knowledge, first, last| store.made(knowledge, first, last));
            make(&store, &Knowledge::decoded(knowledge), &first, &last).map(|batch| batch.bytes())
        });
        self.give("make", &[store, knowledge, first, last], result, out, written)
    }

    fn apply(&self, store: &[u8], batch: &[u8], out: &mut [u8], written: &mut u64) -> u32 {
        let result = right(|out, written| Reference.apply(store, batch, out, written));
        let result = self.result(result, self.apply.is_some(), || {
            let (store, batch) = (self.store(store)?, self.batch(batch)?);
            self.apply.unwrap_or(Store::applied)(&store, &batch).map(|store| store.bytes())
        });
        self.give("apply", &[store, batch], result, out, written)
    }
}

impl calls::Engine for Wrong {
    fn contain(&self, knowledge: &[u8], item: &[u8], replica: &[u8], tick: u64, value: &mut u32) -> u32 {
        Reference.contain(knowledge, item, replica, tick, value)
    }

    fn lead(&self, knowledges: [&[u8]; 2], item: &[u8], replica: &[u8], value: &mut i64) -> u32 {
        Reference.lead(knowledges, item, replica, value)
    }

    fn cover(&self, knowledges: [&[u8]; 2], span: [&[u8]; 2], value: &mut u32) -> u32 {
        let number = Reference.cover(knowledges, span, value);
        if let (0, Some(cover)) = (number, self.cover) {
            let [first, second] = knowledges.map(Knowledge::decoded);
            *value = cover([&first, &second], *value == 1).into();
        }
        number
    }
}

impl reading::Engine for Wrong {
    fn winner(&self, store: &[u8], batch: &[u8], item: &[u8], value: &mut Found) -> u32 {
        Reference.winner(store, batch, item, value)
    }

    fn learned(&self, batch: &[u8], value: &mut [u64; 2]) -> u32 {
        Reference.learned(batch, value)
    }

    fn coverage(&self, store: &[u8], knowledge: &[u8], value: &mut [u64; 3]) -> u32 {
        let number = Reference.coverage(store, knowledge, value);
        if let (0, Some(figure)) = (number, self.figure) {
            value[2] = figure(*value);
        }
        number
    }

    fn knowledge(&self, store: &[u8], value: &mut [u64; 2]) -> u32 {
        Reference.knowledge(store, value)
    }

    fn walk(&self, table: &[u8], at: u64, length: &mut u64) -> u32 {
        Reference.walk(table, at, length)
    }
}

/// Figures that one record moves too far, or never far enough.
pub const FIGURES: [(&str, Figure); 5] = [
    ("twice the part", |[_, _, figure]| 2 * figure),
    ("in whole per cents", |[_, _, figure]| (figure + 5) / 10 * 10),
    (
        "nothing said of one record of 16",
        |[contained, all, figure]| if (contained, all) == (1, 16) { 0 } else { figure },
    ),
    ("always a half", |_| 500),
    ("rounded down", |[contained, all, _]| (1000 * contained).checked_div(all).unwrap_or(1000)),
];

/// A right change.
pub fn changed(store: &Store, item: &ItemId, tag: Option<[u8; 16]>) -> Result<Store, u32> {
    tag.map_or_else(|| store.deleted(item), |tag| store.edited(item, &tag))
}

/// A right change after which the record of the item is another.
fn with_record(
    store: &Store,
    item: &ItemId,
    tag: Option<[u8; 16]>,
    another: impl Fn(&mut Record, Option<&Record>),
) -> Result<Store, u32> {
    let mut after = changed(store, item, tag)?;
    let record = after.records.iter_mut().find(|record| record.item == *item).expect("it was changed");
    another(record, store.record(item));
    Ok(after)
}

/// A change at another tick than 1 + the largest.
fn at(store: &Store, item: &ItemId, tag: Option<[u8; 16]>, tick: u64) -> Result<Store, u32> {
    let mut after = changed(store, item, tag)?;
    let change: Version = (store.own, tick);
    let replicas = after.knowledge.replica_set();
    after.knowledge = Knowledge::with_ticks(after.knowledge.bounds(), replicas, |item, replica| {
        if *replica == store.own { tick } else { after.knowledge.known(item, replica) }
    });
    let record = after.records.iter_mut().find(|record| record.item == *item).expect("it was changed");
    if record.create == record.change {
        record.create = change;
    }
    record.change = change;
    record.create.1 = record.create.1.min(tick);
    Ok(after)
}

pub const CHANGES: [(&str, Change); 11] = [
    ("numbered by the own tick only", |store, item, tag| {
        at(store, item, tag, 1 + store.knowledge.known(&FIRST_ITEM, &store.own))
    }),
    ("numbered by the ticks of the item's range only", |store, item, tag| {
        let ticks = store.knowledge.replicas.iter().map(|replica| store.knowledge.known(item, replica));
        at(store, item, tag, 1 + ticks.max().unwrap_or(0))
    }),
    ("numbered by the largest tick", |store, item, tag| at(store, item, tag, store.knowledge.largest_tick().max(1))),
    ("created anew", |store, item, tag| with_record(store, item, tag, |record, _| record.create = record.change)),
    ("a tombstone created anew", |store, item, tag| {
        with_record(store, item, tag, |record, before| {
            if before.is_some_and(|before| before.kind == TOMBSTONE) {
                record.create = record.change;
            }
        })
    }),
    ("created where it was changed last", |store, item, tag| {
        with_record(store, item, tag, |record, before| record.create = before.map_or(record.change, |old| old.change))
    }),
    ("a tombstone stays one", |store, item, tag| {
        with_record(store, item, tag, |record, before| {
            if before.is_some_and(|before| before.kind == TOMBSTONE) {
                (record.kind, record.tag) = (TOMBSTONE, [0; 16]);
            }
        })
    }),
    ("the tag stays", |store, item, tag| {
        with_record(store, item, tag, |record, before| {
            if tag.is_some() {
                record.tag = before.map_or(record.tag, |before| before.tag);
            }
        })
    }),
    ("a deletion drops the record", |store, item, tag| {
        let mut after = changed(store, item, tag)?;
        if tag.is_none() {
            after.records.retain(|record| record.item != *item);
        }
        Ok(after)
    }),
    ("a tombstone deleted again", |store, item, tag| match (tag, store.record(item)) {
        (None, Some(record)) if record.kind == TOMBSTONE => Ok(store.clone()),
        _ => changed(store, item, tag),
    }),
    ("known in the item's range only", |store, item, tag| {
        let mut after = changed(store, item, tag)?;
        let knowledge = &store.knowledge;
        let bound = knowledge.ranges.iter().map(|(bound, _)| *bound).rfind(|bound| bound <= item);
        let replicas = after.knowledge.replica_set();
        after.knowledge = Knowledge::with_ticks(knowledge.bounds(), replicas, |place, replica| {
            let own = *replica == store.own && Some(*place) == bound;
            if own { after.knowledge.known(place, replica) } else { knowledge.known(place, replica) }
        });
        Ok(after)
    }),
];

/// A right batch with other records: those of the store for which the test holds.
fn with_records(
    store: &Store,
    knowledge: &Knowledge,
    [first, last]: [&ItemId; 2],
    test: impl Fn(&Record, bool) -> bool,
) -> Result<Batch, u32> {
    let mut batch = store.made(knowledge, first, last)?;
    let lacks = |record: &Record| !knowledge.contains(&record.item, &record.change.0, record.change.1);
    batch.records = store.records.iter().filter(|record| test(record, lacks(record))).cloned().collect();
    Ok(batch)
}

pub const MAKES: [(&str, Make); 9] = [
    ("needed as it is given", |store, knowledge, first, last| {
        Ok(Batch { needed: knowledge.clone(), ..store.made(knowledge, first, last)? })
    }),
    ("needed projected", |store, knowledge, first, last| {
        let batch = store.made(knowledge, first, last)?;
        Ok(Batch { needed: knowledge.projected(first, last).within()?, ..batch })
    }),
    ("nothing needed", |store, knowledge, first, last| {
        Ok(Batch { needed: Knowledge::smallest(), ..store.made(knowledge, first, last)? })
    }),
    ("learned outside the span", |store, knowledge, first, last| {
        Ok(Batch { learned: store.knowledge.clone(), ..store.made(knowledge, first, last)? })
    }),
    ("learned merged with the given knowledge", |store, knowledge, first, last| {
        let batch = store.made(knowledge, first, last)?;
        Ok(Batch { learned: store.knowledge.merged(knowledge).projected(first, last).within()?, ..batch })
    }),
    ("all records in the span", |store, knowledge, first, last| {
        with_records(store, knowledge, [first, last], |record, _| *first <= record.item && record.item <= *last)
    }),
    ("records outside the span", |store, knowledge, first, last| {
        with_records(store, knowledge, [first, last], |_, lacks| lacks)
    }),
    ("no tombstones", |store, knowledge, first, last| {
        with_records(store, knowledge, [first, last], |record, lacks| {
            lacks && record.kind != TOMBSTONE && *first <= record.item && record.item <= *last
        })
    }),
    ("without the record of the last id", |store, knowledge, first, last| {
        with_records(store, knowledge, [first, last], |record, lacks| {
            lacks && *first <= record.item && record.item < *last
        })
    }),
];

/// A right apply after which the store is another, made from before, batch and after.
fn after(store: &Store, batch: &Batch, another: impl Fn(&mut Store)) -> Result<Store, u32> {
    let mut after = store.applied(batch)?;
    another(&mut after);
    Ok(after)
}

/// Applies a batch as if another were given.
fn as_if(store: &Store, batch: &Batch, other: impl Fn(&mut Batch)) -> Result<Store, u32> {
    let mut changed = batch.clone();
    other(&mut changed);
    store.applied(&changed)
}

/// The records of an apply, where a record of the batch comes in if the test holds on it and the store's.
fn joined(store: &Store, batch: &Batch, test: impl Fn(&Record, &Record) -> bool) -> Result<Store, u32> {
    after(store, batch, |after| {
        for record in &mut after.records {
            if let (Some(held), Some(brought)) = (store.record(&record.item), batch.record(&record.item)) {
                *record = if test(brought, held) { brought.clone() } else { held.clone() };
            }
        }
    })
}

pub const APPLIES: [(&str, Apply); 17] = [
    ("needed not looked at", |store, batch| as_if(store, batch, |batch| batch.needed = Knowledge::smallest())),
    ("needed looked at outside the span too", |store, batch| {
        match store.knowledge.covers(&batch.needed, &FIRST_ITEM, &LAST_ITEM) {
            true => store.applied(batch),
            false => Err(18),
        }
    }),
    ("needed looked at for the first id only", |store, batch| {
        as_if(store, batch, |batch| batch.needed = batch.needed.projected(&batch.first, &batch.first))
    }),
    ("a later own tick taken", |store, batch| {
        let stranger = Store { own: [0xfe; 16], ..store.clone() };
        stranger.applied(batch).map(|after| Store { own: store.own, ..after })
    }),
    ("every batch refused", |_, _| Err(18)),
    ("the store kept", |store, batch| store.applied(batch).map(|_| store.clone())),
    ("learned and records dropped", |store, batch| {
        after(store, batch, |after| after.records.clone_from(&store.records))
    }),
    ("records taken and nothing learned", |store, batch| {
        after(store, batch, |after| after.knowledge.clone_from(&store.knowledge))
    }),
    ("learned everywhere", |store, batch| {
        as_if(store, batch, |batch| {
            let ticks = batch.learned.clone();
            let known =
                |replica: &[u8; 16]| batch.learned.ranges.iter().map(|(item, _)| ticks.known(item, replica)).max();
            let replicas = ticks.replica_set();
            batch.learned = Knowledge::with_ticks([FIRST_ITEM].into(), replicas, |_, id| known(id).unwrap_or(0));
        })
    }),
    ("the store's record stays", |store, batch| joined(store, batch, |_, _| false)),
    ("the batch's record wins", |store, batch| joined(store, batch, |_, _| true)),
    ("the batch's record wins ties", |store, batch| {
        joined(store, batch, |brought, held| brought.rank() >= held.rank())
    }),
    ("the tick alone decides", |store, batch| joined(store, batch, |brought, held| brought.change.1 > held.change.1)),
    ("the replica decides first", |store, batch| joined(store, batch, |brought, held| brought.change > held.change)),
    ("live records win over tombstones", |store, batch| {
        joined(store, batch, |brought, held| (held.kind, brought.rank()) > (brought.kind, held.rank()))
    }),
    ("the earlier create version stays", |store, batch| {
        after(store, batch, |after| {
            for record in &mut after.records {
                let versions = [store.record(&record.item), batch.record(&record.item)].into_iter().flatten();
                record.create =
                    versions.map(|record| record.create).min_by_key(|(id, tick)| (*tick, *id)).expect("one");
            }
        })
    }),
    ("no new items", |store, batch| {
        after(store, batch, |after| after.records.retain(|record| store.record(&record.item).is_some()))
    }),
];
