//! Calls that read stores, batches and tables of records, with their arguments.

use crate::batches;
use crate::breaches::{self, sound_batch, sound_store};
use crate::calls::faulty;
use crate::edits::{boundary_values, disturb, set_a_field};
use crate::families;
use crate::knowledge::{Knowledge, Written, item_id, replica_id};
use crate::meaning::{ItemId, item_before, next_item};
use crate::pairs;
use crate::record::{LIVE, Record};
use crate::replication::ALL;
use crate::splitmix::SplitMix64;
use crate::store::{Batch, Store};
use crate::stores::{self, item_near};

/// A call with its arguments as bytes, with or without fault.
#[derive(Clone, Copy, Debug, Hash)]
pub enum Reading<'a> {
    Winner { store: &'a [u8], batch: &'a [u8], item: &'a [u8] },
    Learned { batch: &'a [u8] },
    Coverage { store: &'a [u8], knowledge: &'a [u8] },
    Knowledge { store: &'a [u8] },
    Walk { table: &'a [u8], at: u64 },
}

/// Takes a call with the name of its family. An error ends the run.
pub type Visit<'a> = dyn FnMut(&'static str, Reading<'_>) -> Result<(), String> + 'a;

/// The calls that are the same in every run.
pub fn fixed(visit: &mut Visit) -> Result<(), String> {
    ties(&mut |store: &[u8], batch: &[u8], item: &ItemId| visit("ties", Reading::Winner { store, batch, item }))?;
    walks(visit)?;
    lengths(visit)?;
    faults(visit)?;
    broken(visit)?;
    damaged(visit)?;
    sizes(visit)?;
    every_shape(visit)
}

/// A store and a batch in each call that takes one, for an item.
fn each_call(family: &'static str, store: &[u8], batch: &[u8], item: &[u8], visit: &mut Visit) -> Result<(), String> {
    let knowledge = &Knowledge::b().bytes();
    visit(family, Reading::Winner { store, batch, item })?;
    visit(family, Reading::Learned { batch })?;
    visit(family, Reading::Knowledge { store })?;
    visit(family, Reading::Coverage { store, knowledge })
}

/// Every count of replicas, ranges and records, and one too many.
fn sizes(visit: &mut Visit) -> Result<(), String> {
    let replicas = (0..=17).map(|r| (r, 3, 5 * r.min(1)));
    let ranges = (1..=65).map(|g| (2, g, 5));
    let records = (0..=257).map(|n| (2, 3, n));
    for (r, g, n) in replicas.chain(ranges).chain(records).chain([(16, 64, 256)]) {
        let store = Store::filled(r, g, n);
        let [first, last] = ALL;
        let needed = Knowledge::smallest();
        let batch = Batch { first, last, needed, learned: store.knowledge.clone(), records: store.records.clone() };
        let item = item_id(n as u128);
        each_call("sizes", &store.bytes(), &batch.bytes(), &item, visit)?;
    }
    Ok(())
}

/// Some of the items of a store and a batch, items next to them, and the ends.
pub fn some_items(store: &Store, batch: &Batch) -> Vec<ItemId> {
    let mut items = ALL.to_vec();
    for records in [&store.records, &batch.records] {
        for record in records.iter().step_by(records.len().div_ceil(7).max(1)).chain(records.last()) {
            items.push(record.item);
            items.extend(next_item(&record.item));
            items.extend(item_before(&record.item));
        }
    }
    items.sort();
    items.dedup();
    items
}

/// Stores and batches of many shapes.
fn every_shape(visit: &mut Visit) -> Result<(), String> {
    const FAMILY: &str = "shapes";
    let random = &mut SplitMix64::new(21);
    for (store, batch) in batches::shapes() {
        let (bytes, batch_bytes) = (&store.bytes(), &batch.bytes());
        for item in some_items(&store, &batch) {
            visit(FAMILY, Reading::Winner { store: bytes, batch: batch_bytes, item: &item })?;
        }
        visit(FAMILY, Reading::Learned { batch: batch_bytes })?;
        visit(FAMILY, Reading::Knowledge { store: bytes })?;
        let mut lowered = pairs::relaid(random, &store.knowledge);
        pairs::lower(random, &mut lowered);
        for knowledge in
            [&store.knowledge, &batch.needed, &batch.learned, &lowered, &Knowledge::a(), &Knowledge::late_start()]
        {
            visit(FAMILY, Reading::Coverage { store: bytes, knowledge: &knowledge.bytes() })?;
            let knowledge = &pairs::relaid(random, knowledge).bytes();
            visit(FAMILY, Reading::Coverage { store: bytes, knowledge })?;
        }
    }
    for store in stores::shapes() {
        for place in 0..store.records.len() {
            // A knowledge that contains the change versions of so many records.
            let mut knowledge = store.knowledge.clone();
            let bound = store.records[place].item;
            knowledge.ranges.retain(|(other, _)| *other < bound);
            knowledge.ranges.push((bound, 0));
            visit(FAMILY, Reading::Coverage { store: &store.bytes(), knowledge: &knowledge.bytes() })?;
        }
    }
    Ok(())
}

/// Takes a store, a batch and an item that both have.
type VisitTie<'a> = dyn FnMut(&[u8], &[u8], &ItemId) -> Result<(), String> + 'a;

/// Hands out stores and batches with a record of one item on both sides, with ticks and replicas in every order.
pub fn ties(visit: &mut VisitTie) -> Result<(), String> {
    const TICKS: [u64; 5] = [1, 2, 256, 1 << 32, i64::MAX as u64];
    let mut first_byte = [[7; 16]; 2];
    first_byte[1][0] = 8;
    let mut last_byte = [[7; 16]; 2];
    last_byte[1][15] = 8;
    let item = [5; 24];
    for ids in [first_byte, last_byte] {
        let knowledge = Knowledge {
            replicas: ids.to_vec(),
            vectors: vec![Vec::new(), vec![(0, i64::MAX as u64), (1, i64::MAX as u64)]],
            ranges: vec![(ALL[0], 1)],
        };
        let versions = || ids.iter().flat_map(|id| TICKS.map(|tick| (*id, tick)));
        for change in versions() {
            let record = |tag| Record { kind: LIVE, item, change, create: (ids[0], 1), tag: [tag; 16] };
            let store = Store { own: replica_id(1), knowledge: knowledge.clone(), records: vec![record(1)] };
            for other in versions() {
                let records = vec![Record { change: other, ..record(2) }];
                let batch = Batch { records, ..Batch::whole(&store) };
                visit(&store.bytes(), &batch.bytes(), &item)?;
            }
        }
    }
    Ok(())
}

/// Ids of every length from 0 to 40.
fn lengths(visit: &mut Visit) -> Result<(), String> {
    let (store, batch) = (&sound_store().bytes(), &sound_batch().bytes());
    for byte in [0, 5] {
        // Behind the id lie further bytes of the same sort.
        let mut item = [0; 40];
        item[23] = byte;
        for n in 0..=40 {
            visit("ids of every length", Reading::Winner { store, batch, item: &item[..n] })?;
        }
    }
    Ok(())
}

/// Each fault of an argument together with each fault of every other.
fn faults(visit: &mut Visit) -> Result<(), String> {
    const FAMILY: &str = "faults";
    let (store, batch) = (&sound_store().bytes()[..], &sound_batch().bytes()[..]);
    let mut knowledges = vec![Knowledge::b().bytes(), Knowledge::late_start().bytes()];
    for knowledge in [Knowledge::filled(1, 2, 1), Knowledge::filled(2, 3, 3), Knowledge::largest()] {
        knowledges.extend(faulty(&knowledge));
    }
    let id = [0; 25];
    for store in [store, &store[..store.len() - 1], &store[1..], batch, &[]] {
        for knowledge in &knowledges {
            visit(FAMILY, Reading::Coverage { store, knowledge })?;
        }
        for batch in [batch, &batch[..batch.len() - 1], &batch[1..], store, &[]] {
            for item in [&id[..24], &id[..23], &id, &[]] {
                visit(FAMILY, Reading::Winner { store, batch, item })?;
            }
        }
        visit(FAMILY, Reading::Knowledge { store })?;
        visit(FAMILY, Reading::Learned { batch: store })?;
    }
    visit(FAMILY, Reading::Knowledge { store: batch })
}

/// Each rule of validity broken alone, and each two.
fn broken(visit: &mut Visit) -> Result<(), String> {
    const FAMILY: &str = "rules broken";
    let (store, batch) = (&sound_store().bytes()[..], &sound_batch().bytes()[..]);
    let item = item_id(5);
    for (_, store) in &breaches::broken_stores() {
        each_call(FAMILY, store, batch, &item, visit)?;
        for (_, batch) in breaches::broken_batches().iter().step_by(9) {
            visit(FAMILY, Reading::Winner { store, batch, item: &item[1..] })?;
        }
    }
    for (_, batch) in &breaches::broken_batches() {
        each_call(FAMILY, store, batch, &item, visit)?;
        visit(FAMILY, Reading::Winner { store, batch, item: &item[1..] })?;
    }
    for (_, store) in &breaches::stores_broken_twice() {
        visit("two rules broken", Reading::Knowledge { store })?;
    }
    for (_, batch) in &breaches::batches_broken_twice() {
        visit("two rules broken", Reading::Learned { batch })?;
    }
    Ok(())
}

/// Every byte changed, every length cut, every field set to its boundary values.
fn damaged(visit: &mut Visit) -> Result<(), String> {
    let (store, batch) = (sound_store(), sound_batch());
    let item = item_id(5);
    let mut as_store = |family, bytes: &[u8]| visit(family, Reading::Knowledge { store: bytes });
    each_damage(&store.write(), &mut as_store)?;
    each_damage(&Store::filled(1, 1, 1).write(), &mut as_store)?;
    let mut as_batch = |family, bytes: &[u8]| visit(family, Reading::Learned { batch: bytes });
    each_damage(&batch.write(), &mut as_batch)?;
    each_damage(&Batch::whole(&Store::filled(1, 1, 1)).write(), &mut as_batch)?;
    let (store, batch) = (&store.bytes(), &batch.bytes());
    for n in 0..store.len() {
        visit("prefixes", Reading::Winner { store: &store[..n], batch, item: &item })?;
        visit("prefixes", Reading::Coverage { store: &store[..n], knowledge: &Knowledge::a().bytes() })?;
    }
    for n in 0..batch.len() {
        visit("prefixes", Reading::Winner { store, batch: &batch[..n], item: &item })?;
    }
    Ok(())
}

/// Hands out written bytes with each damage in turn.
pub fn each_damage(written: &Written, visit: &mut families::Visit) -> Result<(), String> {
    let mut bytes = written.bytes.clone();
    for n in 0..=bytes.len() {
        visit("prefixes", &bytes[..n])?;
    }
    for place in 0..bytes.len() {
        let old = bytes[place];
        for new in [old ^ 1, old ^ 128, old.wrapping_add(1), old.wrapping_sub(1), 0, 255] {
            bytes[place] = new;
            visit("bytes", &bytes)?;
        }
        bytes[place] = old;
    }
    for (at, field) in written.fields.iter().enumerate() {
        let place = field.start..field.start + field.size;
        for value in boundary_values(written, at) {
            bytes[place.clone()].copy_from_slice(&value);
            visit("fields", &bytes)?;
        }
        bytes[place].copy_from_slice(written.value(*field));
    }
    Ok(())
}

/// Tables with records of known and other kinds, whole and cut, at every place and beyond.
fn walks(visit: &mut Visit) -> Result<(), String> {
    const FAMILY: &str = "walks";
    let table = |kinds: &[u8]| {
        let mut out = Written::default();
        for (record, kind) in Store::filled(2, 3, kinds.len()).records.iter().zip(kinds) {
            Record { kind: *kind, ..record.clone() }.write(&mut out);
        }
        out.bytes
    };
    const BEYOND: [u64; 7] = [1 << 20, 1 << 32, (1 << 32) + 1, 1 << 63, u64::MAX - 89, u64::MAX - 88, u64::MAX];
    let store = sound_store().bytes();
    let tables =
        [table(&[]), table(&[1]), table(&[2, 1]), table(&[1, 3, 2]), table(&[0, 1, 255, 2]), store, vec![1; 200]];
    for table in &tables {
        for at in (0..table.len() as u64 + 100).chain(BEYOND) {
            visit(FAMILY, Reading::Walk { table, at })?;
        }
    }
    for kind in 0..=255 {
        visit(FAMILY, Reading::Walk { table: &table(&[kind]), at: 0 })?;
        visit(FAMILY, Reading::Walk { table: &table(&[1, kind]), at: Record::LENGTH as u64 })?;
    }
    let whole = table(&[2, 1, 2]);
    for n in 0..=whole.len() {
        for at in [0, 88, 89, 90, 178, n as u64] {
            visit(FAMILY, Reading::Walk { table: &whole[..n], at })?;
        }
    }
    Ok(())
}

/// `count` random calls, on a store and a batch that are related, intact or not.
pub fn random(seed: u64, count: usize, visit: &mut Visit) -> Result<(), String> {
    const CALLS_OF_A_PAIR: usize = 20;
    let faults = faulty(&Knowledge::filled(2, 3, 3));
    let random = &mut SplitMix64::new(seed);
    let (mut store, mut batch) = (Store::new([1; 16]), Batch::whole(&Store::new([1; 16])));
    let (mut whole_store, mut whole_batch) = (store.write(), batch.write());
    for k in 0..count {
        if k % CALLS_OF_A_PAIR == 0 {
            store = Store::random(random);
            batch = Batch::random(random, &store);
            (whole_store, whole_batch) = (store.write(), batch.write());
        }
        let (mut store_bytes, mut batch_bytes) = (whole_store.bytes.clone(), whole_batch.bytes.clone());
        let mut item = item(random, &store, &batch).to_vec();
        let family = match random.below(8) {
            0 | 1 => {
                damage(random, &whole_store, &mut store_bytes);
                "random, the store damaged"
            }
            2 | 3 => {
                damage(random, &whole_batch, &mut batch_bytes);
                "random, the batch damaged"
            }
            4 if random.once_in(3) => {
                damage(random, &whole_store, &mut store_bytes);
                damage(random, &whole_batch, &mut batch_bytes);
                item.resize(random.between(22, 26), 0);
                "random, all damaged"
            }
            _ => "random, intact",
        };
        let (store_bytes, batch_bytes) = (&store_bytes[..], &batch_bytes[..]);
        let call = match k % 7 {
            0 | 1 => Reading::Winner { store: store_bytes, batch: batch_bytes, item: &item },
            2 => Reading::Learned { batch: batch_bytes },
            3 => Reading::Knowledge { store: store_bytes },
            4 => Reading::Walk { table: store_bytes, at: random.below(store_bytes.len() + 9) as u64 },
            _ => {
                let mut knowledge = match random.below(4) {
                    0 => Knowledge::random(random),
                    1 => batch.learned.clone(),
                    2 => batch.needed.clone(),
                    _ => pairs::relaid(random, &store.knowledge),
                };
                if random.once_in(2) {
                    pairs::lower(random, &mut knowledge);
                }
                let mut bytes = knowledge.bytes();
                match random.below(16) {
                    0 => disturb(random, &mut bytes),
                    1 => bytes.clone_from(random.choose(&faults)),
                    _ => {}
                }
                visit(family, Reading::Coverage { store: store_bytes, knowledge: &bytes })?;
                continue;
            }
        };
        visit(family, call)?;
    }
    Ok(())
}

/// Damages bytes that were written, at a field or anywhere.
pub fn damage(random: &mut SplitMix64, written: &Written, bytes: &mut Vec<u8>) {
    if random.once_in(2) {
        set_a_field(random, written, bytes);
    } else {
        disturb(random, bytes);
    }
}

/// An item of the store or the batch, often of both, or another one.
pub fn item(random: &mut SplitMix64, store: &Store, batch: &Batch) -> ItemId {
    let records = if random.once_in(3) { &store.records } else { &batch.records };
    match records.len() {
        0 => item_near(random, &store.knowledge),
        _ if random.once_in(8) => item_near(random, &batch.learned),
        n => {
            let mut item = records[random.below(n)].item;
            if random.once_in(8) {
                item[random.below(24)] ^= 1 << random.below(8);
            }
            item
        }
    }
}
