//! New, edit and delete: the calls that write a store after a change of its own.

use crate::ids;
use crate::normal::Normal;
use crate::operations::{TABLE, ticks};
use crate::record::{self, Bytes, LIVE, NO_TAG, RECORDS, Record, TOMBSTONE, Version};
use crate::refusal::{ABSENT, BUFFER, LAST_TICK, RESULT_RECORDS, RESULT_REPLICAS};
use crate::store::{HEADER, KIND, Store};
use crate::table::{Plan, Table};
use crate::view::{ItemId, REPLICAS, ReplicaId, Starts};
use crate::writer::Writer;

/// The empty knowledge: no replicas, the empty vector, one range.
#[rustfmt::skip]
const EMPTY: [u8; 113] = [
    0, 0, 0, 5, 0, 0, 0, 0, 0, 0, 0, 1, 0, 0, 0, 0,
    0, 0, 0, 5, 0, 0, 16, 0, 0, 0, 0,
    0, 0, 0, 24, 0, 0, 16, 0, 0, 24, 0, 0, 1,
    0, 0, 0, 21, 0, 0, 0, 1, 0, 0, 0, 1, 0, 0, 0, 0,
    0, 0, 0, 23, 0, 0, 0, 1, 0, 0, 0, 22, 0, 0, 0, 1,
    0, 0, 0, 0, 0, 0, 0, 0, 0, 0, 0, 0, 0, 0, 0, 0, 0, 0, 0, 0, 0, 0, 0, 0, 0, 0, 0, 0,
    0, 0, 0, 0, 0, 0, 0, 25, 1, 0, 0, 0, 0,
];

/// Writes the store of a replica that has seen nothing and gives its length.
pub fn new(own: &[u8], out: &mut [u8]) -> Result<usize, u32> {
    let own = ids::replica(own)?;
    let length = HEADER + EMPTY.len();
    let out = out.get_mut(..length).ok_or(BUFFER)?;
    let out = &mut header(out, own, EMPTY.len(), 0);
    out.put(EMPTY);
    Ok(length)
}

/// Writes the front of a store, up to its knowledge.
#[inline]
pub fn header<'a>(out: &'a mut [u8], own: &ReplicaId, knowledge: usize, records: usize) -> Writer<'a> {
    let mut out = Writer::new(out);
    out.put([KIND]);
    out.put(*own);
    out.u32(knowledge as u32);
    out.u32(records as u32);
    out
}

/// Writes the store with an item's content changed by its own replica and gives the length.
pub fn edit(store: &[u8], item: &[u8], tag: &[u8], out: &mut [u8]) -> Result<usize, u32> {
    let mut starts = Starts::new();
    let store = Store::read(store, &mut starts)?;
    let (item, tag) = (ids::item(item)?, ids::tag(tag)?);
    let place = record::find(store.records, item);
    changed(&store, item, place, (LIVE, tag), out)
}

/// Writes the store with an item deleted by its own replica and gives the length.
pub fn delete(store: &[u8], item: &[u8], out: &mut [u8]) -> Result<usize, u32> {
    let mut starts = Starts::new();
    let store = Store::read(store, &mut starts)?;
    let item = ids::item(item)?;
    let place = record::find(store.records, item);
    if !place.is_ok_and(|place| Record(&store.records[place]).kind() == LIVE) {
        return Err(ABSENT);
    }
    changed(&store, item, place, (TOMBSTONE, &NO_TAG), out)
}

/// Writes the store with a new record of an item, which has one already at a place or would have one there.
fn changed(
    store: &Store,
    item: &ItemId,
    place: Result<usize, usize>,
    (kind, tag): (u8, &[u8; 16]),
    out: &mut [u8],
) -> Result<usize, u32> {
    if store.knowledge.largest == i64::MAX as u64 {
        return Err(LAST_TICK);
    }
    let change = Version { replica: store.own, tick: store.knowledge.largest + 1 };
    let (before, behind, create) = match place {
        Ok(place) => (place, place + 1, Record(&store.records[place]).create()),
        Err(place) => (place, place, change),
    };
    let count = store.records.len() + 1 - (behind - before);
    let (before, behind) = (&store.records[..before], &store.records[behind..]);
    let write = |out: &mut Writer| {
        out.copy(before.as_flattened());
        out.put(record(kind, item, change, create, tag));
        out.copy(behind.as_flattened());
    };
    match store.own_key {
        Some(key) => {
            let length = store.knowledge.bytes.len();
            let (whole, out) = room(out, length, count)?;
            let out = &mut header(out, store.own, length, count);
            raise(&store.knowledge, key, change.tick, out.bytes(length));
            write(out);
            Ok(whole)
        }
        None => TABLE.with_borrow_mut(|table| {
            let plan = first_change(table, store, change.tick)?;
            let (whole, out) = room(out, plan.length, count)?;
            let out = &mut header(out, store.own, plan.length, count);
            table.write_planned(&plan, out.bytes(plan.length));
            write(out);
            Ok(whole)
        }),
    }
}

/// The length of a store with a knowledge of a length and so many records, and its place at the front of the buffer.
pub fn room(out: &mut [u8], knowledge: usize, records: usize) -> Result<(usize, &mut [u8]), u32> {
    if records > RECORDS {
        return Err(RESULT_RECORDS);
    }
    let length = HEADER + knowledge + record::LENGTH * records;
    Ok((length, out.get_mut(..length).ok_or(BUFFER)?))
}

fn record(kind: u8, item: &ItemId, change: Version, create: Version, tag: &[u8; 16]) -> Bytes {
    let mut record = [kind; record::LENGTH];
    let out = &mut Writer::new(&mut record[1..]);
    out.put(*item);
    for version in [change, create] {
        out.put(*version.replica);
        out.put(version.tick.to_be_bytes());
    }
    out.put(*tag);
    record
}

/// Writes a knowledge in which the own replica, which has the same tick in all ranges, has a later one. Nothing else of it changes.
fn raise(knowledge: &Normal, key: usize, tick: u64, out: &mut [u8]) {
    out.copy_from_slice(knowledge.bytes);
    for index in 1..knowledge.vectors {
        let place = knowledge.view.tick_place(index, key);
        out[place..place + 8].copy_from_slice(&tick.to_be_bytes());
    }
}

/// Fills a table with the ticks of a store and the first tick of its own replica everywhere.
fn first_change(table: &mut Table, store: &Store, tick: u64) -> Result<Plan, u32> {
    let knowledge = &store.knowledge.view;
    if knowledge.replicas().len() == REPLICAS {
        return Err(RESULT_REPLICAS);
    }
    table.clear(knowledge.replicas().iter().chain([store.own]), store.knowledge.vectors);
    let columns = table.columns(knowledge.replicas());
    let own = table.columns(std::slice::from_ref(store.own))[0] as usize;
    for range in knowledge.ranges().iter() {
        let row = table.row(|row| {
            row.set(ticks(knowledge, range.index(), &columns));
            row.set([(own, tick)].into_iter());
        });
        table.push(range.bound(), row)?;
    }
    Ok(table.plan())
}
