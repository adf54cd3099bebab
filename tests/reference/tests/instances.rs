//! The instances that the paper names for stores and batches, and single cases of its table, to the byte.

use inputs::{Batch, FIRST_ITEM, ItemId, Knowledge, LAST_ITEM, LIVE, Record, Store, TOMBSTONE, item_id, replica_id};
use reference::{Winner, apply, delete, edit, knowledge, learned, make, new, winner};

const TAG: [u8; 16] = [9; 16];
/// The number of the replica P, and of Q.
const P: u128 = 1;
const Q: u128 = 2;

/// The bytes that a call writes into a buffer that is just long enough, or its number.
fn written(call: impl Fn(&mut [u8]) -> Result<usize, u32>) -> Result<Vec<u8>, u32> {
    let mut out = vec![0xa5; Batch::LONGEST + 7];
    let length = call(&mut out);
    let length = match length {
        Ok(length) => length,
        Err(number) => {
            assert!(out.iter().all(|byte| *byte == 0xa5), "a refusal changes nothing");
            return Err(number);
        }
    };
    assert!(out[length..].iter().all(|byte| *byte == 0xa5), "nothing is written behind the result");
    out.truncate(length);
    let mut exact = vec![0xa5; length];
    assert_eq!(call(&mut exact), Ok(length));
    assert_eq!(exact, out);
    let mut short = vec![0xa5; length - 1];
    assert_eq!(call(&mut short), Err(14));
    assert!(short.iter().all(|byte| *byte == 0xa5), "a short buffer stays as it was");
    Ok(out)
}

fn started(replica: u128) -> Vec<u8> {
    written(|out| new(&replica_id(replica), out)).unwrap()
}

fn edited(store: &[u8], item: u128) -> Vec<u8> {
    written(|out| edit(store, &item_id(item), &TAG, out)).unwrap()
}

fn made(store: &[u8], knowledge: &[u8]) -> Vec<u8> {
    written(|out| make(store, knowledge, &FIRST_ITEM, &LAST_ITEM, out)).unwrap()
}

fn applied(store: &[u8], batch: &[u8]) -> Result<Vec<u8>, u32> {
    written(|out| apply(store, batch, out))
}

fn empty() -> Vec<u8> {
    Knowledge::smallest().bytes()
}

/// A knowledge of one tick of each replica everywhere.
fn known(ticks: &[(u128, u64)]) -> Knowledge {
    Knowledge {
        replicas: ticks.iter().map(|(replica, _)| replica_id(*replica)).collect(),
        vectors: vec![Vec::new(), (0..).zip(ticks.iter().map(|(_, tick)| *tick)).collect()],
        ranges: vec![(FIRST_ITEM, 1)],
    }
}

fn live(item: u128, change: (u128, u64), create: (u128, u64)) -> Record {
    let version = |(replica, tick)| (replica_id(replica), tick);
    Record { kind: LIVE, item: item_id(item), change: version(change), create: version(create), tag: TAG }
}

#[test]
fn k9_a_new_store_and_one_edit() {
    let store = started(P);
    assert_eq!(store.len(), 138);
    assert_eq!(store, Store::new(replica_id(P)).bytes());
    let after = edited(&store, 1);
    assert_eq!(after.len(), 263);
    let records = vec![live(1, (P, 1), (P, 1))];
    assert_eq!(after, Store { own: replica_id(P), knowledge: known(&[(P, 1)]), records }.bytes());
    assert_eq!(knowledge(&after), Ok(25..174));
}

#[test]
fn k10_two_first_edits_of_one_item() {
    let (p, q) = (edited(&started(P), 1), edited(&started(Q), 1));
    let batch = made(&q, &empty());
    assert_eq!(winner(&p, &batch, &item_id(1)), Ok(Winner::Batch(323..412)));
    let after = applied(&p, &batch).unwrap();
    let records = vec![live(1, (Q, 1), (Q, 1))];
    assert_eq!(after, Store { own: replica_id(P), knowledge: known(&[(P, 1), (Q, 1)]), records }.bytes());
    let next = Store::opened(&edited(&after, 2)).unwrap();
    assert_eq!(next.records[1], live(2, (P, 2), (P, 2)));
    assert_eq!(next.knowledge, known(&[(P, 2), (Q, 1)]));

    let other = applied(&q, &made(&p, &empty())).unwrap();
    assert_eq!(Store::opened(&other).unwrap().records, vec![live(1, (Q, 1), (Q, 1))]);
}

#[test]
fn k11_the_batch_of_an_edited_store() {
    let store = edited(&started(P), 1);
    let batch = made(&store, &empty());
    assert_eq!(batch.len(), 412);
    assert_eq!(batch, Batch::whole(&Store::opened(&store).unwrap()).bytes());
    assert_eq!(learned(&batch), Ok(174..323));
}

#[test]
fn k12_the_second_batch_needs_the_first() {
    let first_edit = edited(&started(P), 1);
    let one = made(&first_edit, &empty());
    let both_edits = edited(&first_edit, 2);
    let two = made(&both_edits, &one[learned(&one).unwrap()]);
    assert_eq!(Batch::opened(&two).unwrap().records, vec![live(2, (P, 2), (P, 2))]);
    let q = started(Q);
    assert_eq!(applied(&q, &two), Err(18));
    let after_one = applied(&q, &one).unwrap();
    let after_two = applied(&after_one, &two).unwrap();
    let records = vec![live(1, (P, 1), (P, 1)), live(2, (P, 2), (P, 2))];
    assert_eq!(after_two, Store { own: replica_id(Q), knowledge: known(&[(P, 2)]), records }.bytes());
}

#[test]
fn an_edit_is_numbered_by_the_largest_tick_of_all() {
    let mut store = Store { own: replica_id(P), knowledge: known(&[(P, 3), (Q, 700)]), records: Vec::new() };
    store.knowledge.ranges.push((item_id(8), 2));
    store.knowledge.vectors.push(vec![(0, 3)]);
    assert!(store.is_valid());
    let after = Store::opened(&edited(&store.bytes(), 9)).unwrap();
    assert_eq!(after.records, vec![live(9, (P, 701), (P, 701))]);
    assert_eq!(after.knowledge.vectors[1..], [vec![(0, 701), (1, 700)], vec![(0, 701)]]);
}

#[test]
fn a_tombstone_can_be_edited_and_not_deleted() {
    let store = edited(&edited(&started(P), 1), 2);
    let gone = written(|out| delete(&store, &item_id(1), out)).unwrap();
    let record = Store::opened(&gone).unwrap().records[0].clone();
    assert_eq!((record.kind, record.tag), (TOMBSTONE, [0; 16]));
    assert_eq!((record.change, record.create), ((replica_id(P), 3), (replica_id(P), 1)));
    assert_eq!(written(|out| delete(&gone, &item_id(1), out)), Err(19));
    let back = Store::opened(&edited(&gone, 1)).unwrap();
    assert_eq!(back.records[0], live(1, (P, 4), (P, 1)));
}

/// The number of a call with a buffer of no bytes.
fn in_no_room(call: impl Fn(&mut [u8]) -> Result<usize, u32>) -> u32 {
    call(&mut []).unwrap_err()
}

#[test]
fn the_order_of_edit_and_delete() {
    let item = &item_id(1)[..];
    let late = Store { own: replica_id(P), knowledge: known(&[(P, i64::MAX as u64)]), records: Vec::new() };
    let (invalid, late, started) = (&started(P)[1..], &late.bytes(), &started(P));
    assert_eq!(in_no_room(|out| edit(invalid, &item[1..], &TAG, out)), 15);
    assert_eq!(in_no_room(|out| edit(late, &item[1..], &TAG, out)), 17);
    assert_eq!(in_no_room(|out| edit(late, item, &TAG[1..], out)), 17);
    assert_eq!(in_no_room(|out| edit(late, item, &TAG, out)), 20);
    assert_eq!(in_no_room(|out| edit(started, item, &TAG, out)), 14);
    assert_eq!(in_no_room(|out| delete(invalid, &item[1..], out)), 15);
    assert_eq!(in_no_room(|out| delete(late, &item[1..], out)), 17);
    assert_eq!(in_no_room(|out| delete(late, item, out)), 19);
    assert_eq!(in_no_room(|out| delete(started, item, out)), 19);
    assert_eq!(in_no_room(|out| delete(&edited(started, 1), item, out)), 14);
    assert_eq!(in_no_room(|out| new(&replica_id(P)[1..], out)), 17);
    assert_eq!(in_no_room(|out| new(&replica_id(P), out)), 14);
}

#[test]
fn too_many_replicas_and_records() {
    let mut store = Store::filled(16, 2, 256);
    let absent: ItemId = item_id(1000);
    assert_eq!(in_no_room(|out| edit(&store.bytes(), &absent, &TAG, out)), 13);
    store.own = replica_id(77);
    assert_eq!(in_no_room(|out| edit(&store.bytes(), &absent, &TAG, out)), 11);
    assert_eq!(in_no_room(|out| edit(&store.bytes(), &store.records[0].item, &TAG, out)), 11);
    assert_eq!(in_no_room(|out| delete(&store.bytes(), &store.records[0].item, out)), 11);
    let fewer = Store::filled(15, 2, 256);
    let fewer = Store { own: replica_id(77), ..fewer };
    assert_eq!(in_no_room(|out| edit(&fewer.bytes(), &absent, &TAG, out)), 13);
    assert!(written(|out| edit(&fewer.bytes(), &fewer.records[0].item, &TAG, out)).is_ok());
}

#[test]
fn make_looks_at_needed_before_learned() {
    let late = Knowledge::late_start().bytes();
    let store = Store::filled(2, 64, 9).bytes();
    let whole = |knowledge: &[u8]| in_no_room(|out| make(&store, knowledge, &FIRST_ITEM, &LAST_ITEM, out));
    assert_eq!(whole(&late), 12);
    assert_eq!(whole(&late[1..]), 2);
    assert_eq!(whole(&empty()), 14);
    assert_eq!(in_no_room(|out| make(&store, &empty(), &item_id(1), &item_id(2), out)), 14);
    assert_eq!(in_no_room(|out| make(&store, &empty(), &FIRST_ITEM, &item_id(1000), out)), 12);
    assert_eq!(in_no_room(|out| make(&store, &late, &LAST_ITEM, &FIRST_ITEM, out)), 17);
    assert_eq!(in_no_room(|out| make(&store[1..], &late[1..], &LAST_ITEM, &FIRST_ITEM, out)), 15);
}

#[test]
fn a_batch_that_has_learned_of_a_later_own_tick() {
    let p = edited(&started(P), 1);
    let later = made(&edited(&p, 2), &empty());
    assert_eq!(applied(&p, &later), Err(18));
}
