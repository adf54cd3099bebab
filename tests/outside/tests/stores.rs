//! The instances that the paper names for stores and batches, K9 to K12, on the engine.

use inputs::{ALL, Batch, Knowledge, LIVE, Record, Store, item_id, replica_id};
use outside::changing::Engine as _;
use outside::engine::Linked;
use outside::reading::{Engine as _, Found};

const TAG: [u8; 16] = [9; 16];
const P: u128 = 1;
const Q: u128 = 2;

/// What a call writes, or its number, after which nothing has changed. The buffer has bytes to spare.
fn written(call: impl Fn(&mut [u8], &mut u64) -> u32) -> Result<Vec<u8>, u32> {
    let (mut out, mut length) = (vec![0xa5; 1000], u64::MAX);
    match call(&mut out, &mut length) {
        0 => {
            let rest = out.split_off(length as usize);
            assert!(rest.iter().all(|byte| *byte == 0xa5));
            Ok(out)
        }
        number => {
            assert!(length == u64::MAX && out.iter().all(|byte| *byte == 0xa5));
            Err(number)
        }
    }
}

fn new(replica: u128) -> Vec<u8> {
    written(|out, length| Linked.new_store(&replica_id(replica), out, length)).unwrap()
}

fn edited(store: &[u8], item: u128) -> Vec<u8> {
    written(|out, length| Linked.edit(store, &item_id(item), &TAG, out, length)).unwrap()
}

fn made(store: &[u8], knowledge: &[u8]) -> Vec<u8> {
    written(|out, length| Linked.make(store, knowledge, [&ALL[0], &ALL[1]], out, length)).unwrap()
}

fn applied(store: &[u8], batch: &[u8]) -> Result<Vec<u8>, u32> {
    written(|out, length| Linked.apply(store, batch, out, length))
}

/// The bytes of a store that knows one tick of each replica everywhere and has an edit of each item, by replica and tick.
fn store(own: u128, ticks: &[(u128, u64)], edits: &[(u128, u128, u64)]) -> Vec<u8> {
    let knowledge = Knowledge {
        replicas: ticks.iter().map(|(replica, _)| replica_id(*replica)).collect(),
        vectors: vec![Vec::new(), (0..).zip(ticks.iter().map(|(_, tick)| *tick)).collect()],
        ranges: vec![(ALL[0], 1)],
    };
    let record = |(item, replica, tick): &(u128, u128, u64)| {
        let version = (replica_id(*replica), *tick);
        Record { kind: LIVE, item: item_id(*item), change: version, create: version, tag: TAG }
    };
    Store { own: replica_id(own), knowledge, records: edits.iter().map(record).collect() }.bytes()
}

fn nothing() -> Vec<u8> {
    Knowledge::smallest().bytes()
}

#[test]
fn k9_a_new_store_and_one_edit() {
    assert_eq!(new(P), Store::new(replica_id(P)).bytes());
    assert_eq!(new(P).len(), 138);
    let after = edited(&new(P), 1);
    assert_eq!(after, store(P, &[(P, 1)], &[(1, P, 1)]));
    assert_eq!(after.len(), 263);
}

#[test]
fn k10_two_first_edits_of_one_item() {
    let (p, batch) = (edited(&new(P), 1), made(&edited(&new(Q), 1), &nothing()));
    let mut found = Found { side: 7, at: 7, length: 7 };
    assert_eq!(Linked.winner(&p, &batch, &item_id(1), &mut found), 0);
    assert_eq!(found, Found { side: 2, at: 323, length: 89 });
    let after = applied(&p, &batch).unwrap();
    assert_eq!(after, store(P, &[(P, 1), (Q, 1)], &[(1, Q, 1)]));
    assert_eq!(edited(&after, 2), store(P, &[(P, 2), (Q, 1)], &[(1, Q, 1), (2, P, 2)]));
}

#[test]
fn k11_the_batch_of_an_edited_store() {
    let edited = edited(&new(P), 1);
    let batch = made(&edited, &nothing());
    assert_eq!(batch.len(), 412);
    assert_eq!(batch, Batch::whole(&Store::opened(&edited).unwrap()).bytes());
}

#[test]
fn k12_the_second_batch_needs_the_first() {
    let first_edit = edited(&new(P), 1);
    let one = made(&first_edit, &nothing());
    let mut part = [7; 2];
    assert_eq!(Linked.learned(&one, &mut part), 0);
    assert_eq!(part, [174, 149]);
    let two = made(&edited(&first_edit, 2), &one[174..323]);
    assert_eq!(applied(&new(Q), &two), Err(18));
    let after_one = applied(&new(Q), &one).unwrap();
    assert_eq!(after_one, store(Q, &[(P, 1)], &[(1, P, 1)]));
    assert_eq!(applied(&after_one, &two).unwrap(), store(Q, &[(P, 2)], &[(1, P, 1), (2, P, 2)]));
}
