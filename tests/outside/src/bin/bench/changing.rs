//! The rows of the tables of calls that write stores and batches.

use inputs::{Batch, FIRST_ITEM, ItemId, Knowledge, LAST_ITEM, Store, backwards, item_id, replica_id};

use crate::changing_call::ChangingCall;
use crate::row::{Asked, Row};
use crate::stores::{ABSENT, STRANGER, Sample, news};

fn row(name: &'static str, number: u32, call: ChangingCall) -> Row {
    Row::new(name, number, Asked::Changing(call))
}

/// A buffer that is never too short.
const LONG: usize = Batch::LONGEST;

pub fn new(_: &Sample) -> Vec<Row> {
    let call = |own: &[u8], room| ChangingCall::New { own: own.to_vec(), room };
    let own = replica_id(1);
    vec![
        row("accepted", 0, call(&own, LONG)),
        row("buffer one byte too short", 14, call(&own, 137)),
        row("replica id too short", 17, call(&own[1..], LONG)),
    ]
}

pub fn edit(sample: &Sample) -> Vec<Row> {
    let call = |store: &[u8], item: &[u8], room| ChangingCall::Edit {
        store: store.to_vec(),
        item: item.to_vec(),
        tag: vec![7; 16],
        room,
    };
    let whole = &sample.whole[..];
    let middle = &sample.store.records[sample.store.records.len() / 2].item;
    let mut room_left = sample.store.clone();
    room_left.records.truncate(255);
    let mut last_tick = sample.store.clone();
    last_tick.knowledge.vectors.iter_mut().skip(1).for_each(|vector| vector[0].1 = i64::MAX as u64);
    let mut rows = vec![
        row("an item that is there", 0, call(whole, middle, LONG)),
        row("a new item in front", 0, call(&room_left.bytes(), &FIRST_ITEM, LONG)),
        row("last record of no known kind", 15, call(&sample.broken, middle, LONG)),
        row("item id too short", 17, call(whole, &middle[1..], LONG)),
        row("the largest tick reached", 20, call(&last_tick.bytes(), middle, LONG)),
        row("buffer one byte too short", 14, call(whole, middle, sample.whole.len() - 1)),
    ];
    let stranger = |store: &Store| Store { own: STRANGER, ..store.clone() }.bytes();
    rows.insert(2, row("the first edit of its replica", 0, call(&stranger(&sample.with_room()), middle, LONG)));
    if sample.store.knowledge.replicas.len() == 16 {
        rows.push(row("one replica too many", 11, call(&stranger(&sample.store), middle, LONG)));
        rows.push(row("one record too many", 13, call(whole, &FIRST_ITEM, LONG)));
    }
    rows
}

pub fn delete(sample: &Sample) -> Vec<Row> {
    let call =
        |store: &[u8], item: &[u8], room| ChangingCall::Delete { store: store.to_vec(), item: item.to_vec(), room };
    let whole = &sample.whole[..];
    let first = &item_id(1);
    vec![
        row("a live item", 0, call(whole, first, LONG)),
        row("an absent item", 19, call(whole, &item_id(ABSENT), LONG)),
        row("last record of no known kind", 15, call(&sample.broken, first, LONG)),
        row("buffer one byte too short", 14, call(whole, first, sample.whole.len() - 1)),
    ]
}

pub fn make(sample: &Sample) -> Vec<Row> {
    let call = |store: &[u8], knowledge: &[u8], first: &ItemId, last: &ItemId, room| ChangingCall::Make {
        store: store.to_vec(),
        knowledge: knowledge.to_vec(),
        first_item: first.to_vec(),
        last_item: last.to_vec(),
        room,
    };
    let whole = &sample.whole[..];
    let (nothing, own) = (&Knowledge::smallest().bytes(), &sample.store.knowledge.bytes());
    let g = sample.store.knowledge.ranges.len() as u128;
    let half = [item_id(g + 1), item_id(3 * g + 1)];
    let all = |store, knowledge, room| call(store, knowledge, &FIRST_ITEM, &LAST_ITEM, room);
    let backward = &backwards(&sample.store.knowledge).bytes();
    let short = sample.whole.len() - 25 + 61 + 113 - 1;
    vec![
        row("all ids, for nothing", 0, all(whole, nothing, LONG)),
        row("all ids, for the same knowledge", 0, all(whole, own, LONG)),
        row("all ids, for the same knowledge backwards", 0, all(whole, backward, LONG)),
        row("half of the ids, for nothing", 0, call(whole, nothing, &half[0], &half[1], LONG)),
        row("half of the ids, for the same knowledge backwards", 0, call(whole, backward, &half[0], &half[1], LONG)),
        row("last record of no known kind", 15, all(&sample.broken, nothing, LONG)),
        row("knowledge: cut by one byte", 1, all(whole, &own[..own.len() - 1], LONG)),
        row("first id above last", 17, call(whole, nothing, &LAST_ITEM, &FIRST_ITEM, LONG)),
        row("buffer one byte too short", 14, all(whole, nothing, short)),
    ]
}

pub fn apply(sample: &Sample) -> Vec<Row> {
    let call =
        |store: &[u8], batch: &[u8], room| ChangingCall::Apply { store: store.to_vec(), batch: batch.to_vec(), room };
    let (whole, batch) = (&sample.whole[..], &sample.whole_batch[..]);
    let brought = Batch::opened(batch).expect("it is valid");
    let new = Store::new(STRANGER).bytes();
    let needing = Batch { needed: Knowledge { replicas: vec![[9; 16]], ..Knowledge::a() }, ..brought.clone() };
    let after = sample.store.applied(&brought).expect("it fits").bytes();
    let learned_again = Batch { records: Vec::new(), ..brought }.bytes();
    let mut rows = vec![
        row("every other record wins", 0, call(whole, batch, LONG)),
        row("nothing new", 0, call(&after, batch, LONG)),
        row("no records", 0, call(whole, &learned_again, LONG)),
        row("all of it into a new store", 0, call(&new, batch, LONG)),
    ];
    rows.extend(with_news(sample).into_iter().map(|(name, store, batch)| row(name, 0, call(&store, &batch, LONG))));
    rows.extend([
        row("store: last record of no known kind", 15, call(&sample.broken, batch, LONG)),
        row("batch: last record of no known kind", 16, call(whole, &sample.broken_batch, LONG)),
        row("batch: cut by one byte", 16, call(whole, &batch[..batch.len() - 1], LONG)),
        row("not covered", 18, call(whole, &needing.bytes(), LONG)),
        row("buffer one byte too short", 14, call(whole, batch, after.len() - 1)),
    ]);
    rows
}

/// Stores and batches that are made for what the store knows, by one that knows later ticks. Nobody else can have later
/// ticks of the store's own replica, so that a store without another replica gets news of a new one only.
fn with_news(sample: &Sample) -> Vec<(&'static str, Vec<u8>, Vec<u8>)> {
    let store = &sample.store;
    let mut rows = Vec::new();
    let mut add = |name, store: &Store, batch: Batch| rows.push((name, store.bytes(), batch.bytes()));
    if let [_, .., last] = store.knowledge.replicas[..] {
        let middle = store.knowledge.ranges.len() / 2;
        add("news in one range", store, news(store, last, |range| range == middle));
        add("news in all ranges", store, news(store, last, |_| true));
    }
    let with_room = sample.with_room();
    add("news of one replica more", &with_room, news(&with_room, STRANGER, |_| true));
    rows
}
