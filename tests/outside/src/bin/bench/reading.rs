//! The rows of the tables of calls that read stores and batches.

use inputs::{Knowledge, backwards, item_id};

use crate::reading_call::ReadingCall;
use crate::row::{Asked, Row};
use crate::stores::{ABSENT, Sample};

fn row(name: &'static str, number: u32, call: ReadingCall) -> Row {
    Row::new(name, number, Asked::Reading(call))
}

pub fn winner(sample: &Sample) -> Vec<Row> {
    let call = |store: &[u8], batch: &[u8], item: &[u8]| ReadingCall::Winner {
        store: store.to_vec(),
        batch: batch.to_vec(),
        item: item.to_vec(),
    };
    let (whole, batch) = (&sample.whole[..], &sample.whole_batch[..]);
    let last = &sample.store.records.last().expect("there is a record").item;
    vec![
        row("the last item", 0, call(whole, batch, last)),
        row("an item on neither side", 0, call(whole, batch, &item_id(ABSENT))),
        row("store: last record of no known kind", 15, call(&sample.broken, batch, last)),
        row("store: cut by one byte", 15, call(&whole[..whole.len() - 1], batch, last)),
        row("batch: last record of no known kind", 16, call(whole, &sample.broken_batch, last)),
        row("item id too short", 17, call(whole, batch, &last[1..])),
    ]
}

pub fn learned(sample: &Sample) -> Vec<Row> {
    let call = |batch: &[u8]| ReadingCall::Learned { batch: batch.to_vec() };
    let batch = &sample.whole_batch[..];
    vec![
        row("accepted", 0, call(batch)),
        row("last record of no known kind", 16, call(&sample.broken_batch)),
        row("cut by one byte", 16, call(&batch[..batch.len() - 1])),
    ]
}

pub fn coverage(sample: &Sample) -> Vec<Row> {
    let call =
        |store: &[u8], knowledge: &[u8]| ReadingCall::Coverage { store: store.to_vec(), knowledge: knowledge.to_vec() };
    let whole = &sample.whole[..];
    let knowledge = &sample.store.knowledge.bytes();
    vec![
        row("all contained", 0, call(whole, knowledge)),
        row("all contained, the knowledge backwards", 0, call(whole, &backwards(&sample.store.knowledge).bytes())),
        row("none contained", 0, call(whole, &Knowledge::smallest().bytes())),
        row("last record of no known kind", 15, call(&sample.broken, knowledge)),
        row("knowledge: cut by one byte", 1, call(whole, &knowledge[..knowledge.len() - 1])),
    ]
}

pub fn knowledge(sample: &Sample) -> Vec<Row> {
    let call = |store: &[u8]| ReadingCall::Knowledge { store: store.to_vec() };
    vec![
        row("accepted", 0, call(&sample.whole)),
        row("last record of no known kind", 15, call(&sample.broken)),
        row("cut by one byte", 15, call(&sample.whole[..sample.whole.len() - 1])),
    ]
}

pub fn walk(sample: &Sample) -> Vec<Row> {
    let call = |at: usize| ReadingCall::Walk { table: sample.whole.clone(), at: at as u64 };
    let end = sample.whole.len();
    vec![row("the last record", 0, call(end - 89)), row("the end", 0, call(end))]
}
