//! The calls that read stores and batches against their slow and plain meaning over values, on the calls that the engine is tried on.

use inputs::{Batch, ItemId, Knowledge, Plan, Reading, Readings, Record, Store};
use reference::{Winner, check, coverage, knowledge, learned, winner};

const PLAN: Plan = Plan { seed: 81, inputs: 40_000 };

fn store(bytes: &[u8]) -> Result<Store, u32> {
    Store::opened(bytes).ok_or(15)
}

fn batch(bytes: &[u8]) -> Result<Batch, u32> {
    Batch::opened(bytes).ok_or(16)
}

fn slow_winner(store_bytes: &[u8], batch_bytes: &[u8], item: &[u8]) -> Result<Winner, u32> {
    let (store, batch) = (store(store_bytes)?, batch(batch_bytes)?);
    let item = ItemId::try_from(item).map_err(|_| 17u32)?;
    // Records stand at the end.
    let place = |bytes: &[u8], records: &[Record], record: usize| {
        let start = bytes.len() - (records.len() - record) * Record::LENGTH;
        start..start + Record::LENGTH
    };
    Ok(match store.winner(&batch, &item) {
        (0, _) => Winner::Neither,
        (1, record) => Winner::Store(place(store_bytes, &store.records, record)),
        (_, record) => Winner::Batch(place(batch_bytes, &batch.records, record)),
    })
}

fn slow_coverage(store_bytes: &[u8], knowledge: &[u8]) -> Result<[u64; 3], u32> {
    let store = store(store_bytes)?;
    check(knowledge)?;
    Ok(store.coverage(&Knowledge::decoded(knowledge)))
}

#[test]
fn as_slowly() {
    PLAN.try_for_each_call::<Readings>(|input| {
        let right = match input.call {
            Reading::Winner { store, batch, item } => winner(store, batch, item) == slow_winner(store, batch, item),
            Reading::Learned { batch: bytes } => {
                let slow = batch(bytes).map(|batch| (batch.needed.bytes().len(), batch.learned.bytes().len()));
                learned(bytes) == slow.map(|(needed, learned)| 61 + needed..61 + needed + learned)
            }
            Reading::Coverage { store, knowledge } => {
                let quick = coverage(store, knowledge);
                let quick = quick.map(|counts| [counts.contained, counts.all, counts.thousandths]);
                quick == slow_coverage(store, knowledge)
            }
            Reading::Knowledge { store: bytes } => {
                knowledge(bytes) == store(bytes).map(|store| 25..25 + store.knowledge.bytes().len())
            }
            Reading::Walk { table, at } => {
                let kind = (at < table.len() as u64).then(|| table[at as usize]);
                let whole = u128::from(at) + Record::LENGTH as u128 <= table.len() as u128;
                let slow = if whole && matches!(kind, Some(1 | 2)) { Record::LENGTH as u64 } else { 0 };
                reference::walk(table, at) == slow
            }
        };
        if right { Ok(()) } else { Err(format!("{input:?}")) }
    })
    .unwrap();
}
