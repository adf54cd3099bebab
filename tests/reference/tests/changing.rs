//! The calls that write a store or a batch against their slow and plain meaning over values, on the calls that the engine is tried on.

use inputs::{Batch, Changing, Changings, ItemId, Knowledge, Plan, ReplicaId, Room, Store};
use reference::{apply, check, delete, edit, make, new};

const PLAN: Plan = Plan { seed: 82, inputs: 40_000 };

fn store(bytes: &[u8]) -> Result<Store, u32> {
    Store::opened(bytes).ok_or(15)
}

fn id<const N: usize>(bytes: &[u8]) -> Result<[u8; N], u32> {
    bytes.try_into().map_err(|_| 17)
}

fn slow_edit(bytes: &[u8], item: &[u8], tag: &[u8]) -> Result<Store, u32> {
    let store = store(bytes)?;
    let (item, tag): (ItemId, [u8; 16]) = (id(item)?, id(tag)?);
    store.edited(&item, &tag)
}

fn slow_make(bytes: &[u8], knowledge: &[u8], first: &[u8], last: &[u8]) -> Result<Batch, u32> {
    let store = store(bytes)?;
    check(knowledge)?;
    let (first, last): (ItemId, ItemId) = (id(first)?, id(last)?);
    if first > last { Err(17) } else { store.made(&Knowledge::decoded(knowledge), &first, &last) }
}

/// Calls with a buffer: the bytes come to the front where there is room, and else no byte changes.
fn is_right(right: Result<Vec<u8>, u32>, room: Room, call: impl Fn(&mut [u8]) -> Result<usize, u32>) -> bool {
    let room = room.length(right.as_ref().ok().map(Vec::len));
    let mut out = vec![0xa5; room];
    let answer = call(&mut out);
    let right = right.and_then(|bytes| if bytes.len() <= room { Ok(bytes) } else { Err(14) });
    let bytes = right.as_deref().unwrap_or(&[]);
    answer == right.as_ref().map(Vec::len).map_err(|number| *number)
        && out.starts_with(bytes)
        && out[bytes.len()..].iter().all(|byte| *byte == 0xa5)
}

#[test]
fn as_slowly() {
    PLAN.try_for_each_call::<Changings>(|input| {
        let right = match input.call {
            Changing::New { own, room } => {
                let right = id(own).map(|own: ReplicaId| Store::new(own).bytes());
                is_right(right, room, |out| new(own, out))
            }
            Changing::Edit { store, item, tag, room } => {
                let right = slow_edit(store, item, tag).map(|store| store.bytes());
                is_right(right, room, |out| edit(store, item, tag, out))
            }
            Changing::Delete { store: bytes, item, room } => {
                let right = store(bytes).and_then(|store| store.deleted(&id(item)?)).map(|store| store.bytes());
                is_right(right, room, |out| delete(bytes, item, out))
            }
            Changing::Make { store, knowledge, first_item, last_item, room } => {
                let right = slow_make(store, knowledge, first_item, last_item).map(|batch| batch.bytes());
                is_right(right, room, |out| make(store, knowledge, first_item, last_item, out))
            }
            Changing::Apply { store: bytes, batch, room } => {
                let right = store(bytes).and_then(|store| store.applied(&Batch::opened(batch).ok_or(16u32)?));
                is_right(right.map(|store| store.bytes()), room, |out| apply(bytes, batch, out))
            }
        };
        if right { Ok(()) } else { Err(format!("{input:?}")) }
    })
    .unwrap();
}
