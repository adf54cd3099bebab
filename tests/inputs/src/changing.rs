//! Calls that write a store or a batch, with their arguments and the length of the output buffer.

use crate::batches;
use crate::breaches::{self, sound_batch, sound_store};
use crate::calls::faulty;
use crate::edits::disturb;
use crate::full;
use crate::knowledge::{Knowledge, item_id, replica_id};
use crate::meaning::{FIRST_ITEM, ItemId, LAST_ITEM};
use crate::pairs;
use crate::reading::{damage, each_damage, item, some_items, ties};
use crate::replication::ALL;
use crate::splitmix::SplitMix64;
use crate::store::{Batch, Store};
use crate::stores::item_near;
use crate::writing::{Room, Rooms};

/// A call with its arguments as bytes, with or without fault.
#[derive(Clone, Copy, Debug, Hash)]
pub enum Changing<'a> {
    New { own: &'a [u8], room: Room },
    Edit { store: &'a [u8], item: &'a [u8], tag: &'a [u8], room: Room },
    Delete { store: &'a [u8], item: &'a [u8], room: Room },
    Make { store: &'a [u8], knowledge: &'a [u8], first_item: &'a [u8], last_item: &'a [u8], room: Room },
    Apply { store: &'a [u8], batch: &'a [u8], room: Room },
}

/// Takes a call with the name of its family. An error ends the run.
pub type Visit<'a> = dyn FnMut(&'static str, Changing<'_>) -> Result<(), String> + 'a;

pub const TAG: [u8; 16] = [0xc3; 16];

/// The calls that are the same in every run.
pub fn fixed(visit: &mut Visit) -> Result<(), String> {
    lengths(visit)?;
    faults(visit)?;
    ties(&mut |store: &[u8], batch: &[u8], _: &ItemId| {
        visit("ties", Changing::Apply { store, batch, room: Room::More(0) })
    })?;
    full::not_covered(visit)?;
    broken(visit)?;
    damaged(visit)?;
    every_room(visit)?;
    every_shape(visit)?;
    full::fixed(visit)
}

/// Ids and tags of every length from 0 to 40.
fn lengths(visit: &mut Visit) -> Result<(), String> {
    const FAMILY: &str = "ids of every length";
    const LENGTHS: std::ops::RangeInclusive<usize> = 0..=40;
    let store = &sound_store().bytes();
    let knowledge = &Knowledge::b().bytes();
    let rooms = &mut Rooms::default();
    // Behind the ids lie further bytes of the same sort; cut or longer, they begin as an id that is in the store.
    let mut id = [0; 40];
    id[23] = 1;
    for n in LENGTHS {
        visit(FAMILY, Changing::New { own: &id[..n], room: rooms.next() })?;
        visit(FAMILY, Changing::Delete { store, item: &id[..n], room: rooms.next() })?;
        for m in LENGTHS {
            let tag = &[7; 40][..m];
            visit(FAMILY, Changing::Edit { store, item: &id[..n], tag, room: rooms.next() })?;
            for last_byte in [0, 255] {
                let (first_item, last_item) = (&id[..n], &[last_byte; 40][..m]);
                visit(FAMILY, Changing::Make { store, knowledge, first_item, last_item, room: rooms.next() })?;
            }
        }
    }
    Ok(())
}

/// Each fault of an argument together with each fault of every other, and a buffer that is too short.
fn faults(visit: &mut Visit) -> Result<(), String> {
    const FAMILY: &str = "faults";
    let (store, batch) = (&sound_store().bytes()[..], &sound_batch().bytes()[..]);
    let mut knowledges = vec![Knowledge::b().bytes(), Knowledge::late_start().bytes()];
    knowledges.extend(faulty(&Knowledge::filled(2, 3, 3)));
    let (id, tag) = (&[0; 25], &[9; 17]);
    let ids = [&id[..24], &id[..23], id, &[]];
    let mut ends: Vec<(&[u8], &[u8])> = ids.iter().flat_map(|from| ids.map(|to| (*from, to))).collect();
    ends.push((&LAST_ITEM, &FIRST_ITEM));
    for room in [Room::More(0), Room::Less(1), Room::Bytes(0)] {
        for store in [store, &store[..store.len() - 1], batch, &[]] {
            for item in ids {
                visit(FAMILY, Changing::Delete { store, item, room })?;
                for tag in [&tag[..16], &tag[..15], tag, &[]] {
                    visit(FAMILY, Changing::Edit { store, item, tag, room })?;
                }
            }
            for knowledge in &knowledges {
                for (first_item, last_item) in &ends {
                    visit(FAMILY, Changing::Make { store, knowledge, first_item, last_item, room })?;
                }
            }
            for batch in [batch, &batch[..batch.len() - 1], store, &[]] {
                visit(FAMILY, Changing::Apply { store, batch, room })?;
            }
        }
    }
    Ok(())
}

/// A store and a batch in each call that takes one, for an item.
fn each_call(
    family: &'static str,
    [store, batch, item]: [&[u8]; 3],
    rooms: &mut Rooms,
    visit: &mut Visit,
) -> Result<(), String> {
    let [first_item, last_item] = &ALL;
    let knowledge = &Knowledge::b().bytes();
    visit(family, Changing::Edit { store, item, tag: &TAG, room: rooms.next() })?;
    visit(family, Changing::Delete { store, item, room: rooms.next() })?;
    visit(family, Changing::Make { store, knowledge, first_item, last_item, room: rooms.next() })?;
    visit(family, Changing::Apply { store, batch, room: rooms.next() })
}

/// Each rule of validity broken alone, in each argument; and in both together.
fn broken(visit: &mut Visit) -> Result<(), String> {
    const FAMILY: &str = "rules broken";
    let (store, batch) = (&sound_store().bytes()[..], &sound_batch().bytes()[..]);
    let item = item_id(5);
    let rooms = &mut Rooms::default();
    for (_, store) in &breaches::broken_stores() {
        each_call(FAMILY, [store, batch, &item], rooms, visit)?;
        each_call(FAMILY, [store, batch, &item[1..]], rooms, visit)?;
        for (_, batch) in breaches::broken_batches().iter().step_by(9) {
            visit(FAMILY, Changing::Apply { store, batch, room: rooms.next() })?;
        }
    }
    for (_, batch) in &breaches::broken_batches() {
        for room in [Room::More(0), Room::Bytes(0)] {
            visit(FAMILY, Changing::Apply { store, batch, room })?;
        }
    }
    Ok(())
}

/// Every byte changed, every length cut, every field set to its boundary values.
fn damaged(visit: &mut Visit) -> Result<(), String> {
    let (store, batch) = (sound_store(), sound_batch());
    let item = item_id(5);
    let rooms = &mut Rooms::default();
    each_damage(&store.write(), &mut |family, store: &[u8]| {
        visit(family, Changing::Edit { store, item: &item, tag: &TAG, room: rooms.next() })
    })?;
    let store = &store.bytes();
    each_damage(&batch.write(), &mut |family, batch: &[u8]| {
        visit(family, Changing::Apply { store, batch, room: rooms.next() })
    })?;
    let (small, whole) = (Store::filled(1, 1, 1), Batch::whole(&Store::filled(2, 1, 2)).bytes());
    each_damage(&small.write(), &mut |family, store: &[u8]| {
        each_call(family, [store, &whole, &item], rooms, &mut *visit)
    })
}

/// Buffers of every length up to a few bytes more than a short result, and of lengths around a long one.
fn every_room(visit: &mut Visit) -> Result<(), String> {
    const FAMILY: &str = "buffers of every length";
    let short: Vec<Room> = (0..=40).map(Room::More).chain((1..=420).map(Room::Less)).collect();
    let long: Vec<Room> = (0..=20).map(Room::More).chain((1..=100).map(Room::Less)).collect();
    for room in short.iter().copied() {
        visit(FAMILY, Changing::New { own: &replica_id(5), room })?;
    }
    let small = Store::filled(1, 1, 1);
    let pairs = [
        ((Store::new(replica_id(2)), Batch::whole(&small)), &short),
        ((small.clone(), Batch::whole(&small)), &short),
        (full::together(2, 2, 2), &short),
        (full::together(4, 8, 30), &long),
        (full::together(16, 64, 256), &long),
    ];
    for ((store, batch), rooms) in pairs {
        let (store, batch) = (&store.bytes(), &batch.bytes());
        let knowledge = &Knowledge::smallest().bytes();
        let [here, absent, last] = &[0, 9, 700].map(item_id);
        for room in rooms.iter().copied() {
            for (first_item, last_item) in [(&FIRST_ITEM, &LAST_ITEM), (here, absent)] {
                visit(FAMILY, Changing::Make { store, knowledge, first_item, last_item, room })?;
            }
            for item in [here, absent, last] {
                visit(FAMILY, Changing::Edit { store, item, tag: &TAG, room })?;
            }
            visit(FAMILY, Changing::Delete { store, item: here, room })?;
            visit(FAMILY, Changing::Apply { store, batch, room })?;
        }
    }
    Ok(())
}

/// Stores and batches of many shapes.
fn every_shape(visit: &mut Visit) -> Result<(), String> {
    const FAMILY: &str = "shapes";
    let rooms = &mut Rooms::default();
    let random = &mut SplitMix64::new(23);
    for (store, batch) in batches::shapes() {
        let (bytes, batch_bytes) = (&store.bytes(), &batch.bytes());
        let items = some_items(&store, &batch);
        for item in &items {
            visit(FAMILY, Changing::Edit { store: bytes, item, tag: &TAG, room: rooms.next() })?;
            visit(FAMILY, Changing::Delete { store: bytes, item, room: rooms.next() })?;
        }
        for room in [Room::More(0), Room::Less(1), rooms.next()] {
            visit(FAMILY, Changing::Apply { store: bytes, batch: batch_bytes, room })?;
        }
        for knowledge in [&store.knowledge, &batch.needed, &batch.learned, &Knowledge::a(), &Knowledge::late_start()] {
            let relaid = pairs::relaid(random, knowledge).bytes();
            for knowledge in [&knowledge.bytes(), &relaid] {
                for [first_item, last_item] in [ALL, [batch.first, batch.last], [*random.choose(&items), LAST_ITEM]] {
                    let (first_item, last_item, room) = (&first_item, &last_item, rooms.next());
                    visit(FAMILY, Changing::Make { store: bytes, knowledge, first_item, last_item, room })?;
                }
            }
        }
    }
    Ok(())
}

/// `count` random calls, on a store and a batch that are related or at the limits, intact or not.
pub fn random(seed: u64, count: usize, visit: &mut Visit) -> Result<(), String> {
    const CALLS_OF_A_PAIR: usize = 20;
    let random = &mut SplitMix64::new(seed);
    let faults = faulty(&Knowledge::filled(2, 3, 3));
    let (mut store, mut batch) = (Store::new([1; 16]), Batch::whole(&Store::new([1; 16])));
    let (mut whole_store, mut whole_batch) = (store.write(), batch.write());
    for k in 0..count {
        if k % CALLS_OF_A_PAIR == 0 {
            (store, batch) = pair(random);
            (whole_store, whole_batch) = (store.write(), batch.write());
        }
        let (mut store_bytes, mut batch_bytes) = (whole_store.bytes.clone(), whole_batch.bytes.clone());
        let mut item = item(random, &store, &batch).to_vec();
        let (mut knowledge, [mut first, mut last]) = given(random, &store, &batch);
        let mut tag = TAG.to_vec();
        let family = match random.below(16) {
            0 | 1 => {
                damage(random, &whole_store, &mut store_bytes);
                "random, the store damaged"
            }
            2 | 3 => {
                damage(random, &whole_batch, &mut batch_bytes);
                knowledge.clone_from(random.choose(&faults));
                "random, the batch or the knowledge damaged"
            }
            4 => {
                let id = match random.below(4) {
                    0 => &mut first,
                    1 => &mut last,
                    2 => &mut tag,
                    _ => &mut item,
                };
                id.resize(random.between(0, 40), 0);
                "random, an id damaged"
            }
            5 => {
                damage(random, &whole_store, &mut store_bytes);
                damage(random, &whole_batch, &mut batch_bytes);
                disturb(random, &mut knowledge);
                item.resize(random.between(22, 26), 0);
                "random, all damaged"
            }
            _ => "random, intact",
        };
        let room = crate::writing::room(random);
        let (store, batch) = (&store_bytes[..], &batch_bytes[..]);
        let call = match k % 9 {
            0 | 1 => Changing::Edit { store, item: &item, tag: &tag, room },
            2 => Changing::Delete { store, item: &item, room },
            3 if random.once_in(9) => Changing::New { own: &item[..item.len().min(16)], room },
            3..=5 => Changing::Make { store, knowledge: &knowledge, first_item: &first, last_item: &last, room },
            _ => Changing::Apply { store, batch, room },
        };
        visit(family, call)?;
    }
    Ok(())
}

fn pair(random: &mut SplitMix64) -> (Store, Batch) {
    if random.once_in(12) {
        return full::pair(random);
    }
    let store = Store::random(random);
    let batch = Batch::random(random, &store);
    (store, batch)
}

/// A knowledge without fault, normal or not, and a span, seldom one that is not in order.
fn given(random: &mut SplitMix64, store: &Store, batch: &Batch) -> (Vec<u8>, [Vec<u8>; 2]) {
    let mut knowledge = match random.below(6) {
        0 => Knowledge::random(random),
        1 => batch.learned.clone(),
        2 => batch.needed.clone(),
        3 => Knowledge::late_start(),
        _ => pairs::relaid(random, &store.knowledge),
    };
    if random.once_in(2) {
        pairs::lower(random, &mut knowledge);
    }
    let mut ends = [(); 2].map(|()| item_near(random, &store.knowledge));
    if !random.once_in(12) {
        ends.sort();
    }
    let ends = if random.once_in(3) { ALL } else { ends };
    (knowledge.bytes(), ends.map(|item| item.to_vec()))
}
