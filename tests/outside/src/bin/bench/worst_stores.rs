//! The worst inputs of the calls on stores and batches.

use inputs::{
    ALL, Batch, ItemId, Knowledge, ReplicaId, Store, alike_but_for, backwards, first_replica_missing, hashes_alike,
    id_alike_at_both_ends, ids_alike_at_both_ends, item_id, merged_words_alike, replica_id, shuffled, used_twice,
    vectors_backwards, words_alike,
};

use crate::changing_call::ChangingCall;
use crate::reading_call::ReadingCall;
use crate::row::{Asked, Row};
use crate::stores::{batch, news};
use crate::worst::{Case, Line, Size};

/// A buffer that is never too short.
const LONG: usize = Batch::LONGEST;

pub fn lines() -> Vec<Line> {
    vec![
        Line::new("winner", "the last item", |size| on_each(size, winner)),
        Line::new("learned", "accepted", |size| {
            on_each(size, |store| Asked::Reading(ReadingCall::Learned { batch: batch(store).bytes() }))
        }),
        Line::new("coverage", "all contained", coverages),
        Line::new("knowledge", "accepted", |size| on_each(size, knowledge)),
        Line::new("knowledge", "each vector used twice, in order", used_backwards),
        Line::new("edit", "an item that is there", |size| on_each(size, edit)),
        Line::new("delete", "a live item", |size| on_each(size, delete)),
        Line::new("make", "all ids, for nothing", |size| on_each(size, |store| make(store, &Knowledge::smallest()))),
        Line::new("make", "all ids, for the same knowledge", makes),
        Line::new("apply", "every other record wins", |size| on_each(size, |store| apply(store, &batch(store)))),
        Line::new("apply", "news in all ranges", |size| {
            on_each(size, |store| apply(store, &news(store, raised(store), |_| true)))
        }),
        Line::of_the_largest("apply", "replicas too many", replicas_too_many),
    ]
}

fn winner(store: &Store) -> Asked {
    let item = store.records[store.records.len() - 1].item.to_vec();
    Asked::Reading(ReadingCall::Winner { store: store.bytes(), batch: batch(store).bytes(), item })
}

fn knowledge(store: &Store) -> Asked {
    Asked::Reading(ReadingCall::Knowledge { store: store.bytes() })
}

fn coverage(store: &Store, knowledge: &Knowledge) -> Asked {
    Asked::Reading(ReadingCall::Coverage { store: store.bytes(), knowledge: knowledge.bytes() })
}

fn edit(store: &Store) -> Asked {
    let item = store.records[store.records.len() / 2].item.to_vec();
    Asked::Changing(ChangingCall::Edit { store: store.bytes(), item, tag: vec![7; 16], room: LONG })
}

fn delete(store: &Store) -> Asked {
    let item = store.records[0].item.to_vec();
    Asked::Changing(ChangingCall::Delete { store: store.bytes(), item, room: LONG })
}

fn make(store: &Store, knowledge: &Knowledge) -> Asked {
    let [first_item, last_item] = ALL.map(Vec::from);
    let (store, knowledge) = (store.bytes(), knowledge.bytes());
    Asked::Changing(ChangingCall::Make { store, knowledge, first_item, last_item, room: LONG })
}

fn apply(store: &Store, batch: &Batch) -> Asked {
    Asked::Changing(ChangingCall::Apply { store: store.bytes(), batch: batch.bytes(), room: LONG })
}

fn typical(size: Size) -> Store {
    Store::filled(size.replicas, size.ranges, size.records)
}

/// A call on each store.
fn on_each(size: Size, ask: impl Fn(&Store) -> Asked) -> Case {
    let row = |(name, store): (_, Store)| {
        assert!(reference::knowledge(&store.bytes()).is_ok(), "{name}");
        assert!(reference::learned(&batch(&store).bytes()).is_ok(), "{name}");
        Row::new(name, 0, ask(&store))
    };
    Case::new(row(("typical", typical(size))), each(size).into_iter().map(row).collect())
}

fn each(size: Size) -> Vec<(&'static str, Store)> {
    let typical = &typical(size);
    let known = &typical.knowledge;
    let last = size.replicas - 1;
    let knowing = |own, knowledge| with_records(own, knowledge, typical);
    let alike = words_alike(known, last as u32 - 1);
    let missing = |knowledge: &Knowledge| of_the_last(&knowing(1, first_replica_missing(knowledge)));
    vec![
        ("all records of the last replica", of_the_last(typical)),
        ("ids alike at both ends", renamed(typical)),
        ("alike but for the first column", knowing(last, alike_but_for(known, 0))),
        ("alike but for the last column", knowing(0, alike_but_for(known, last as u32))),
        ("first replica mostly missing, all records of the last", missing(&alike_but_for(known, last as u32))),
        ("hashes of Rust alike", knowing(last, hashes_alike(known))),
        ("words alike, unlike in the first columns", knowing(last, words_alike(known, 0))),
        ("words alike, unlike in the last columns", knowing(0, alike.clone())),
        (
            "at once: words alike, first replica mostly missing, all records of the last, ids alike at both ends",
            renamed(&missing(&alike)),
        ),
    ]
}

/// A knowledge with records of a store's items. The own replica is given by its key, and is alike in all vectors.
fn with_records(own: usize, knowledge: Knowledge, store: &Store) -> Store {
    Store::knowing(knowledge.replicas[own], knowledge, store.records.iter().map(|record| record.item))
}

/// The same with all versions of the replica whose key is found last.
fn of_the_last(store: &Store) -> Store {
    let mut other = store.clone();
    let last = store.knowledge.replicas[store.knowledge.replicas.len() - 1];
    for record in &mut other.records {
        record.change = (last, store.knowledge.known(&record.item, &last));
        record.create = record.change;
    }
    other
}

/// The same with other replica ids.
fn renamed(store: &Store) -> Store {
    let mut other = store.clone();
    other.own = id_alike_at_both_ends(&store.own);
    other.knowledge = ids_alike_at_both_ends(&store.knowledge);
    for record in &mut other.records {
        for (replica, _) in [&mut record.change, &mut record.create] {
            *replica = id_alike_at_both_ends(replica);
        }
    }
    other
}

/// A replica, not the store's own, whose tick can be raised in all ranges without making unlike words of alike ones: it is
/// the same in all of them. Else the last one.
fn raised(store: &Store) -> ReplicaId {
    let known = &store.knowledge;
    let alike = |id: &&ReplicaId| {
        let tick = |item: &ItemId| known.known(item, id);
        **id != store.own && known.ranges.iter().all(|(bound, _)| tick(bound) == tick(&ALL[0]))
    };
    *known.replicas.iter().find(alike).unwrap_or(&known.replicas[known.replicas.len() - 1])
}

/// The stores with their own knowledge, and with other bytes of it.
fn coverages(size: Size) -> Case {
    let mut case = on_each(size, |store| coverage(store, &store.knowledge));
    let store = &typical(size);
    let known = &store.knowledge;
    let mut add = |name, store: &Store, knowledge: &Knowledge| case.add(Row::new(name, 0, coverage(store, knowledge)));
    add("the knowledge's vectors backwards", store, &vectors_backwards(known));
    add("the knowledge backwards", store, &backwards(known));
    add("the knowledge shuffled", store, &shuffled(known));
    add("all records of the last replica, the knowledge backwards", &of_the_last(store), &backwards(known));
    let alike = with_records(0, words_alike(known, size.replicas as u32 - 2), store);
    add("words alike, unlike in the last columns, the knowledge backwards", &alike, &backwards(&alike.knowledge));
    case
}

/// Stores whose vectors are used twice, in order or backwards. In normal form a vector that is used once comes in order.
fn used_backwards(size: Size) -> Case {
    let typical = &typical(size);
    let row = |name, backwards| {
        let mut knowledge = used_twice(size.replicas, size.ranges, backwards);
        knowledge.vectors.iter_mut().skip(1).for_each(|vector| vector[0].1 = typical.knowledge.vectors[1][0].1);
        knowledge.ranges.iter_mut().zip(&typical.knowledge.ranges).for_each(|(range, (bound, _))| range.0 = *bound);
        Row::new(name, 0, self::knowledge(&with_records(0, knowledge, typical)))
    };
    Case::new(row("in order", false), vec![row("backwards the second time", true)])
}

/// The stores with their own knowledge, and with other bytes.
fn makes(size: Size) -> Case {
    let mut case = on_each(size, |store| make(store, &store.knowledge));
    let store = &typical(size);
    let known = &store.knowledge;
    let mut add = |name, store: &Store, knowledge: &Knowledge| case.add(Row::new(name, 0, make(store, knowledge)));
    add("the knowledge backwards", store, &backwards(known));
    add("the knowledge shuffled", store, &shuffled(known));
    let last = size.replicas - 1;
    let backward = words_alike(&backwards(known), 0);
    let [in_first, in_last] =
        [(last, 0), (0, last as u32 - 1)].map(|(own, key)| with_records(own, words_alike(known, key), store));
    add("words alike in both, the store's unlike in the first columns, the knowledge backwards", &in_first, &backward);
    add("words alike in both, the store's unlike in the last columns, the knowledge backwards", &in_last, &backward);
    case
}

/// Batches that have no replica in common with the store, or two. If no bound is in common, there are nearly twice as
/// many rows.
fn replicas_too_many(size: Size) -> Case {
    let typical = &typical(size);
    let known = &typical.knowledge;
    let others = |knowledge: &Knowledge, common: usize, more: u128| {
        let mut other = knowledge.clone();
        other.replicas.iter_mut().zip(100..).skip(common).for_each(|(id, number)| *id = replica_id(number));
        other.ranges.iter_mut().zip(0..).skip(1).for_each(|((bound, _), number)| *bound = item_id(4 * number + more));
        Batch::whole(&with_records(0, other, typical))
    };
    let store = |knowledge: &Knowledge| with_records(size.replicas - 1, knowledge.clone(), typical);
    let alike = &words_alike(known, 0);
    let [first, second] = &merged_words_alike(known, 0);
    let row = |name, store: &Store, batch: Batch| Row::new(name, 11, apply(store, &batch));
    Case::new(
        row("replicas too many", typical, others(known, 0, 0)),
        vec![
            row("no bound in common", typical, others(known, 0, 2)),
            row("words alike", &store(alike), others(alike, 0, 0)),
            row("words alike, no bound in common", &store(alike), others(alike, 0, 2)),
            row("words alike, no bound and two replicas in common", &store(first), others(second, 2, 2)),
        ],
    )
}
