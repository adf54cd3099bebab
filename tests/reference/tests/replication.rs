//! The calls on stores and batches against their slow and plain meaning over values.

use std::collections::BTreeMap;

use inputs::{Batch, ItemId, Knowledge, SplitMix64, Store};
use reference::{Winner, apply, coverage, delete, edit, knowledge, learned, make, winner};

const ROUNDS: usize = 8_000;

/// How often each number was given by each call, 0 for acceptance.
type Counts = BTreeMap<&'static str, BTreeMap<u32, usize>>;

/// Calls with a buffer: the bytes come to the front where there is room, and else no byte changes.
fn compare(
    counts: &mut Counts,
    call: &'static str,
    right: Result<Vec<u8>, u32>,
    random: &mut SplitMix64,
    write: impl Fn(&mut [u8]) -> Result<usize, u32>,
) {
    let length = right.as_ref().map_or(500, Vec::len);
    let room = match random.below(8) {
        0 => random.below(length),
        1 => length - 1,
        2 => length + random.below(99),
        _ => length,
    };
    let mut out = vec![0xa5; room];
    let answer = write(&mut out);
    let right = right.and_then(|bytes| if bytes.len() <= room { Ok(bytes) } else { Err(14) });
    assert_eq!(answer, right.as_ref().map(Vec::len).map_err(|number| *number), "{call}");
    let bytes = right.as_deref().unwrap_or(&[]);
    assert!(out.starts_with(bytes), "{call}");
    assert!(out[bytes.len()..].iter().all(|byte| *byte == 0xa5), "{call}");
    *counts.entry(call).or_default().entry(right.err().unwrap_or(0)).or_default() += 1;
}

/// An item of the store or the batch, or another one.
fn item(random: &mut SplitMix64, store: &Store, batch: &Batch) -> ItemId {
    let records = if random.once_in(2) { &store.records } else { &batch.records };
    match records.len() {
        0 => random.bytes(),
        n if random.once_in(6) => {
            let mut item = records[random.below(n)].item;
            item[random.below(24)] ^= 1;
            item
        }
        n => records[random.below(n)].item,
    }
}

/// Compares every call on a store and a batch.
fn round(counts: &mut Counts, random: &mut SplitMix64, store: &Store, batch: &Batch) {
    let (bytes, batch_bytes) = (&store.bytes(), &batch.bytes());
    let item = item(random, store, batch);
    let tag = random.bytes();
    let edited = store.edited(&item, &tag).map(|store| store.bytes());
    compare(counts, "edit", edited, random, |out| edit(bytes, &item, &tag, out));
    let deleted = store.deleted(&item).map(|store| store.bytes());
    compare(counts, "delete", deleted, random, |out| delete(bytes, &item, out));
    let applied = store.applied(batch).map(|store| store.bytes());
    compare(counts, "apply", applied, random, |out| apply(bytes, batch_bytes, out));
    let given = match random.below(8) {
        0 => Knowledge::late_start(),
        1..=3 => Knowledge::random(random),
        _ => batch.needed.clone(),
    };
    let made = store.made(&given, &batch.first, &batch.last).map(|batch| batch.bytes());
    compare(counts, "make", made, random, |out| make(bytes, &given.bytes(), &batch.first, &batch.last, out));

    let place = |start: usize, record: usize| start + 89 * record..start + 89 * record + 89;
    let in_store = 25 + store.knowledge.bytes().len();
    let learned_at = 61 + batch.needed.bytes().len();
    let in_batch = learned_at + batch.learned.bytes().len();
    let right = match store.winner(batch, &item) {
        (0, _) => Winner::Neither,
        (1, record) => Winner::Store(place(in_store, record)),
        (_, record) => Winner::Batch(place(in_batch, record)),
    };
    assert_eq!(winner(bytes, batch_bytes, &item), Ok(right));
    assert_eq!(learned(batch_bytes), Ok(learned_at..in_batch));
    assert_eq!(knowledge(bytes), Ok(25..in_store));
    let covered = coverage(bytes, &given.bytes()).unwrap();
    assert_eq!([covered.contained, covered.all, covered.thousandths], store.coverage(&given));
}

#[test]
fn as_slowly() {
    let mut counts = Counts::new();
    let random = &mut SplitMix64::new(79);
    for (store, batch) in inputs::batch_shapes() {
        for _ in 0..8 {
            round(&mut counts, random, &store, &batch);
        }
    }
    for _ in 0..ROUNDS {
        let store = Store::random(random);
        let batch = Batch::random(random, &store);
        round(&mut counts, random, &store, &batch);
    }
    for (call, numbers) in [
        ("edit", &[0, 11, 13, 14, 20][..]),
        ("delete", &[0, 11, 14, 19, 20]),
        ("make", &[0, 12, 14]),
        ("apply", &[0, 11, 12, 13, 14, 18]),
    ] {
        assert_eq!(counts[call].keys().copied().collect::<Vec<_>>(), numbers, "{call}: {counts:?}");
    }
}

/// Changes one to three bytes, mostly by little.
fn damaged(random: &mut SplitMix64, bytes: &[u8]) -> Vec<u8> {
    let mut bytes = bytes.to_vec();
    for _ in 0..random.between(1, 3) {
        let place = random.below(bytes.len());
        match random.below(8) {
            0 => bytes[place] = random.byte(),
            1 => bytes.truncate(place),
            2 => bytes.insert(place, 0),
            3 => bytes[place] = bytes[place].wrapping_sub(1),
            _ => bytes[place] ^= 1 << random.below(8),
        }
        if bytes.is_empty() {
            break;
        }
    }
    bytes
}

#[test]
fn validity_as_slowly() {
    let random = &mut SplitMix64::new(80);
    let mut valid = [0; 2];
    for _ in 0..ROUNDS {
        let store = Store::random(random);
        let batch = Batch::random(random, &store);
        for _ in 0..4 {
            let bytes = damaged(random, &store.bytes());
            let opened = Store::opened(&bytes);
            assert_eq!(knowledge(&bytes).err(), if opened.is_some() { None } else { Some(15) });
            let bytes = damaged(random, &batch.bytes());
            let other = Batch::opened(&bytes);
            assert_eq!(learned(&bytes).err(), if other.is_some() { None } else { Some(16) });
            valid[0] += usize::from(opened.is_some());
            valid[1] += usize::from(other.is_some());
        }
    }
    assert!(valid.iter().all(|count| (1000..ROUNDS * 3).contains(count)), "{valid:?}");
}
