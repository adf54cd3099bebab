//! Stores and batches whose rules are looked at one by one, so that an engine can be made that leaves one out.

use inputs::{Batch, Knowledge, Record, Store};

/// A rule of validity, and whether it holds.
pub type Rule = (&'static str, bool);

/// The rules of a store that do not follow from others.
pub const STORE_RULES: [&str; 11] = [
    "kind",
    "length",
    "count",
    "record kinds",
    "tombstone tags",
    "rising",
    "create at most change",
    "normal form",
    "change contained",
    "create contained",
    "own tick alike",
];

/// The rules of a batch that do not follow from others.
pub const BATCH_RULES: [&str; 14] = [
    "kind",
    "length",
    "count",
    "record kinds",
    "tombstone tags",
    "rising",
    "create at most change",
    "span",
    "needed in normal form",
    "learned in normal form",
    "learned inside",
    "change contained",
    "create contained",
    "change not needed",
];

/// A number of four bytes at a place.
fn number(bytes: &[u8], at: usize) -> usize {
    u32::from_be_bytes(bytes[at..at + 4].try_into().expect("four bytes")) as usize
}

/// What bytes say that have the parts of a store, and which rules hold.
pub fn store(bytes: &[u8]) -> Option<(Store, Vec<Rule>)> {
    let header = bytes.get(..Store::HEADER)?;
    let (length, count) = (number(header, 17), number(header, 21));
    let (knowledge, rest) = bytes[Store::HEADER..].split_at_checked(length)?;
    let (records, rest) = rest.split_at_checked(count.min(1 << 20) * Record::LENGTH)?;
    let normal = Knowledge::in_normal_form(knowledge).is_some();
    reference::check(knowledge).ok()?;
    let own = header[1..17].try_into().expect("16 bytes");
    let store = Store { own, knowledge: Knowledge::decoded(knowledge), records: decoded(records) };
    let mut rules = vec![("kind", header[0] == 3), ("length", rest.is_empty()), ("normal form", normal)];
    rules.extend(record_rules(&store.records, &store.knowledge));
    rules.push(("own tick alike", store.own_tick_is_alike()));
    Some((store, rules))
}

/// What bytes say that have the parts of a batch, and which rules hold.
pub fn batch(bytes: &[u8]) -> Option<(Batch, Vec<Rule>)> {
    let header = bytes.get(..Batch::HEADER)?;
    let (needed, rest) = bytes[Batch::HEADER..].split_at_checked(number(header, 49))?;
    let (learned, rest) = rest.split_at_checked(number(header, 53))?;
    let (records, rest) = rest.split_at_checked(number(header, 57).min(1 << 20) * Record::LENGTH)?;
    let [needed_normal, learned_normal] = [needed, learned].map(|bytes| Knowledge::in_normal_form(bytes).is_some());
    reference::check(needed).and(reference::check(learned)).ok()?;
    let [needed, learned] = [needed, learned].map(Knowledge::decoded);
    let (first, last) = (header[1..25].try_into().expect("24 bytes"), header[25..49].try_into().expect("24 bytes"));
    let batch = Batch { first, last, needed, learned, records: decoded(records) };
    let mut rules = vec![
        ("kind", header[0] == 4),
        ("length", rest.is_empty()),
        ("span", first <= last),
        ("needed in normal form", needed_normal),
        ("learned in normal form", learned_normal),
        ("learned inside", is_inside(&batch)),
    ];
    rules.extend(record_rules(&batch.records, &batch.learned));
    let needs = |record: &Record| batch.needed.contains(&record.item, &record.change.0, record.change.1);
    rules.push(("change not needed", !batch.records.iter().any(needs)));
    Some((batch, rules))
}

/// Whether the learned knowledge has the same ticks after projecting it; a span that is not in order has no ids.
fn is_inside(batch: &Batch) -> bool {
    let inside = match batch.first <= batch.last {
        true => batch.learned.projected(&batch.first, &batch.last),
        false => Knowledge::smallest(),
    };
    inside == batch.learned.normalised()
}

fn decoded(records: &[u8]) -> Vec<Record> {
    records.chunks(Record::LENGTH).map(Record::decoded).collect()
}

fn record_rules(records: &[Record], knowledge: &Knowledge) -> Vec<Rule> {
    let all = |holds: &dyn Fn(&Record) -> bool| records.iter().all(holds);
    vec![
        ("count", records.len() <= 256),
        ("record kinds", all(&|record| [1, 2].contains(&record.kind))),
        ("tombstone tags", all(&|record| record.kind != 2 || record.tag == [0; 16])),
        ("rising", records.is_sorted_by(|before, behind| before.item < behind.item)),
        ("create at most change", all(&|record| record.create.1 <= record.change.1)),
        ("change contained", all(&|record| knowledge.contains(&record.item, &record.change.0, record.change.1))),
        ("create contained", all(&|record| knowledge.contains(&record.item, &record.create.0, record.create.1))),
    ]
}

/// Whether all rules hold but perhaps one.
pub fn hold(rules: &[Rule], but: Option<&str>) -> bool {
    rules.iter().all(|(name, holds)| *holds || but == Some(name))
}
