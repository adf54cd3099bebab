//! How the cost of a call that accepts grows with one count while the others stay at the middle size.

use inputs::{ALL, Batch, FIRST_ITEM, Knowledge, LONGEST, Store, backwards};

use crate::changing_call::ChangingCall;
use crate::measure::TURNS;
use crate::reading_call::ReadingCall;
use crate::row::{Asked, Row};
use crate::stores;

/// Fewer than those of the other tables, as there are many inputs.
const ROUNDS: usize = 2;

const NOTES: &str = "\
Knowledges are in normal form or, where it says so, backwards. Merge gets the same knowledge twice, project all ids; coverage gets the store's own
knowledge. Records are spread evenly over the ranges. Winner is asked for the last item, and edit changes the middle one; without records neither is
there. Make takes all ids, for nothing or for the own knowledge backwards. Apply gets a batch of the store's size; from 4 records on a quarter to a
half of its records win. With 1 replica, that one is not the store's own, which has the same tick in all ranges; so edit adds the own one.";

#[derive(Clone, Copy)]
struct Size {
    replicas: usize,
    ranges: usize,
    records: usize,
}

const MIDDLE: Size = Size { replicas: 4, ranges: 8, records: 32 };

/// A table: the count that grows, its values, and the rows of each.
struct Table {
    count: &'static str,
    values: &'static [usize],
    rows: fn(usize) -> Vec<Row>,
}

const TABLES: [Table; 3] = [
    Table { count: "Replicas", values: &[1, 2, 4, 8, 16], rows: |replicas| all(Size { replicas, ..MIDDLE }) },
    Table { count: "Ranges", values: &[1, 2, 4, 8, 16, 32, 64], rows: |ranges| all(Size { ranges, ..MIDDLE }) },
    Table { count: "Records", values: &[0, 1, 4, 16, 64, 256], rows: |records| on_store(Size { records, ..MIDDLE }) },
];

/// Measures and gives a table for each count.
pub fn measured() -> String {
    let Size { replicas, ranges, records } = MIDDLE;
    let mut text = format!(
        "\nHow cost grows with one count where the others are {replicas} replicas, {ranges} ranges, {records} records\n\n\
         {} turns of each side on each input; engine / Rust in ns per call.\n{NOTES}\n",
        ROUNDS * TURNS
    );
    text.extend(TABLES.iter().map(Table::measured));
    text
}

impl Table {
    fn measured(&self) -> String {
        let mut columns: Vec<Vec<Row>> = self.values.iter().map(|value| (self.rows)(*value)).collect();
        for _ in 0..ROUNDS {
            columns.iter_mut().flatten().for_each(Row::measure);
        }
        let values: Vec<String> = self.values.iter().map(usize::to_string).collect();
        let mut text =
            format!("\n| {} | {} |\n|---|{}\n", self.count, values.join(" | "), "---:|".repeat(values.len()));
        for (place, Row { name, .. }) in columns[0].iter().enumerate() {
            let cell = |column: &Vec<Row>| {
                let [engine, rust] = column[place].times.both();
                format!("{engine:.0} / {rust:.0}")
            };
            text += &format!("| {name} | {} |\n", columns.iter().map(cell).collect::<Vec<_>>().join(" | "));
        }
        text
    }
}

fn all(size: Size) -> Vec<Row> {
    let mut rows = on_knowledge(size);
    rows.extend(on_store(size));
    rows
}

fn on_knowledge(size: Size) -> Vec<Row> {
    let knowledge = Knowledge::filled(size.replicas, size.ranges + 1, size.ranges);
    let (whole, backward) = (&knowledge.bytes(), &backwards(&knowledge).bytes());
    let normalise = |knowledge: &[u8]| Asked::Normalise { knowledge: knowledge.to_vec(), room: LONGEST };
    let merge = |second: &[u8]| Asked::Merge { first: whole.clone(), second: second.to_vec(), room: LONGEST };
    let [first_item, last_item] = ALL.map(Vec::from);
    vec![
        Row::new("normalise", 0, normalise(whole)),
        Row::new("normalise, backwards", 0, normalise(backward)),
        Row::new("merge", 0, merge(whole)),
        Row::new("merge, the second backwards", 0, merge(backward)),
        Row::new("project", 0, Asked::Project { knowledge: whole.clone(), first_item, last_item, room: LONGEST }),
    ]
}

fn on_store(size: Size) -> Vec<Row> {
    let mut rows = reading(size);
    rows.extend(changing(size));
    rows
}

fn reading(size: Size) -> Vec<Row> {
    let spread = spread(size);
    let store = || spread.bytes();
    let coverage = |knowledge: &Knowledge| ReadingCall::Coverage { store: store(), knowledge: knowledge.bytes() };
    let batch = stores::batch(&spread).bytes();
    let item = item(&spread, size.records.saturating_sub(1));
    let row = |name, call| Row::new(name, 0, Asked::Reading(call));
    vec![
        row("knowledge", ReadingCall::Knowledge { store: store() }),
        row("winner", ReadingCall::Winner { store: store(), batch, item }),
        row("coverage", coverage(&spread.knowledge)),
        row("coverage, backwards", coverage(&backwards(&spread.knowledge))),
    ]
}

fn changing(size: Size) -> Vec<Row> {
    let room = Batch::LONGEST;
    let spread = spread(size);
    let store = || spread.bytes();
    let make = |knowledge: &Knowledge| {
        let [first_item, last_item] = ALL.map(Vec::from);
        ChangingCall::Make { store: store(), knowledge: knowledge.bytes(), first_item, last_item, room }
    };
    let batch = stores::batch(&spread).bytes();
    let item = item(&spread, size.records / 2);
    let row = |name, call| Row::new(name, 0, Asked::Changing(call));
    vec![
        row("edit", ChangingCall::Edit { store: store(), item, tag: vec![7; 16], room }),
        row("make", make(&Knowledge::smallest())),
        row("make, backwards", make(&backwards(&spread.knowledge))),
        row("apply", ChangingCall::Apply { store: store(), batch, room }),
    ]
}

fn spread(size: Size) -> Store {
    Store::spread(size.replicas, size.ranges, size.records)
}

/// The item of the record at a place; without records, one that the store has not.
fn item(store: &Store, place: usize) -> Vec<u8> {
    store.records.get(place).map_or(FIRST_ITEM, |record| record.item).to_vec()
}
