//! Compare of the engine against that of the reference and, on the same pair, against the engine's own cover over all ids, both ways.

use std::hint::black_box;

use inputs::{FIRST_ITEM, ItemId, Knowledge, LARGEST_COMPARISON, LAST_ITEM, replica_id};
use outside::engine;

use crate::measure::{ROUNDS, Times};
use crate::sample::{self, Sample};

struct Row {
    name: &'static str,
    /// The number that is given, 0 for acceptance.
    number: u32,
    first: Vec<u8>,
    second: Vec<u8>,
    room: usize,
    times: Times,
    /// Those of cover: does the first cover the second, and the other way round.
    covers: Times,
}

/// Measures all sizes and gives the table.
pub fn measured() -> String {
    let mut sizes = sample::each(rows);
    for _ in 0..ROUNDS {
        sizes.iter_mut().flat_map(|(_, rows)| rows).for_each(Row::measure);
    }
    let mut text = format!(
        "\n`compare`\n\n\
         | Knowledge | Input | Bytes | Number | Engine | Rust | Engine / Rust | {ROUNDS} rounds, least to most | Goal \
         | Cover | Cover, other way | Compare / longer cover | Goal |\n\
         |---|---|---:|---:|---:|---:|---:|---:|---:|---:|---:|---:|---:|\n"
    );
    for (size, rows) in &sizes {
        text.extend(rows.iter().map(|row| row.line(size)));
    }
    text
}

fn rows(sample: &Sample) -> Vec<Row> {
    let row = |name, number, first: &[u8], second: &[u8]| Row::new(name, number, first, second, LARGEST_COMPARISON);
    let mut knowledge = sample.knowledge.clone();
    if let [_, .., (bound, _)] = &mut knowledge.ranges[..] {
        *bound = LAST_ITEM;
    }
    let whole = &knowledge.bytes()[..];
    let at_the_first = &with_more(&knowledge, &FIRST_ITEM).bytes()[..];
    let at_the_last = &with_more(&knowledge, &LAST_ITEM).bytes()[..];
    vec![
        row("alike, the same bytes", 0, whole, whole),
        row("alike, the second's replicas reordered", 0, &sample.whole, &sample.reordered().bytes()),
        row("behind, at the first item only", 0, whole, at_the_first),
        row("behind, at the last item only", 0, whole, at_the_last),
        row("first: last index too high", 9, &sample.index_too_high, &sample.whole),
        row("second: cut by one byte", 1, &sample.whole, &sample.cut),
        Row::new("buffer one byte too short", 14, whole, at_the_last, 55),
    ]
}

/// The same with one tick more of the last replica at one item; the smallest gets a replica for it.
fn with_more(knowledge: &Knowledge, item: &ItemId) -> Knowledge {
    let replica = knowledge.replicas.last().copied().unwrap_or(replica_id(1));
    let tick = knowledge.known(item, &replica) + 1;
    let everywhere = Knowledge {
        replicas: vec![replica],
        vectors: vec![Vec::new(), vec![(0, tick)]],
        ranges: vec![(FIRST_ITEM, 1)],
    };
    knowledge.merged(&everywhere.projected(item, item))
}

/// Measures one round more of a compare. The compiler does not know the arguments. Each side has a buffer of its own.
pub fn measure(name: &str, number: u32, [first, second]: [&[u8]; 2], room: usize, times: &mut Times) {
    let (mut out, mut rust_out) = (vec![0; room], vec![0; room]);
    let (mut order, mut written) = (0, 0);
    let given = engine::compare(first, second, &mut order, &mut out, &mut written);
    let answer = reference::compare(first, second, &mut rust_out);
    assert_eq!((given, answer.err().unwrap_or(0)), (number, number), "{name}");
    assert_eq!(answer.unwrap_or((0, 0)), (order, written as usize), "{name}");
    assert_eq!(out, rust_out, "{name}");
    times.measure(
        || {
            let (first, second) = (black_box(first), black_box(second));
            black_box(engine::compare(first, second, &mut order, black_box(&mut out), &mut written));
        },
        || {
            let (first, second) = (black_box(first), black_box(second));
            black_box(&reference::compare(first, second, black_box(&mut rust_out)));
        },
    );
}

impl Row {
    fn new(name: &'static str, number: u32, first: &[u8], second: &[u8], room: usize) -> Self {
        let [first, second] = [first, second].map(<[u8]>::to_vec);
        Self { name, number, first, second, room, times: Times::default(), covers: Times::default() }
    }

    /// Measures one round more.
    fn measure(&mut self) {
        let (first, second) = (&self.first[..], &self.second[..]);
        measure(self.name, self.number, [first, second], self.room, &mut self.times);
        if self.number == 0 {
            let [mut covers, mut other] = [0; 2];
            let cover = |first, second, covers: &mut u32| {
                let (first, second) = (black_box(first), black_box(second));
                let (first_item, last_item) = (black_box(&FIRST_ITEM), black_box(&LAST_ITEM));
                black_box(engine::cover(first, second, first_item, last_item, covers));
            };
            self.covers.measure(|| cover(first, second, &mut covers), || cover(second, first, &mut other));
        }
    }

    /// A line of the table.
    fn line(&self, size: &str) -> String {
        let bytes = self.first.len() + self.second.len();
        let Self { name, number, times, .. } = self;
        let line = format!("| {size} | {name} | {bytes} | {number} | {} | 1.0 |", times.cells());
        if self.number != 0 {
            return line + " | | | |\n";
        }
        let [cover, other] = self.covers.both();
        line + &format!(" {cover:.1} | {other:.1} | {:.2} | 2 |\n", times.both()[0] / cover.max(other))
    }
}
