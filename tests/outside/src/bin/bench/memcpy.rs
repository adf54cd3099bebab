//! An apply of the engine against one copy of as many bytes as it reads and writes together.

use std::hint::black_box;

use inputs::Store;
use outside::engine;

use crate::measure::{ROUNDS, Times};
use crate::stores::{self, Sample};

/// How many copies an apply may take.
const GOAL: u32 = 7;

struct Row {
    store: Vec<u8>,
    batch: Vec<u8>,
    out: Vec<u8>,
    from: Vec<u8>,
    to: Vec<u8>,
    times: Times,
}

/// Measures the three sizes and gives the table.
pub fn measured() -> String {
    let mut sizes = stores::each(Row::new);
    for _ in 0..ROUNDS {
        sizes.iter_mut().for_each(|(_, row)| row.measure());
    }
    let mut text = format!(
        "\nApply in memcpys: the first input of `apply`, against one memcpy of the bytes read and written together\n\n\
         | Store | Bytes read | Bytes written | Apply | memcpy | Apply / memcpy | {ROUNDS} rounds, least to most | Goal |\n\
         |---|---:|---:|---:|---:|---:|---:|---:|\n"
    );
    text.extend(sizes.iter().map(|(size, row)| row.line(size)));
    text
}

impl Row {
    fn new(sample: &Sample) -> Self {
        let (store, batch) = (sample.whole.clone(), sample.whole_batch.clone());
        let mut out = vec![0; Store::LONGEST];
        let length = reference::apply(&store, &batch, &mut out).expect("it is accepted");
        out.truncate(length);
        let copied = store.len() + batch.len() + length;
        Self { store, batch, out, from: vec![1; copied], to: vec![0; copied], times: Times::default() }
    }

    /// Measures one round more. The compiler does not know the arguments, nor that nobody reads what is written.
    fn measure(&mut self) {
        let Self { store, batch, out, from, to, times } = self;
        let mut written = 0;
        let mut given = vec![0; out.len()];
        assert_eq!(engine::apply(store, batch, &mut given, &mut written), 0);
        assert_eq!((&given, written), (&*out, out.len() as u64));
        times.measure(
            || {
                black_box(engine::apply(black_box(store), black_box(batch), black_box(&mut given), &mut written));
            },
            || {
                black_box(&mut to[..]).copy_from_slice(black_box(&from[..]));
                black_box(&to);
            },
        );
    }

    /// A line of the table.
    fn line(&self, size: &str) -> String {
        let read = self.store.len() + self.batch.len();
        format!("| {size} | {read} | {} | {} | {GOAL} |\n", self.out.len(), self.times.cells())
    }
}
