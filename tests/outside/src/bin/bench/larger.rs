//! Merge at full size by which of the two ticks at a place is the larger: always the first knowledge's, always the second's, or either at
//! random. The two ticks of a place are the same in all three, so only the outcomes of comparing them differ. Each row merges many
//! pairs in turn, so that the processor cannot learn the outcomes.

use std::hint::black_box;

use inputs::{LONGEST, SplitMix64, drawn_pair};
use outside::engine;

use crate::measure::{ROUNDS, Times};

/// How many pairs of knowledges a row merges in turn: 32,768 comparisons.
const PAIRS: usize = 32;

struct Row {
    name: &'static str,
    pairs: Vec<[Vec<u8>; 2]>,
    times: Times,
}

/// Measures the three rows and gives the table.
pub fn measured() -> String {
    let mut rows = [
        Row::new("always the first's", |_| true),
        Row::new("always the second's", |_| false),
        Row::new("either, at random", |random| random.once_in(2)),
    ];
    for _ in 0..ROUNDS {
        rows.iter_mut().for_each(Row::measure);
    }
    let mut text = format!(
        "\nMerge at full size by which tick is the larger, {PAIRS} pairs of knowledges in turn\n\n\
         | Larger | Bytes | Engine | Rust | Engine / Rust | {ROUNDS} rounds, least to most |\n\
         |---|---:|---:|---:|---:|---:|\n"
    );
    text.extend(rows.iter().map(Row::line));
    text
}

impl Row {
    /// Draws the same ticks for every row; the choice says whether the first knowledge gets the larger one.
    fn new(name: &'static str, first_is_larger: fn(&mut SplitMix64) -> bool) -> Self {
        let (ticks, choices) = (&mut SplitMix64::new(1), &mut SplitMix64::new(2));
        let mut draw = || {
            let drawn = [(); 2].map(|()| ticks.next_u64() >> 1);
            let [smaller, larger] = if drawn[0] < drawn[1] { drawn } else { [drawn[1], drawn[0]] };
            if first_is_larger(choices) { [larger, smaller] } else { [smaller, larger] }
        };
        let pairs = (0..PAIRS).map(|_| drawn_pair((16, 64), &mut draw).map(|knowledge| knowledge.bytes()));
        Self { name, pairs: pairs.collect(), times: Times::default() }
    }

    /// Measures one round more. The compiler does not know the arguments. Each side has a buffer of its own.
    fn measure(&mut self) {
        let Self { pairs, times, .. } = self;
        let (mut out, mut rust_out) = (vec![0; LONGEST], vec![0; LONGEST]);
        let mut written = 0;
        for [first, second] in &*pairs {
            assert_eq!(engine::merge(first, second, &mut out, &mut written), 0);
            assert_eq!(reference::merge(first, second, &mut rust_out), Ok(written as usize));
            assert_eq!(out, rust_out);
        }
        let mut turn = pairs.iter().cycle();
        let mut rust_turn = pairs.iter().cycle();
        times.measure(
            || {
                let [first, second] = turn.next().expect("it goes round");
                black_box(engine::merge(black_box(first), black_box(second), black_box(&mut out), &mut written));
            },
            || {
                let [first, second] = rust_turn.next().expect("it goes round");
                black_box(&reference::merge(black_box(first), black_box(second), black_box(&mut rust_out)));
            },
        );
    }

    /// A line of the table.
    fn line(&self) -> String {
        let bytes = self.pairs[0].iter().map(Vec::len).sum::<usize>();
        format!("| {} | {bytes} | {} |\n", self.name, self.times.cells())
    }
}
