//! A call that reads a store or a batch with its arguments, and measuring it.

use std::hint::black_box;

use outside::{engine, reading};

use crate::measure::Times;

#[derive(Clone, PartialEq)]
pub enum ReadingCall {
    Winner { store: Vec<u8>, batch: Vec<u8>, item: Vec<u8> },
    Learned { batch: Vec<u8> },
    Coverage { store: Vec<u8>, knowledge: Vec<u8> },
    Knowledge { store: Vec<u8> },
    Walk { table: Vec<u8>, at: u64 },
}

impl ReadingCall {
    /// Measures one round more. The compiler does not know the arguments. Both sides must give the number.
    pub fn measure(&self, name: &str, number: u32, times: &mut Times) {
        match self {
            Self::Winner { store, batch, item } => {
                let (store, batch, item) = (&store[..], &batch[..], &item[..]);
                let mut found = outside::reading::Found { side: 0, at: 0, length: 0 };
                let answer = reference::winner(store, batch, item).map(outside::reading::found);
                both(name, number, engine::winner(store, batch, item, &mut found), answer, found);
                times.measure(
                    || {
                        let (store, batch, item) = (black_box(store), black_box(batch), black_box(item));
                        black_box(engine::winner(store, batch, item, &mut found));
                    },
                    || {
                        let (store, batch, item) = (black_box(store), black_box(batch), black_box(item));
                        black_box(&reference::winner(store, batch, item));
                    },
                );
            }
            Self::Learned { batch } => {
                let mut part = [0; 2];
                let answer = reference::learned(batch).map(outside::reading::part);
                both(name, number, engine::learned(batch, &mut part), answer, part);
                times.measure(
                    || {
                        black_box(engine::learned(black_box(batch), &mut part));
                    },
                    || {
                        black_box(&reference::learned(black_box(batch)));
                    },
                );
            }
            Self::Coverage { store, knowledge } => {
                let (store, knowledge) = (&store[..], &knowledge[..]);
                let mut counts = [0; 3];
                let answer = reference::coverage(store, knowledge).map(reading::counts);
                both(name, number, engine::coverage(store, knowledge, &mut counts), answer, counts);
                times.measure(
                    || {
                        black_box(engine::coverage(black_box(store), black_box(knowledge), &mut counts));
                    },
                    || {
                        black_box(&reference::coverage(black_box(store), black_box(knowledge)));
                    },
                );
            }
            Self::Knowledge { store } => {
                let mut part = [0; 2];
                let answer = reference::knowledge(store).map(outside::reading::part);
                both(name, number, engine::knowledge(store, &mut part), answer, part);
                times.measure(
                    || {
                        black_box(engine::knowledge(black_box(store), &mut part));
                    },
                    || {
                        black_box(&reference::knowledge(black_box(store)));
                    },
                );
            }
            Self::Walk { table, at } => {
                let mut length = 0;
                let answer = Ok(reference::walk(table, *at));
                both(name, number, engine::walk(table, *at, &mut length), answer, length);
                times.measure(
                    || {
                        black_box(engine::walk(black_box(table), black_box(*at), &mut length));
                    },
                    || {
                        black_box(&reference::walk(black_box(table), black_box(*at)));
                    },
                );
            }
        }
    }

    /// How many bytes the store and what is given with it have together.
    pub fn bytes(&self) -> usize {
        match self {
            Self::Winner { store, batch, .. } => store.len() + batch.len(),
            Self::Learned { batch } => batch.len(),
            Self::Coverage { store, knowledge } => store.len() + knowledge.len(),
            Self::Knowledge { store } => store.len(),
            Self::Walk { table, .. } => table.len(),
        }
    }
}

/// Both sides give the number, and the same value where nothing is refused.
fn both<T: std::fmt::Debug + PartialEq>(name: &str, number: u32, engine: u32, rust: Result<T, u32>, value: T) {
    assert_eq!((engine, rust.as_ref().err().copied().unwrap_or(0)), (number, number), "{name}");
    assert!(rust.is_err() || rust == Ok(value), "{name}");
}
