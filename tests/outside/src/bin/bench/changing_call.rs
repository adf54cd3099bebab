//! A call that writes a store or a batch with its arguments and the length of its buffer, and measuring it.

use std::hint::black_box;

use outside::engine;

use crate::measure::Times;
use crate::row::writing;

#[derive(Clone, PartialEq)]
pub enum ChangingCall {
    New { own: Vec<u8>, room: usize },
    Edit { store: Vec<u8>, item: Vec<u8>, tag: Vec<u8>, room: usize },
    Delete { store: Vec<u8>, item: Vec<u8>, room: usize },
    Make { store: Vec<u8>, knowledge: Vec<u8>, first_item: Vec<u8>, last_item: Vec<u8>, room: usize },
    Apply { store: Vec<u8>, batch: Vec<u8>, room: usize },
}

impl ChangingCall {
    /// Measures one round more. The compiler does not know the arguments. Both sides must give the number.
    pub fn measure(&self, name: &str, number: u32, times: &mut Times) {
        match self {
            Self::New { own, room } => writing(
                name,
                number,
                *room,
                times,
                |out, written| engine::new(black_box(own), out, written),
                |out| reference::new(black_box(own), out),
            ),
            Self::Edit { store, item, tag, room } => writing(
                name,
                number,
                *room,
                times,
                |out, written| engine::edit(black_box(store), black_box(item), black_box(tag), out, written),
                |out| reference::edit(black_box(store), black_box(item), black_box(tag), out),
            ),
            Self::Delete { store, item, room } => writing(
                name,
                number,
                *room,
                times,
                |out, written| engine::delete(black_box(store), black_box(item), out, written),
                |out| reference::delete(black_box(store), black_box(item), out),
            ),
            Self::Make { store, knowledge, first_item, last_item, room } => {
                let arguments = || {
                    (
                        black_box(&store[..]),
                        black_box(&knowledge[..]),
                        black_box(&first_item[..]),
                        black_box(&last_item[..]),
                    )
                };
                writing(
                    name,
                    number,
                    *room,
                    times,
                    |out, written| {
                        let (store, knowledge, first, last) = arguments();
                        engine::make(store, knowledge, first, last, out, written)
                    },
                    |out| {
                        let (store, knowledge, first, last) = arguments();
                        reference::make(store, knowledge, first, last, out)
                    },
                );
            }
            Self::Apply { store, batch, room } => writing(
                name,
                number,
                *room,
                times,
                |out, written| engine::apply(black_box(store), black_box(batch), out, written),
                |out| reference::apply(black_box(store), black_box(batch), out),
            ),
        }
    }

    /// How many bytes the store and what is given with it have together.
    pub fn bytes(&self) -> usize {
        match self {
            Self::New { own, .. } => own.len(),
            Self::Edit { store, .. } | Self::Delete { store, .. } => store.len(),
            Self::Make { store, knowledge, .. } => store.len() + knowledge.len(),
            Self::Apply { store, batch, .. } => store.len() + batch.len(),
        }
    }
}
