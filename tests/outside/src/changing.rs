//! Comparing the calls that write a store or a batch with those of the reference.

use inputs::{Batch, CallInput, Changing, Changings, Plan};

use crate::row::{self, Compare, Compared, Show, Shown};
use crate::tally::{Ends, Outcome, Tally};
use crate::writing::{WRITTEN, written};

/// An engine's calls that write a store or a batch. Each gives 0, writes the result to the front of the buffer and sets the length, or
/// gives the number of the refusal and leaves buffer and length alone.
pub trait Engine {
    fn new_store(&self, own: &[u8], out: &mut [u8], written: &mut u64) -> u32;
    fn edit(&self, store: &[u8], item: &[u8], tag: &[u8], out: &mut [u8], written: &mut u64) -> u32;
    fn delete(&self, store: &[u8], item: &[u8], out: &mut [u8], written: &mut u64) -> u32;
    fn make(&self, store: &[u8], knowledge: &[u8], span: [&[u8]; 2], out: &mut [u8], written: &mut u64) -> u32;
    fn apply(&self, store: &[u8], batch: &[u8], out: &mut [u8], written: &mut u64) -> u32;
}

const ENDS: [Ends; 5] = [
    Ends { call: "new", answers: &[WRITTEN], knowledges: 0, ids: true, others: &[14] },
    Ends { call: "edit", answers: &[WRITTEN], knowledges: 0, ids: true, others: &[11, 13, 14, 15, 20] },
    Ends { call: "delete", answers: &[WRITTEN], knowledges: 0, ids: true, others: &[11, 14, 15, 19, 20] },
    Ends { call: "make", answers: &[WRITTEN], knowledges: 1, ids: true, others: &[12, 14, 15] },
    Ends { call: "apply", answers: &[WRITTEN], knowledges: 0, ids: false, others: &[11, 12, 13, 14, 15, 16, 18] },
];

/// Compares the engine with the reference on all calls of the plan that write a store or a batch. The error says where they first differ,
/// or what never occurred.
pub fn run(plan: &Plan, engine: &impl Engine) -> Result<Tally, String> {
    row::run::<Changings, _>(plan, engine)
}

impl<E: Engine> Compare<E> for Changings {
    const ENDS: &'static [Ends] = &ENDS;
    const LONGEST: usize = Batch::LONGEST;

    fn compare(input: &CallInput<Changing>, engine: &E, longest: &mut [u8]) -> Compared {
        let mut first: &[u8] = &[];
        let (call, compared) = match input.call {
            Changing::New { own, room } => {
                let compared = written(
                    (input.place, room, longest),
                    [own],
                    |[own], out| reference::new(own, out),
                    |[own], out, written| engine.new_store(own, out, written),
                );
                ("new", compared)
            }
            Changing::Edit { store, item, tag, room } => {
                let compared = written(
                    (input.place, room, longest),
                    [store, item, tag],
                    |[store, item, tag], out| reference::edit(store, item, tag, out),
                    |[store, item, tag], out, written| engine.edit(store, item, tag, out, written),
                );
                ("edit", compared)
            }
            Changing::Delete { store, item, room } => {
                let compared = written(
                    (input.place, room, longest),
                    [store, item],
                    |[store, item], out| reference::delete(store, item, out),
                    |[store, item], out, written| engine.delete(store, item, out, written),
                );
                ("delete", compared)
            }
            Changing::Make { store, knowledge, first_item, last_item, room } => {
                first = knowledge;
                let compared = written(
                    (input.place, room, longest),
                    [store, knowledge, first_item, last_item],
                    |[store, knowledge, from, to], out| reference::make(store, knowledge, from, to, out),
                    |[store, knowledge, from, to], out, written| {
                        engine.make(store, knowledge, [from, to], out, written)
                    },
                );
                ("make", compared)
            }
            Changing::Apply { store, batch, room } => {
                let compared = written(
                    (input.place, room, longest),
                    [store, batch],
                    |[store, batch], out| reference::apply(store, batch, out),
                    |[store, batch], out, written| engine.apply(store, batch, out, written),
                );
                ("apply", compared)
            }
        };
        Ok((call, Outcome::of(compared?, first)))
    }
}

impl Show for Changings {
    fn show<'a>(call: &'a Changing<'_>) -> Shown<'a> {
        let (call, arguments, room) = match *call {
            Changing::New { own, room } => ("new", vec![own], room),
            Changing::Edit { store, item, tag, room } => ("edit", vec![store, item, tag], room),
            Changing::Delete { store, item, room } => ("delete", vec![store, item], room),
            Changing::Make { store, knowledge, first_item, last_item, room } => {
                ("make", vec![store, knowledge, first_item, last_item], room)
            }
            Changing::Apply { store, batch, room } => ("apply", vec![store, batch], room),
        };
        Shown { call, arguments, also: format!(", buffer {room:?}") }
    }
}

#[cfg(test)]
pub mod tests;
