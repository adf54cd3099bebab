//! Comparing normalise, merge and project of the engine with those of the reference.

use inputs::{CallInput, LONGEST, Plan, Room, Writing, Writings};

use crate::buffer;
use crate::row::{self, Compare, Compared, Show, Shown};
use crate::tally::{Ends, Outcome, Tally};

/// An engine's calls that write a knowledge. Each gives 0, writes the result to the front of the buffer and sets the length, or
/// gives the number of the refusal and leaves buffer and length alone.
pub trait Engine {
    fn normalise(&self, knowledge: &[u8], out: &mut [u8], written: &mut u64) -> u32;
    fn merge(&self, knowledges: [&[u8]; 2], out: &mut [u8], written: &mut u64) -> u32;
    fn project(&self, knowledge: &[u8], span: [&[u8]; 2], out: &mut [u8], written: &mut u64) -> u32;
}

pub const WRITTEN: &str = "written";

const ENDS: [Ends; 3] = [
    Ends { call: "normalise", answers: &[WRITTEN], knowledges: 1, ids: false, others: &[12, 14] },
    Ends { call: "merge", answers: &[WRITTEN], knowledges: 2, ids: false, others: &[11, 12, 14] },
    Ends { call: "project", answers: &[WRITTEN], knowledges: 1, ids: true, others: &[12, 14] },
];

/// Compares the engine with the reference on all calls of the plan that write. The error says where they first differ, or what
/// never occurred.
pub fn run(plan: &Plan, engine: &impl Engine) -> Result<Tally, String> {
    row::run::<Writings, _>(plan, engine)
}

impl<E: Engine> Compare<E> for Writings {
    const ENDS: &'static [Ends] = &ENDS;
    const LONGEST: usize = LONGEST;

    fn compare(input: &CallInput<Writing>, engine: &E, longest: &mut [u8]) -> Compared {
        let (call, first, compared) = match input.call {
            Writing::Normalise { knowledge, room } => {
                let compared = written(
                    (input.place, room, longest),
                    [knowledge],
                    |[knowledge], out| reference::normalise(knowledge, out),
                    |[knowledge], out, written| engine.normalise(knowledge, out, written),
                );
                ("normalise", knowledge, compared)
            }
            Writing::Merge { first, second, room } => {
                let compared = written(
                    (input.place, room, longest),
                    [first, second],
                    |[first, second], out| reference::merge(first, second, out),
                    |knowledges, out, written| engine.merge(knowledges, out, written),
                );
                ("merge", first, compared)
            }
            Writing::Project { knowledge, first_item, last_item, room } => {
                let compared = written(
                    (input.place, room, longest),
                    [knowledge, first_item, last_item],
                    |[knowledge, from, to], out| reference::project(knowledge, from, to, out),
                    |[knowledge, from, to], out, written| engine.project(knowledge, [from, to], out, written),
                );
                ("project", knowledge, compared)
            }
        };
        Ok((call, Outcome::of(compared?, first)))
    }
}

impl Show for Writings {
    fn show<'a>(call: &'a Writing<'_>) -> Shown<'a> {
        let (call, arguments, room) = match *call {
            Writing::Normalise { knowledge, room } => ("normalise", vec![knowledge], room),
            Writing::Merge { first, second, room } => ("merge", vec![first, second], room),
            Writing::Project { knowledge, first_item, last_item, room } => {
                ("project", vec![knowledge, first_item, last_item], room)
            }
        };
        Shown { call, arguments, also: format!(", buffer {room:?}") }
    }
}

/// Compares the two on one call that writes its result into a buffer, and gives how both say that it ends. It has its place in the
/// run, its room, and a buffer for the reference.
pub fn written<const N: usize>(
    (place, room, longest): (usize, Room, &mut [u8]),
    arguments: [&[u8]; N],
    reference: impl Fn([&[u8]; N], &mut [u8]) -> Result<usize, u32>,
    engine: impl Fn([&[u8]; N], &mut [u8], &mut u64) -> u32,
) -> Result<Result<&'static str, u32>, String> {
    let result = reference(arguments, longest).map(|length| &longest[..length]);
    let (answer, room) = in_room(result, room);
    buffer::compare(place, arguments, room, answer, engine)?;
    Ok(answer.map(|_| WRITTEN))
}

/// The answer of a call that would have a result in a long buffer, in the buffer that it is given, and the length of that.
pub fn in_room(result: Result<&[u8], u32>, room: Room) -> (Result<&[u8], u32>, usize) {
    let room = room.length(result.ok().map(<[u8]>::len));
    let fits = |bytes: &&[u8]| bytes.len() <= room;
    (result.and_then(|bytes| Some(bytes).filter(fits).ok_or(reference::refusal::BUFFER)), room)
}

#[cfg(test)]
pub mod tests;
