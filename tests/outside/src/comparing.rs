//! Comparing compare of the engine with that of the reference, and with the engine's own cover.

mod seen;
pub mod triples;

use std::cell::RefCell;

use inputs::{ALL, Comparing, Comparings, Knowledge, LARGEST_COMPARISON, Plan, Room};

use crate::buffer;
use crate::calls;
use crate::row::{self, Show, Shown};
use crate::tally::Outcome;
use crate::writing::in_room;
pub use seen::Seen;

/// An engine's compare. It gives 0, sets the order, writes the places to the front of the buffer and sets their length, or gives
/// the number of the refusal and leaves order, buffer and length alone.
pub trait Engine {
    fn compare(&self, knowledges: [&[u8]; 2], order: &mut u32, out: &mut [u8], written: &mut u64) -> u32;
}

/// The names of the orders.
const ORDERS: [&str; 4] = ["alike", "behind", "ahead", "apart"];

/// The order and the bytes that are written, or the number of the refusal.
type Answer<'a> = Result<(u32, &'a [u8]), u32>;

/// Compares the engine with the reference on all pairs of the plan, and each order with what the engine's cover says. The error
/// says where two first differ, or what occurred too seldom.
pub fn run(plan: &Plan, engine: &(impl Engine + calls::Engine)) -> Result<Seen, String> {
    let mut seen = Seen::default();
    plan.try_for_each_call::<Comparings>(|input| {
        let mut longest = [0; LARGEST_COMPARISON];
        let Comparing { first, second, .. } = input.call;
        let answer = compare(input.place, input.call, engine, &mut longest)
            .and_then(|answer| as_cover_says([first, second], answer, engine).map(|()| answer))
            .map_err(|difference| row::describe::<Comparings>(plan, &input, &difference))?;
        seen.add([first, second], answer)
    })?;
    seen.complete()
}

/// Compares the two on one pair, and gives the answer of both. The order stands between other numbers, and before the engine is
/// called a second time they are others than the first time.
fn compare<'a>(
    place: usize,
    Comparing { first, second, room }: Comparing,
    engine: &impl Engine,
    longest: &'a mut [u8; LARGEST_COMPARISON],
) -> Result<Answer<'a>, String> {
    let right = reference::compare(first, second, longest);
    let (bytes, room) = in_room(right.map(|(_, length)| &longest[..length]), room);
    let orders = RefCell::new(Vec::new());
    buffer::compare(place, [first, second], room, bytes, |knowledges, out, written| {
        let before = BEFORE[orders.borrow().len() % 2];
        let mut around = [before; 5];
        let number = engine.compare(knowledges, &mut around[2], out, written);
        orders.borrow_mut().push(around);
        number
    })?;
    let answer = bytes.and_then(|bytes| right.map(|(order, _)| (order, bytes)));
    for ((how, before), found) in ["in place", "copied"].into_iter().zip(BEFORE).zip(orders.into_inner()) {
        let right = answer.map_or(before, |(order, _)| order);
        if found != [before, before, right, before, before] {
            return Err(format!("{how}: engine changes the order from {before} to {found:?}, reference to {right}"));
        }
    }
    Ok(answer)
}

/// What stands where the order comes before the first call and before the second.
const BEFORE: [u32; 2] = [0xa5a5_a5a5, 0x3c3c_3c3c];

/// The error, where a bit of the order is not as the engine's cover over all ids says: bit 0 is set where the first does not cover
/// the second, bit 1 where the second does not cover the first.
fn as_cover_says([first, second]: [&[u8]; 2], answer: Answer, engine: &impl calls::Engine) -> Result<(), String> {
    let Ok((order, _)) = answer else { return Ok(()) };
    for (bit, knowledges) in [[first, second], [second, first]].into_iter().enumerate() {
        let mut covers = 7;
        let number = engine.cover(knowledges, [&ALL[0], &ALL[1]], &mut covers);
        if number != 0 || covers != 1 - (order >> bit & 1) {
            return Err(format!("order {order}, but cover gives {number} and {covers} for bit {bit}"));
        }
    }
    Ok(())
}

/// Two knowledges, and their order or the number of the refusal.
type Pair<'a> = (&'a [u8], &'a [u8], Result<u32, u32>);

/// Compares engine and reference in buffers of every length from 0 to that of the longest result, on a pair of each order, and on
/// pairs with a fault in either knowledge and in both. Gives how many there were.
pub fn every_room(engine: &impl Engine) -> Result<usize, String> {
    let [none, a, b] = [Knowledge::smallest(), Knowledge::a(), Knowledge::b()].map(|knowledge| knowledge.bytes());
    let (cut, longer) = (&a[..a.len() - 1], &[&a[..], &[0]].concat()[..]);
    let pairs: [Pair; 7] = [
        (&a, &a, Ok(0)),
        (&none, &a, Ok(1)),
        (&a, &none, Ok(2)),
        (&a, &b, Ok(3)),
        (cut, longer, Err(1)),
        (longer, cut, Err(10)),
        (&a, longer, Err(10)),
    ];
    let mut count = 0;
    for (first, second, right) in pairs {
        for length in 0..=LARGEST_COMPARISON {
            let mut longest = [0; LARGEST_COMPARISON];
            let answer = compare(length, Comparing { first, second, room: Room::Bytes(length) }, engine, &mut longest)
                .map_err(|difference| format!("{difference} in a buffer of {length} bytes"))?;
            let fits = right.map_or(true, |order| 56 * order.count_ones() as usize <= length);
            let right = if fits { right } else { Err(reference::refusal::BUFFER) };
            if answer.map(|(order, _)| order) != right {
                return Err(format!("reference gives {answer:?} in a buffer of {length} bytes, not {right:?}"));
            }
            count += 1;
        }
    }
    Ok(count)
}

impl Show for Comparings {
    fn show<'a>(&Comparing { first, second, room }: &'a Comparing<'_>) -> Shown<'a> {
        Shown { call: "compare", arguments: vec![first, second], also: format!(", buffer {room:?}") }
    }
}

/// How a compare of two knowledges ended.
fn outcome(first: &[u8], answer: Answer) -> Outcome {
    Outcome::of(answer.map(|(order, _)| ORDERS[order as usize]), first)
}

#[cfg(test)]
mod tests;
