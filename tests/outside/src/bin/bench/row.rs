//! A call with its arguments, and what was measured on it.

use std::hint::black_box;

use outside::engine;

use crate::changing_call::ChangingCall;
use crate::comparing;
use crate::measure::Times;
use crate::reading_call::ReadingCall;

#[derive(Clone, PartialEq)]
pub enum Asked {
    Check { knowledge: Vec<u8> },
    Contain { knowledge: Vec<u8>, item: Vec<u8>, replica: Vec<u8>, tick: u64 },
    Lead { first: Vec<u8>, second: Vec<u8>, item: Vec<u8>, replica: Vec<u8> },
    Cover { first: Vec<u8>, second: Vec<u8>, first_item: Vec<u8>, last_item: Vec<u8> },
    // The next ones have a buffer of so many bytes.
    Compare { first: Vec<u8>, second: Vec<u8>, room: usize },
    Normalise { knowledge: Vec<u8>, room: usize },
    Merge { first: Vec<u8>, second: Vec<u8>, room: usize },
    Project { knowledge: Vec<u8>, first_item: Vec<u8>, last_item: Vec<u8>, room: usize },
    Reading(ReadingCall),
    Changing(ChangingCall),
}

pub struct Row {
    pub name: &'static str,
    asked: Asked,
    /// The number that is given, 0 for acceptance.
    pub number: u32,
    pub times: Times,
}

impl Row {
    pub fn new(name: &'static str, number: u32, asked: Asked) -> Self {
        Self { name, asked, number, times: Times::default() }
    }

    /// Measures one round more. The compiler does not know the arguments.
    pub fn measure(&mut self) {
        let number = self.number;
        let give = |engine, rust: u32| assert_eq!((engine, rust), (number, number), "{}", self.name);
        let times = &mut self.times;
        match &self.asked {
            Asked::Check { knowledge } => {
                let knowledge = &knowledge[..];
                let mut sizes = [0; 4];
                give(engine::check(knowledge, &mut sizes), reference::check(knowledge).err().unwrap_or(0));
                // Neither answer is copied: the engine writes where the sizes are, and only a reference is taken to the other.
                times.measure(
                    || {
                        black_box(engine::check(black_box(knowledge), &mut sizes));
                    },
                    || {
                        black_box(&reference::check(black_box(knowledge)));
                    },
                );
            }
            Asked::Contain { knowledge, item, replica, tick } => {
                let (knowledge, item, replica) = (&knowledge[..], &item[..], &replica[..]);
                let mut contained = 0;
                let answer = reference::contain(knowledge, item, replica, *tick);
                give(engine::contain(knowledge, item, replica, *tick, &mut contained), answer.err().unwrap_or(0));
                assert_eq!(answer.map_or(0, u32::from), contained);
                times.measure(
                    || {
                        let (knowledge, item, replica) = (black_box(knowledge), black_box(item), black_box(replica));
                        black_box(engine::contain(knowledge, item, replica, *tick, &mut contained));
                    },
                    || {
                        let (knowledge, item, replica) = (black_box(knowledge), black_box(item), black_box(replica));
                        black_box(&reference::contain(knowledge, item, replica, *tick));
                    },
                );
            }
            Asked::Lead { first, second, item, replica } => {
                let (first, second, item, replica) = (&first[..], &second[..], &item[..], &replica[..]);
                let mut lead = 0;
                let answer = reference::lead(first, second, item, replica);
                give(engine::lead(first, second, item, replica, &mut lead), answer.err().unwrap_or(0));
                assert_eq!(answer.unwrap_or(0), lead);
                times.measure(
                    || {
                        let (first, second) = (black_box(first), black_box(second));
                        let (item, replica) = (black_box(item), black_box(replica));
                        black_box(engine::lead(first, second, item, replica, &mut lead));
                    },
                    || {
                        let (first, second) = (black_box(first), black_box(second));
                        let (item, replica) = (black_box(item), black_box(replica));
                        black_box(&reference::lead(first, second, item, replica));
                    },
                );
            }
            Asked::Cover { first, second, first_item, last_item } => {
                let (first, second, first_item, last_item) = (&first[..], &second[..], &first_item[..], &last_item[..]);
                let mut covers = 0;
                let answer = reference::cover(first, second, first_item, last_item);
                give(engine::cover(first, second, first_item, last_item, &mut covers), answer.err().unwrap_or(0));
                assert_eq!(answer.map_or(0, u32::from), covers);
                times.measure(
                    || {
                        let (first, second) = (black_box(first), black_box(second));
                        let (first_item, last_item) = (black_box(first_item), black_box(last_item));
                        black_box(engine::cover(first, second, first_item, last_item, &mut covers));
                    },
                    || {
                        let (first, second) = (black_box(first), black_box(second));
                        let (first_item, last_item) = (black_box(first_item), black_box(last_item));
                        black_box(&reference::cover(first, second, first_item, last_item));
                    },
                );
            }
            Asked::Compare { first, second, room } => {
                comparing::measure(self.name, number, [first, second], *room, times);
            }
            Asked::Normalise { knowledge, room } => {
                let knowledge = &knowledge[..];
                let engine = |out: &mut [u8], written: &mut u64| engine::normalise(black_box(knowledge), out, written);
                writing(self.name, number, *room, times, engine, |out| reference::normalise(black_box(knowledge), out));
            }
            Asked::Merge { first, second, room } => {
                let (first, second) = (&first[..], &second[..]);
                let engine = |out: &mut [u8], written: &mut u64| {
                    engine::merge(black_box(first), black_box(second), out, written)
                };
                writing(self.name, number, *room, times, engine, |out| {
                    reference::merge(black_box(first), black_box(second), out)
                });
            }
            Asked::Project { knowledge, first_item, last_item, room } => {
                let (knowledge, first_item, last_item) = (&knowledge[..], &first_item[..], &last_item[..]);
                let engine = |out: &mut [u8], written: &mut u64| {
                    engine::project(black_box(knowledge), black_box(first_item), black_box(last_item), out, written)
                };
                writing(self.name, number, *room, times, engine, |out| {
                    reference::project(black_box(knowledge), black_box(first_item), black_box(last_item), out)
                });
            }
            Asked::Reading(call) => call.measure(self.name, number, times),
            Asked::Changing(call) => call.measure(self.name, number, times),
        }
    }

    /// A line of a table.
    pub fn line(&self, size: &str, goal: &str) -> String {
        let (name, bytes, number) = (self.name, self.bytes(), self.number);
        format!("| {size} | {name} | {bytes} | {number} | {} | {goal} |\n", self.times.cells())
    }

    /// How many bytes the knowledges, stores and batches have together.
    pub fn bytes(&self) -> usize {
        match &self.asked {
            Asked::Check { knowledge }
            | Asked::Contain { knowledge, .. }
            | Asked::Normalise { knowledge, .. }
            | Asked::Project { knowledge, .. } => knowledge.len(),
            Asked::Lead { first, second, .. }
            | Asked::Cover { first, second, .. }
            | Asked::Compare { first, second, .. }
            | Asked::Merge { first, second, .. } => first.len() + second.len(),
            Asked::Reading(call) => call.bytes(),
            Asked::Changing(call) => call.bytes(),
        }
    }
}

/// Measures one round more of a call that writes. Each side has a buffer of its own.
pub fn writing(
    name: &str,
    number: u32,
    room: usize,
    times: &mut Times,
    engine: impl Fn(&mut [u8], &mut u64) -> u32,
    rust: impl Fn(&mut [u8]) -> Result<usize, u32>,
) {
    let (mut out, mut rust_out) = (vec![0; room], vec![0; room]);
    let mut written = 0;
    let given = engine(&mut out, &mut written);
    let answer = rust(&mut rust_out);
    assert_eq!((given, answer.err().unwrap_or(0)), (number, number), "{name}");
    assert_eq!(answer.unwrap_or(0) as u64, written, "{name}");
    assert_eq!(out, rust_out, "{name}");
    times.measure(
        || {
            black_box(engine(black_box(&mut out), &mut written));
        },
        || {
            black_box(&rust(black_box(&mut rust_out)));
        },
    );
}
