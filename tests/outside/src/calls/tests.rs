//! The comparison passes a right engine and notices wrong ones.

use inputs::{ItemId, Knowledge, ReplicaId, item_before};

use super::*;

const PLAN: Plan = Plan { inputs: 20_000, ..Plan::USUAL };

type Version = (Knowledge, ItemId, ReplicaId, u64);
type Contain = fn(Version) -> bool;
type Lead = fn([Knowledge; 2], ItemId, ReplicaId) -> i64;
type Cover = fn([Knowledge; 2], ItemId, ItemId) -> bool;
type Number = fn(&str, [&[u8]; 4], u32) -> u32;

/// An engine that answers in some way where nothing is refused; the reference says what is refused. It is right where
/// no other way is given.
#[derive(Default)]
struct Fake {
    contain: Option<Contain>,
    lead: Option<Lead>,
    cover: Option<Cover>,
    /// The number that it gives instead of the right one, by call and arguments.
    number: Option<Number>,
    /// The call that sets its value to 0 on a refusal.
    sets_on_refusal: Option<&'static str>,
}

impl Fake {
    fn give<T: Default>(
        &self,
        call: &str,
        arguments: [&[u8]; 4],
        answer: Result<T, u32>,
        value: &mut T,
        other: impl FnOnce(T) -> T,
    ) -> u32 {
        let number = match answer {
            Ok(right) => {
                *value = other(right);
                0
            }
            Err(number) => {
                if self.sets_on_refusal == Some(call) {
                    *value = T::default();
                }
                number
            }
        };
        self.number.map_or(number, |change| change(call, arguments, number))
    }
}

fn id<const N: usize>(bytes: &[u8]) -> [u8; N] {
    bytes.try_into().expect("the length was checked")
}

impl Engine for Fake {
    fn contain(&self, knowledge: &[u8], item: &[u8], replica: &[u8], tick: u64, contained: &mut u32) -> u32 {
        let answer = reference::contain(knowledge, item, replica, tick).map(u32::from);
        let other = |right| match self.contain {
            Some(contain) => contain((Knowledge::decoded(knowledge), id(item), id(replica), tick)).into(),
            None => right,
        };
        self.give("contain", [knowledge, &[], item, replica], answer, contained, other)
    }

    fn lead(&self, knowledges: [&[u8]; 2], item: &[u8], replica: &[u8], value: &mut i64) -> u32 {
        let [first, second] = knowledges;
        let answer = reference::lead(first, second, item, replica);
        let other = |right| match self.lead {
            Some(lead) => lead(knowledges.map(Knowledge::decoded), id(item), id(replica)),
            None => right,
        };
        self.give("lead", [first, second, item, replica], answer, value, other)
    }

    fn cover(&self, knowledges: [&[u8]; 2], span: [&[u8]; 2], covers: &mut u32) -> u32 {
        let ([first, second], [first_item, last_item]) = (knowledges, span);
        let answer = reference::cover(first, second, first_item, last_item).map(u32::from);
        let other = |right| match self.cover {
            Some(cover) => cover(knowledges.map(Knowledge::decoded), id(first_item), id(last_item)).into(),
            None => right,
        };
        self.give("cover", [first, second, first_item, last_item], answer, covers, other)
    }
}

fn passes(fake: &Fake) {
    let tally = run(&PLAN, fake).unwrap();
    assert_eq!(tally.calls(), 20_000);
}

fn is_noticed(name: &str, fake: &Fake) {
    let error = run(&PLAN, fake).expect_err(name);
    assert!(error.contains("in place: engine "), "{name}: {error}");
}

#[test]
fn a_right_engine_passes() {
    passes(&Fake::default());
    passes(&Fake {
        contain: Some(|(knowledge, item, replica, tick)| knowledge.contains(&item, &replica, tick)),
        lead: Some(|[first, second], item, replica| first.lead(&second, &item, &replica) as i64),
        cover: Some(|[first, second], first_item, last_item| first.covers(&second, &first_item, &last_item)),
        ..Fake::default()
    });
}

#[test]
fn an_engine_with_another_contain_is_noticed() {
    let wrong: [(&str, Contain); 9] = [
        ("always", |_| true),
        ("never", |_| false),
        ("below the known tick only", |(k, item, replica, tick)| 1 <= tick && tick < k.known(&item, &replica)),
        ("tick 0", |(k, item, replica, tick)| tick <= k.known(&item, &replica)),
        ("ticks with a sign", |(k, item, replica, tick)| tick != 0 && tick as i64 <= k.known(&item, &replica) as i64),
        ("an id below the first range is in it", |(k, item, replica, tick)| {
            k.contains(&item.max(k.ranges[0].0), &replica, tick)
        }),
        ("not the last range", |(mut k, item, replica, tick)| {
            k.ranges.pop();
            k.contains(&item, &replica, tick)
        }),
        ("a bound belongs to the range before", |(k, item, replica, tick)| {
            item_before(&item).is_some_and(|item| k.contains(&item, &replica, tick))
        }),
        ("keys by the order of the ids", |(mut k, item, replica, tick)| {
            k.replicas.sort();
            k.contains(&item, &replica, tick)
        }),
    ];
    for (name, contain) in wrong {
        is_noticed(name, &Fake { contain: Some(contain), ..Fake::default() });
    }
}

#[test]
fn an_engine_with_another_lead_is_noticed() {
    let wrong: [(&str, Lead); 6] = [
        ("sides exchanged", |[first, second], item, replica| second.lead(&first, &item, &replica) as i64),
        ("never below 0", |[first, second], item, replica| first.lead(&second, &item, &replica).max(0) as i64),
        ("four bytes", |[first, second], item, replica| first.lead(&second, &item, &replica) as i32 as i64),
        ("the first's tick", |[first, _], item, replica| first.known(&item, &replica) as i64),
        ("off by one at the end", |[first, second], item, replica| {
            first.lead(&second, &item, &replica).max(1 - i64::MAX as i128) as i64
        }),
        ("the first's keys in the second", |[first, mut second], item, replica| {
            second.replicas.clone_from(&first.replicas);
            first.lead(&second, &item, &replica) as i64
        }),
    ];
    for (name, lead) in wrong {
        is_noticed(name, &Fake { lead: Some(lead), ..Fake::default() });
    }
}

#[test]
fn an_engine_with_another_cover_is_noticed() {
    let wrong: [(&str, Cover); 10] = [
        ("always", |_, _, _| true),
        ("never", |_, _, _| false),
        ("sides exchanged", |[first, second], from, to| second.covers(&first, &from, &to)),
        ("at the first id only", |[first, second], from, _| first.covers(&second, &from, &from)),
        ("at the last id only", |[first, second], _, to| first.covers(&second, &to, &to)),
        ("without the last id", |[first, second], from, to| {
            from == to || first.covers(&second, &from, &item_before(&to).expect("above another"))
        }),
        ("the last id only if it is alone", |[first, second], from, to| {
            let to = if from == to { to } else { item_before(&to).expect("above another") };
            first.covers(&second, &from, &to)
        }),
        ("the first's keys in the second", |[first, mut second], from, to| {
            second.replicas.clone_from(&first.replicas);
            first.covers(&second, &from, &to)
        }),
        ("the first's replicas only", |[first, mut second], from, to| {
            let known = |key: u32| first.replicas.contains(&second.replicas[key as usize]);
            second.vectors.iter_mut().for_each(|vector| vector.retain(|(key, _)| known(*key)));
            first.covers(&second, &from, &to)
        }),
        ("the first's bounds only", |[first, second], from, to| {
            let inside = first.ranges.iter().map(|(bound, _)| *bound).filter(|bound| from < *bound && *bound <= to);
            inside.chain([from]).all(|item| first.covers(&second, &item, &item))
        }),
    ];
    for (name, cover) in wrong {
        is_noticed(name, &Fake { cover: Some(cover), ..Fake::default() });
    }
}

#[test]
fn an_engine_that_gives_a_wrong_number_is_noticed() {
    fn short(arguments: [&[u8]; 4]) -> bool {
        arguments[2].len() != 24 || ![16, 24].contains(&arguments[3].len())
    }
    let wrong: [(&str, Number); 7] = [
        ("17 never", |_, _, number| if number == 17 { 0 } else { number }),
        (
            "contain, 17 first",
            |call, arguments, number| {
                if call == "contain" && number != 0 && short(arguments) { 17 } else { number }
            },
        ),
        (
            "lead, 17 first",
            |call, arguments, number| {
                if call == "lead" && number != 0 && short(arguments) { 17 } else { number }
            },
        ),
        (
            "cover, 17 first",
            |call, arguments, number| {
                if call == "cover" && number != 0 && short(arguments) { 17 } else { number }
            },
        ),
        ("lead, the second first", |call, [_, second, ..], number| {
            if call == "lead" && number != 0 { reference::check(second).err().unwrap_or(number) } else { number }
        }),
        ("cover, the second first", |call, [_, second, ..], number| {
            if call == "cover" && number != 0 { reference::check(second).err().unwrap_or(number) } else { number }
        }),
        ("cover, a span that is not in order is empty", |call, [.., from, to], number| {
            if call == "cover" && from.len() == 24 && to.len() == 24 && number == 17 { 0 } else { number }
        }),
    ];
    for (name, number) in wrong {
        is_noticed(name, &Fake { number: Some(number), ..Fake::default() });
    }
}

#[test]
fn an_engine_that_sets_a_value_on_a_refusal_is_noticed() {
    for call in ["contain", "lead", "cover"] {
        is_noticed(call, &Fake { sets_on_refusal: Some(call), ..Fake::default() });
    }
}

#[test]
fn what_never_occurs_is_noticed() {
    let plan = Plan { inputs: 20, ..PLAN };
    assert!(run(&plan, &Fake::default()).unwrap_err().contains("never occurred"));
}
