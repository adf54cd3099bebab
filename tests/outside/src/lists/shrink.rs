//! Making a failing list of calls smaller, as long as it still fails. Its round becomes smaller too, or is left out; as long as it is there, its
//! premises hold.

use inputs::Room;

use super::list::{Call, Given, List, Round};

/// As many lists are tried at most.
const TRIES: usize = 3000;

/// The smallest list that was found, with its error.
pub fn shrink(list: &List, error: String, fails: impl Fn(&List) -> Option<String>) -> (List, String) {
    let mut shrinking = Shrinking { list: list.clone(), error, fails, tries: 0 };
    loop {
        let before = shrinking.list.clone();
        shrinking.drop_round();
        shrinking.drop_calls();
        shrinking.drop_round_calls();
        shrinking.simplify_calls();
        shrinking.drop_replicas();
        if shrinking.list == before || shrinking.tries >= TRIES {
            return (shrinking.list, shrinking.error);
        }
    }
}

struct Shrinking<F> {
    list: List,
    error: String,
    fails: F,
    tries: usize,
}

impl<F: Fn(&List) -> Option<String>> Shrinking<F> {
    /// Takes the other list, if it fails too; gives whether it does.
    fn took(&mut self, other: List) -> bool {
        if other.round.as_ref().is_some_and(|round| round.premises().is_err()) {
            return false;
        }
        self.tries += 1;
        if self.tries > TRIES {
            return false;
        }
        let Some(error) = (self.fails)(&other) else { return false };
        (self.list, self.error) = (other, error);
        true
    }

    /// Leaves the round out, or a district of it with all calls that name one of its batches.
    fn drop_round(&mut self) {
        if self.list.round.is_none() || self.took(List { round: None, ..self.list.clone() }) {
            return;
        }
        let districts = self.list.round.as_ref().map_or(0, |round| round.districts.len());
        for place in (0..districts).rev() {
            let mut other = self.list.clone();
            if let Some(round) = &mut other.round {
                let district = round.districts.remove(place);
                retain(round, |call| !names(call, district.up) && !names(call, district.down));
            }
            self.took(other);
        }
    }

    /// Leaves calls of the round out, one at a time.
    fn drop_round_calls(&mut self) {
        let calls = self.list.round.as_ref().map_or(0, |round| round.calls.len());
        for place in (0..calls).rev() {
            let mut other = self.list.clone();
            if let Some(round) = &mut other.round {
                round.calls.remove(place);
                round.gather -= usize::from(place < round.gather);
            }
            self.took(other);
        }
    }

    /// Leaves calls out, first many at once, then fewer.
    fn drop_calls(&mut self) {
        let mut size = self.list.calls.len();
        while size > 0 {
            let mut start = 0;
            while start < self.list.calls.len() {
                let mut other = self.list.clone();
                other.calls.drain(start..(start + size).min(other.calls.len()));
                if !self.took(other) {
                    start += size;
                }
            }
            size /= 2;
        }
    }

    /// Gives each call a long buffer, a span of all ids, and nothing as the given knowledge.
    fn simplify_calls(&mut self) {
        for place in 0..self.list.all_calls().count() {
            for simplify in [long_buffer, all_ids, no_knowledge] {
                let mut other = self.list.clone();
                other.all_calls_mut().skip(place).take(1).for_each(simplify);
                if other != self.list {
                    self.took(other);
                }
            }
        }
    }

    /// Leaves replicas out that no call is on and that are not of the round.
    fn drop_replicas(&mut self) {
        for replica in (0..self.list.replicas.len()).rev() {
            let mut other = self.list.clone();
            other.replicas.remove(replica);
            let mut alone = other.all_calls_mut().all(|call| without(call, replica));
            if let Some(round) = &mut other.round {
                let districts = round.districts.iter_mut().map(|district| &mut district.replica);
                alone &= [&mut round.centre].into_iter().chain(districts).all(|server| rename(server, replica));
            }
            if alone && !other.replicas.is_empty() {
                self.took(other);
            }
        }
    }
}

/// Leaves calls of a round out, but those for which the test holds.
fn retain(round: &mut Round, test: impl Fn(&Call) -> bool) {
    let (gather, spread) = round.calls.split_at(round.gather);
    let gather: Vec<Call> = gather.iter().filter(|call| test(call)).cloned().collect();
    round.gather = gather.len();
    round.calls = gather.into_iter().chain(spread.iter().filter(|call| test(call)).cloned()).collect();
}

/// Whether a call makes or applies a batch.
fn names(call: &Call, name: usize) -> bool {
    matches!(call, Call::Make { batch, .. } | Call::Apply { batch, .. } if *batch == name)
}

fn long_buffer(call: &mut Call) {
    let (Call::Edit { room, .. } | Call::Delete { room, .. } | Call::Make { room, .. } | Call::Apply { room, .. }) =
        call;
    *room = Room::More(0);
}

fn all_ids(call: &mut Call) {
    if let Call::Make { first, last, .. } = call {
        (*first, *last) = (vec![0; 24], vec![255; 24]);
    }
}

fn no_knowledge(call: &mut Call) {
    if let Call::Make { given, .. } = call {
        *given = Given::Nothing;
    }
}

/// Renames a replica, where it is behind one that is left out; gives whether it is another.
fn rename(replica: &mut usize, left_out: usize) -> bool {
    let other = *replica != left_out;
    *replica -= usize::from(*replica > left_out);
    other
}

/// Renames the replicas behind one that is left out; gives whether the call does without it.
fn without(call: &mut Call, left_out: usize) -> bool {
    let (Call::Edit { replica, .. }
    | Call::Delete { replica, .. }
    | Call::Make { replica, .. }
    | Call::Apply { replica, .. }) = call;
    let other = rename(replica, left_out);
    match call {
        Call::Make { given: Given::Of(replica, _), .. } => rename(replica, left_out) && other,
        _ => other,
    }
}
