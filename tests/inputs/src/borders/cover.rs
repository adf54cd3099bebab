//! Cover of two knowledges that have all bounds in common or none, where one element is lacking at either end of the span.

use super::{AnyCall, End, Side, Visit, side};
use crate::calls::Call;
use crate::knowledge::{Knowledge, item_id};
use crate::limits::backwards;
use crate::meaning::{FIRST_ITEM, ItemId, LAST_ITEM, item_before};
use crate::splitmix::SplitMix64;

pub const SIDES: [Side; 15] = [
    side("no bound in common, covered", End::Says("yes")),
    side("no bound in common, lacking at the first id", End::Says("no")),
    side("no bound in common, lacking at the last id", End::Says("no")),
    side("no bound in common, lacking before the span", End::Says("yes")),
    side("no bound in common, lacking behind the span", End::Says("yes")),
    side("all bounds in common, covered", End::Says("yes")),
    side("all bounds in common, lacking at the first id", End::Says("no")),
    side("all bounds in common, lacking at the last id", End::Says("no")),
    side("all bounds in common, lacking before the span", End::Says("yes")),
    side("all bounds in common, lacking behind the span", End::Says("yes")),
    side("backwards, covered", End::Says("yes")),
    side("backwards, lacking at the first id", End::Says("no")),
    side("backwards, lacking at the last id", End::Says("no")),
    side("backwards, lacking before the span", End::Says("yes")),
    side("backwards, lacking behind the span", End::Says("yes")),
];

/// The first knows these ticks and more everywhere, the second these and fewer but for one.
const MIDDLE: u64 = 5000;

pub fn draw(random: &mut SplitMix64, visit: &mut Visit) -> Result<(), String> {
    let r = if random.once_in(8) { 16 } else { random.between(1, 6) };
    let g = if random.once_in(16) { random.between(2, 63) } else { random.between(2, 8) };
    let first = &knowing(random, r, g, |tick| MIDDLE + tick, 0);
    for (layout, behind) in [(0, 1), (5, 0), (10, 0)] {
        let covered = &knowing(random, r, g, |tick| MIDDLE - tick, behind);
        let (lacking, at) = lacking(random, first, covered);
        let other = |knowledge: &Knowledge| if layout == 10 { backwards(knowledge) } else { knowledge.clone() };
        let [inside, behind] = [at, at + 1].map(|at| covered.ranges.get(at).map(|(bound, _)| *bound));
        let inside = inside.unwrap_or(FIRST_ITEM);
        let end = behind.map_or(LAST_ITEM, |bound| item_before(&bound).unwrap_or(bound));
        let mut call = |side: usize, second: &Knowledge, from: ItemId, to: ItemId| {
            let (first, second) = (&first.bytes(), &other(second).bytes());
            let call = Call::Cover { first, second, first_item: &from, last_item: &to };
            visit(SIDES[layout + side].name, AnyCall::Lookup(call))
        };
        call(0, covered, FIRST_ITEM, LAST_ITEM)?;
        call(1, &lacking, end, LAST_ITEM)?;
        call(2, &lacking, FIRST_ITEM, inside)?;
        if let Some(behind) = behind {
            call(3, &lacking, behind, LAST_ITEM)?;
        }
        if let Some(before) = item_before(&inside) {
            call(4, &lacking, FIRST_ITEM, before)?;
        }
    }
    Ok(())
}

/// `r` replicas and `g` unlike ranges, whose bounds are a multiple of 8, or behind one. Of one vector in two, an element is missing
/// where the ticks are those of the second knowledge.
fn knowing(random: &mut SplitMix64, r: usize, g: usize, tick: impl Fn(u64) -> u64, behind: u128) -> Knowledge {
    let mut knowledge = Knowledge::filled(r, g + 1, g);
    let whole = tick(0) <= tick(1);
    for vector in knowledge.vectors.iter_mut().skip(1) {
        vector.iter_mut().for_each(|(_, known)| *known = tick(*known));
        if !whole && r > 1 && random.once_in(2) {
            vector.remove(random.below(r));
        }
    }
    for (place, (bound, _)) in knowledge.ranges.iter_mut().enumerate() {
        *bound = item_id(8 * (place as u128 + behind) + behind);
    }
    knowledge
}

/// The second with one tick that the first lacks throughout a range, perhaps of a replica that it lacks, and the place of the range.
fn lacking(random: &mut SplitMix64, first: &Knowledge, second: &Knowledge) -> (Knowledge, usize) {
    let at = match random.below(4) {
        0 => 0,
        1 => second.ranges.len() - 1,
        _ => random.below(second.ranges.len()),
    };
    let mut other = second.clone();
    let vector = &mut other.vectors[second.ranges[at].1 as usize];
    if second.replicas.len() < 16 && random.once_in(4) {
        vector.push((second.replicas.len() as u32, 1));
        other.replicas.push([0xee; 16]);
        return (other, at);
    }
    let place = *random.choose(&[0, vector.len() - 1]);
    let (key, tick) = &mut vector[place];
    let known = first.vectors.iter().flatten().filter(|(other, _)| other == key).map(|(_, tick)| *tick);
    *tick = 1 + known.max().unwrap_or(0);
    (other, at)
}
