//! Batches over all ids, and over all ids but the first or the last.

use super::normal;
use super::{AnyCall, End, Side, Visit, normal_form, room, side, store_knowing};
use crate::changing::Changing;
use crate::knowledge::{Knowledge, item_id};
use crate::meaning::{FIRST_ITEM, ItemId, LAST_ITEM};
use crate::pairs::lower;
use crate::splitmix::SplitMix64;

pub const SIDES: [Side; 8] = [
    side("all ids, normal", End::Answer),
    side("all ids, not normal", End::Answer),
    side("all but the first, normal", End::Answer),
    side("all but the first, not normal", End::Answer),
    side("all but the last, normal", End::Answer),
    side("all but the last, not normal", End::Answer),
    side("all but both ends, normal", End::Answer),
    side("all but both ends, not normal", End::Answer),
];

/// The item before the last one.
const BEFORE_LAST: ItemId = {
    let mut item = LAST_ITEM;
    item[23] = 254;
    item
};

fn spans() -> [[ItemId; 2]; 4] {
    let second = item_id(1);
    [[FIRST_ITEM, LAST_ITEM], [second, LAST_ITEM], [FIRST_ITEM, BEFORE_LAST], [second, BEFORE_LAST]]
}

pub fn draw(random: &mut SplitMix64, visit: &mut Visit) -> Result<(), String> {
    let normal = normal_form(random);
    // Often it knows nothing of the first item or of the last one, so that a span without it has all that the store knows.
    let [first, last] = *random.choose(&spans());
    let known = normal.projected(&first, &last).within().unwrap_or_else(|_| normal.clone());
    let store = store_knowing(random, known).bytes();
    for (place, [first_item, last_item]) in spans().iter().enumerate() {
        let knowledge = given(random, &normal);
        let mut call = |random: &mut SplitMix64, side, knowledge: &Knowledge| {
            let (knowledge, room) = (&knowledge.bytes(), room(random));
            visit(side, AnyCall::Changing(Changing::Make { store: &store, knowledge, first_item, last_item, room }))
        };
        call(random, SIDES[2 * place].name, &knowledge)?;
        if let Some((_, other)) = normal::broken(random, &knowledge) {
            call(random, SIDES[2 * place + 1].name, &other)?;
        }
    }
    Ok(())
}

/// What the other replica knows: the same, less of it, or something else.
fn given(random: &mut SplitMix64, knowledge: &Knowledge) -> Knowledge {
    let mut other = match random.below(4) {
        0 => return knowledge.clone(),
        1 => return normal_form(random),
        _ => knowledge.clone(),
    };
    lower(random, &mut other);
    let lowered = other.normalised();
    if lowered.replicas.is_empty() { knowledge.clone() } else { lowered }
}
