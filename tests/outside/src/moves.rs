//! How far one record of a new item moves the figure of coverage, its third number: with n records before and the same knowledge, by at
//! most 1000 / (n + 1), rounded up.

use crate::reading::Engine;

/// How far apart the figures of two stores are for a knowledge. The first has so many records, and the second has one of a new item more;
/// the error where that moves the figure too far.
pub fn moved(
    engine: &impl Engine,
    [before, after]: [&[u8]; 2],
    records: usize,
    knowledge: &[u8],
) -> Result<u64, String> {
    let figure = |store: &[u8]| {
        let mut counts = [0; 3];
        match engine.coverage(store, knowledge, &mut counts) {
            0 => Ok(counts[2]),
            number => Err(format!("coverage is refused with {number}")),
        }
    };
    let (from, to, bound) = (figure(before)?, figure(after)?, reference::largest_jump(records));
    if from.abs_diff(to) > bound {
        return Err(format!("one record more than {records} moves the figure from {from} to {to}, so by over {bound}"));
    }
    Ok(from.abs_diff(to))
}

/// What all pairs of stores show.
#[derive(Debug, PartialEq, Eq)]
pub struct Pairs {
    pub pairs: usize,
    /// Counts of records before, of 0 to 255, with which some pair is as far apart as may be.
    pub met: usize,
}

/// The least distances that the figure keeps from the bound, by the count of records before: with two records it is never met.
const MISSED: [u64; 5] = [0, 0, 1, 0, 0];

/// Looks at stores of 0 to 255 records, of which a knowledge contains 0 to all, each before and after one record more, which is contained
/// or not. Its item comes before all others, after all, and between any two.
pub fn every_pair(engine: &impl Engine) -> Result<Pairs, String> {
    let mut seen = Pairs { pairs: 0, met: 0 };
    for records in 0..256 {
        let before = inputs::store_of(records);
        let bytes = before.bytes();
        let mut largest = 0;
        for contained in 0..=records {
            let knowledge = inputs::containing_tick_1(contained).bytes();
            for tick in [1, 2] {
                let after = inputs::with_one_more(&before, contained, tick).bytes();
                let moved = moved(engine, [&bytes, &after], records, &knowledge);
                let moved = moved.map_err(|error| format!("{contained} of {records}, then tick {tick}: {error}"))?;
                largest = largest.max(moved);
                seen.pairs += 1;
            }
        }
        let missed = reference::largest_jump(records) - largest;
        if MISSED.get(records).is_some_and(|right| *right != missed) {
            return Err(format!(
                "one record more than {records} moves the figure by at most {largest}, {missed} too few"
            ));
        }
        seen.met += usize::from(missed == 0);
    }
    Ok(seen)
}

#[cfg(test)]
mod tests {
    use super::*;
    use crate::stand_in::Reference;
    use crate::wrong::{FIGURES, Wrong};

    #[test]
    fn a_right_engine_passes() {
        assert_eq!(every_pair(&Reference), Ok(Pairs { pairs: 65_792, met: 182 }));
    }

    #[test]
    fn engines_with_another_figure_are_noticed() {
        for (name, figure) in FIGURES {
            every_pair(&Wrong { figure: Some(figure), ..Wrong::default() }).expect_err(name);
        }
    }
}
