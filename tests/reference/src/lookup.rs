//! Contain and lead: the tick known for one item and one replica.

use crate::ids;
use crate::view::{Starts, View};

/// Whether a knowledge contains the version of an item that a replica made at a tick.
pub fn contain(knowledge: &[u8], item: &[u8], replica: &[u8], tick: u64) -> Result<bool, u32> {
    let mut starts = Starts::new();
    let knowledge = View::read(knowledge, &mut starts)?;
    let (item, replica) = (ids::item(item)?, ids::replica(replica)?);
    Ok(tick >= 1 && tick <= knowledge.known(item, replica))
}

/// How far the tick that the first knowledge knows for an item and a replica is above the one that the second knows.
pub fn lead(first: &[u8], second: &[u8], item: &[u8], replica: &[u8]) -> Result<i64, u32> {
    let (mut first_starts, mut second_starts) = (Starts::new(), Starts::new());
    let first = View::read(first, &mut first_starts)?;
    let second = View::read(second, &mut second_starts)?;
    let (item, replica) = (ids::item(item)?, ids::replica(replica)?);
    // Known ticks are at most 2^63 - 1, so neither they nor their difference overflow.
    Ok(first.known(item, replica) as i64 - second.known(item, replica) as i64)
}
