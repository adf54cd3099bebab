//! Damage: to a field, to a knowledge before it is written, and to bytes without regard to fields.

use crate::knowledge::{Field, Kind, Knowledge, Written};
use crate::splitmix::SplitMix64;

/// The values that a field is set to in turn: the limits and their neighbours, the neighbours of its own value and of
/// the values that it is compared with, and changes of one bit.
pub fn boundary_values(written: &Written, at: usize) -> Vec<Vec<u8>> {
    let field = written.fields[at];
    let own = written.value(field);
    let mut values = match field.kind {
        Kind::ReplicaId | Kind::Bound | Kind::Item | Kind::SpanEnd => ids(written, at),
        Kind::Own | Kind::VersionReplica | Kind::Tag => ids(written, at),
        _ => numbers(written, field),
    };
    for place in 0..own.len() {
        for bit in [1, 128] {
            let mut value = own.to_vec();
            value[place] ^= bit;
            values.push(value);
        }
    }
    values.push(own.iter().rev().copied().collect());
    values.sort();
    values.dedup();
    values.retain(|value| value != own);
    values
}

fn numbers(written: &Written, field: Field) -> Vec<Vec<u8>> {
    let own = written.value(field).iter().fold(0, |number: u64, byte| (number << 8) | u64::from(*byte));
    let mut numbers = vec![2, 15, 16, 17, 63, 64, 65, 66];
    if field.kind == Kind::RecordCount {
        numbers.extend([255, 256, 257]);
    }
    numbers.extend([8, 16, 32].map(|bits| own.wrapping_add(1 << bits)));
    let counts = [Kind::ReplicaCount, Kind::VectorCount, Kind::RangeCount].map(|kind| count(written, kind));
    let edges = [own, 1 << 16, 1 << 31, 1 << 32, 1 << 63, 0];
    for edge in counts.into_iter().chain(edges) {
        numbers.extend([edge.wrapping_sub(1), edge, edge.wrapping_add(1)]);
    }
    let largest = u64::MAX >> (64 - 8 * field.size);
    numbers.push(largest);
    numbers.retain(|number| *number <= largest);
    numbers.into_iter().map(|number| number.to_be_bytes()[8 - field.size..].to_vec()).collect()
}

/// The number in the only field of this kind.
fn count(written: &Written, kind: Kind) -> u64 {
    let field = written.fields.iter().find(|field| field.kind == kind).expect("each count is written");
    written.value(*field).iter().fold(0, |number, byte| (number << 8) | u64::from(*byte))
}

fn ids(written: &Written, at: usize) -> Vec<Vec<u8>> {
    let field = written.fields[at];
    let others: Vec<&[u8]> = written
        .fields
        .iter()
        .filter(|other| other.kind == field.kind && other.start != field.start)
        .map(|other| written.value(*other))
        .collect();
    let before = written.fields[..at].iter().filter(|other| other.kind == field.kind).count();
    let mut chosen = vec![written.value(field)];
    if field.kind == Kind::ReplicaId {
        chosen.extend(&others);
    } else if [Kind::Own, Kind::VersionReplica].contains(&field.kind) {
        let replicas = written.fields.iter().filter(|other| other.kind == Kind::ReplicaId);
        chosen.extend(replicas.map(|other| written.value(*other)));
    } else {
        chosen.extend(others.first());
        chosen.extend(others.last());
        chosen.extend(before.checked_sub(1).map(|k| others[k]));
        chosen.extend(others.get(before));
    }
    let mut values = vec![vec![0; field.size], vec![255; field.size]];
    for id in chosen {
        values.extend([id.to_vec(), one_more(id), one_less(id)]);
    }
    values
}

/// The next larger id; after the largest the smallest.
pub fn one_more(id: &[u8]) -> Vec<u8> {
    let mut id = id.to_vec();
    for byte in id.iter_mut().rev() {
        *byte = byte.wrapping_add(1);
        if *byte != 0 {
            break;
        }
    }
    id
}

/// The next smaller id; before the smallest the largest.
pub fn one_less(id: &[u8]) -> Vec<u8> {
    let mut id = id.to_vec();
    for byte in id.iter_mut().rev() {
        *byte = byte.wrapping_sub(1);
        if *byte != 255 {
            break;
        }
    }
    id
}

/// Sets a random field of the bytes to one of its boundary values.
pub fn set_a_field(random: &mut SplitMix64, written: &Written, bytes: &mut [u8]) {
    let at = random.below(written.fields.len());
    let Field { start, size, .. } = written.fields[at];
    if let Some(place) = bytes.get_mut(start..start + size) {
        let values = boundary_values(written, at);
        place.copy_from_slice(random.choose::<Vec<u8>>(&values));
    }
}

/// Changes a knowledge before it is written, most often by a fault. Where it has no place for the chosen change, it
/// stays as it is.
pub fn spoil(random: &mut SplitMix64, knowledge: &mut Knowledge) {
    let r = knowledge.replicas.len();
    let v = knowledge.vectors.len();
    let g = knowledge.ranges.len();
    if v == 0 || g == 0 {
        return;
    }
    let choice = random.below(14);
    let vector = random.below(v);
    let range = random.below(g);
    let elements = &mut knowledge.vectors[vector];
    let n = elements.len();
    let element = if n == 0 { None } else { Some(random.below(n)) };
    match (choice, element) {
        (0, _) => knowledge.replicas.resize_with(random.between(16, 19), || random.bytes()),
        (1, _) if r > 0 => knowledge.replicas[random.below(r)] = knowledge.replicas[random.below(r)],
        (2, _) => knowledge.vectors[0] = vec![(0, 1); random.between(1, r + 2)],
        (3, _) => elements.resize(random.between(r, r + 2), (random.below(r + 1) as u32, 1)),
        (4, Some(element)) => elements[element].0 = random.between(r, r + 20) as u32,
        (5, Some(element)) => elements[element].1 |= 1 << 63,
        (6, Some(element)) => elements[element].0 = elements[random.below(n)].0,
        (7, _) => {
            let vector = elements.clone();
            knowledge.vectors.resize(random.between(64, 67), vector);
        }
        (8, _) => {
            let last = knowledge.ranges[g - 1];
            knowledge.ranges.resize(random.between(63, 66), last);
        }
        (9, _) => knowledge.ranges[range].0 = knowledge.ranges[random.below(g)].0,
        (10, _) => knowledge.ranges.swap(range, random.below(g)),
        (11, _) => knowledge.ranges[range].1 = random.between(v, v + 64) as u32,
        (12, _) if random.once_in(2) => knowledge.vectors.clear(),
        (12, _) => knowledge.ranges.clear(),
        _ => random.shuffle(&mut knowledge.replicas),
    }
}

/// Damages the bytes of a knowledge in some way; they may be damaged already.
pub fn damage(random: &mut SplitMix64, knowledge: &Knowledge, bytes: &mut Vec<u8>) {
    match random.below(3) {
        0 => set_a_field(random, &knowledge.write(), bytes),
        1 => {
            let mut spoilt = knowledge.clone();
            spoil(random, &mut spoilt);
            *bytes = spoilt.bytes();
        }
        _ => disturb(random, bytes),
    }
}

/// Changes bytes without regard to what they say.
pub fn disturb(random: &mut SplitMix64, bytes: &mut Vec<u8>) {
    // The sizes of fields and of groups of fields, so that whole ones are often hit.
    const SIZES: [usize; 9] = [1, 2, 4, 8, 12, 16, 20, 24, 28];
    let choice = random.below(10);
    let size = *random.choose(&SIZES);
    if choice == 0 || bytes.len() < 2 * size {
        let byte = *random.choose(&[0, 1, 255]);
        bytes.resize(bytes.len() + size, byte);
        return;
    }
    let n = bytes.len();
    let here = random.below(n - size + 1);
    let there = random.below(n - size + 1);
    match choice {
        1 => bytes[here] = random.byte(),
        2 => bytes[here] ^= 1 << random.below(8),
        3 => bytes[here] = bytes[here].wrapping_add(1),
        4 => bytes.truncate(here),
        5 => {
            bytes.splice(here..here, (0..size).map(|_| random.byte()));
        }
        6 => {
            bytes.drain(here..here + size);
        }
        7 => {
            let block = bytes[there..there + size].to_vec();
            bytes.splice(here..here, block);
        }
        8 => bytes.copy_within(there..there + size, here),
        _ => swap_blocks(bytes, here, there, size),
    }
}

/// Exchanges the blocks that start at the two places, if they do not overlap; else moves the first bytes of their
/// union to its end.
fn swap_blocks(bytes: &mut [u8], here: usize, there: usize, size: usize) {
    let (first, second) = (here.min(there), here.max(there));
    if second - first >= size {
        let (front, back) = bytes.split_at_mut(second);
        front[first..first + size].swap_with_slice(&mut back[..size]);
    } else {
        bytes[first..second + size].rotate_left(second - first);
    }
}
