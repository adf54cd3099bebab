//! The families of inputs. All but the last are the same in every run; the last is random.

use crate::edits::{boundary_values, disturb, set_a_field, spoil};
use crate::instances::instances;
use crate::knowledge::{Field, Knowledge};
use crate::splitmix::SplitMix64;

/// Takes an input with the name of its family. An error ends the run.
pub type Visit<'a> = dyn FnMut(&'static str, &[u8]) -> Result<(), String> + 'a;

/// Knowledges without fault, of many shapes, from the smallest to the largest.
pub fn shapes() -> Vec<Knowledge> {
    let mut shapes: Vec<Knowledge> = [
        (0, 1, 1),
        (0, 2, 2),
        (1, 1, 1),
        (1, 2, 1),
        (2, 3, 3),
        (3, 4, 5),
        (4, 9, 8),
        (16, 1, 1),
        (16, 2, 1),
        (0, 65, 1),
        (0, 1, 64),
        (1, 65, 64),
    ]
    .map(|(r, v, g)| Knowledge::filled(r, v, g))
    .into();

    // Elements by falling key, a tick of 0 and the largest one, two vectors alike, neighbours alike.
    let mut unusual = Knowledge::filled(3, 4, 6);
    unusual.vectors[1].reverse();
    unusual.vectors[1][0].1 = 0;
    unusual.vectors[1][1].1 = i64::MAX as u64;
    unusual.vectors[2] = unusual.vectors[1].clone();
    unusual.vectors[3].clear();
    for (_, index) in &mut unusual.ranges[..4] {
        *index = 2;
    }
    unusual.ranges[5].0 = [255; 24];
    shapes.push(unusual);

    // Replica ids and bounds that differ in a single byte.
    let mut alike = Knowledge::filled(16, 2, 24);
    for (k, id) in alike.replicas.iter_mut().enumerate() {
        *id = [7; 16];
        id[k] = 8;
    }
    for (k, (bound, _)) in alike.ranges.iter_mut().enumerate() {
        *bound = [7; 24];
        bound[23 - k] = 8;
    }
    shapes.push(alike);

    shapes.push(Knowledge::late_start());
    shapes.push(Knowledge::largest());
    shapes
}

/// The inputs that are the same in every run.
pub fn fixed(visit: &mut Visit) -> Result<(), String> {
    for instance in instances() {
        visit("instances", &instance.bytes)?;
    }
    counts(visit)?;
    for shape in shapes() {
        prefixes(&shape, visit)?;
        longer(&shape, visit)?;
        fields(&shape, visit)?;
        cut_fields(&shape, visit)?;
    }
    pairs(&Knowledge::smallest(), visit)?;
    pairs(&Knowledge::filled(2, 3, 2), visit)
}

/// Counts around their limits with as many things as they say.
fn counts(visit: &mut Visit) -> Result<(), String> {
    const FAMILY: &str = "counts";
    for r in 0..=20 {
        visit(FAMILY, &Knowledge::filled(r, 3, 3).bytes())?;
        for elements in 0..=r + 2 {
            let mut knowledge = Knowledge::filled(r, 3, 3);
            let elements: Vec<_> = (0..elements as u32).map(|key| (key, 1)).collect();
            knowledge.vectors[2] = elements.clone();
            visit(FAMILY, &knowledge.bytes())?;
            knowledge.vectors[0] = elements;
            visit(FAMILY, &knowledge.bytes())?;
        }
    }
    for count in 0..=70 {
        let mut knowledge = Knowledge::filled(2, 70, 70);
        knowledge.vectors.truncate(count);
        knowledge.ranges.truncate(2);
        visit(FAMILY, &knowledge.bytes())?;
        let mut knowledge = Knowledge::filled(2, 65, 70);
        knowledge.ranges.truncate(count);
        visit(FAMILY, &knowledge.bytes())?;
    }
    Ok(())
}

/// Every shorter part, and the whole. Behind a shorter part lie the bytes that would complete it.
fn prefixes(knowledge: &Knowledge, visit: &mut Visit) -> Result<(), String> {
    let bytes = knowledge.bytes();
    for n in 0..=bytes.len() {
        visit("prefixes", &bytes[..n])?;
    }
    Ok(())
}

/// More bytes than the knowledge has, without and with a fault in its last field.
fn longer(knowledge: &Knowledge, visit: &mut Visit) -> Result<(), String> {
    let whole = knowledge.bytes();
    for last in [0, 1] {
        for tail in [&[0][..], &[255], &[0; 8], &[1; 300], &whole] {
            let mut bytes = whole.clone();
            *bytes.last_mut().expect("no knowledge is empty") = last;
            bytes.extend_from_slice(tail);
            visit("longer", &bytes)?;
        }
    }
    Ok(())
}

/// Every field in turn set to each of its boundary values.
fn fields(knowledge: &Knowledge, visit: &mut Visit) -> Result<(), String> {
    let written = knowledge.write();
    let mut bytes = written.bytes.clone();
    for (at, field) in written.fields.iter().enumerate() {
        let place = field.start..field.start + field.size;
        for value in boundary_values(&written, at) {
            bytes[place.clone()].copy_from_slice(&value);
            visit("fields", &bytes)?;
        }
        bytes[place].copy_from_slice(written.value(*field));
    }
    Ok(())
}

/// Every field in turn damaged, with the bytes ending before, inside or right behind it.
fn cut_fields(knowledge: &Knowledge, visit: &mut Visit) -> Result<(), String> {
    let written = knowledge.write();
    let mut bytes = written.bytes.clone();
    for field in &written.fields {
        let Field { start, size, .. } = *field;
        for byte in [0, 255] {
            bytes[start..start + size].fill(byte);
            let mut ends = vec![start, start + 1, start + size - 1, start + size];
            ends.dedup();
            for end in ends {
                visit("cut fields", &bytes[..end])?;
            }
        }
        bytes[start..start + size].copy_from_slice(written.value(*field));
    }
    Ok(())
}

/// Every two fields damaged at once.
fn pairs(knowledge: &Knowledge, visit: &mut Visit) -> Result<(), String> {
    let written = knowledge.write();
    let mut bytes = written.bytes.clone();
    for (at, first) in written.fields.iter().enumerate() {
        for second in &written.fields[at + 1..] {
            for damage in 0..9 {
                for (field, damage) in [(first, damage / 3), (second, damage % 3)] {
                    let value = &mut bytes[field.start..field.start + field.size];
                    match damage {
                        0 => value.fill(0),
                        1 => value.fill(255),
                        _ => value[field.size - 1] = value[field.size - 1].wrapping_add(1),
                    }
                }
                visit("pairs", &bytes)?;
                bytes.copy_from_slice(&written.bytes);
            }
        }
    }
    Ok(())
}

/// `count` random inputs: knowledges of random shapes, intact or with one or several changes of any sort.
pub fn random(seed: u64, count: usize, visit: &mut Visit) -> Result<(), String> {
    const INPUTS_OF_A_SHAPE: usize = 16;
    let random = &mut SplitMix64::new(seed);
    let mut knowledge = Knowledge::smallest();
    let mut written = knowledge.write();
    for k in 0..count {
        if k % INPUTS_OF_A_SHAPE == 0 {
            knowledge = Knowledge::random(random);
            written = knowledge.write();
        }
        let mut bytes = written.bytes.clone();
        let family = match random.below(8) {
            0 => "random, intact",
            1 | 2 => {
                for _ in 0..random.between(1, 3) {
                    set_a_field(random, &written, &mut bytes);
                }
                "random, fields set"
            }
            3 | 4 => {
                let mut spoilt = knowledge.clone();
                for _ in 0..random.between(1, 3) {
                    spoil(random, &mut spoilt);
                }
                let written = spoilt.write();
                bytes.clone_from(&written.bytes);
                if random.once_in(4) {
                    set_a_field(random, &written, &mut bytes);
                }
                if random.once_in(4) {
                    disturb(random, &mut bytes);
                }
                "random, spoilt before written"
            }
            _ => {
                for _ in 0..random.between(1, 4) {
                    disturb(random, &mut bytes);
                }
                "random, bytes disturbed"
            }
        };
        visit(family, &bytes)?;
    }
    Ok(())
}
