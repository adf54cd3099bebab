//! Writing knowledge bytes, valid or not, and where each field of them stands.

use std::collections::BTreeSet;

use crate::splitmix::SplitMix64;

/// What knowledge bytes are written from. The counts are those of the lists; nothing else is seen to, so that faulty
/// bytes can be written as well.
#[derive(Clone, Debug, PartialEq, Eq)]
pub struct Knowledge {
    pub replicas: Vec<[u8; 16]>,
    /// Elements of replica key and tick for each clock vector.
    pub vectors: Vec<Vec<(u32, u64)>>,
    /// Bound and clock vector index of each range.
    pub ranges: Vec<([u8; 24], u32)>,
}

/// What a field holds.
#[derive(Clone, Copy, Debug, PartialEq, Eq)]
pub enum Kind {
    Fixed,
    ReplicaCount,
    ReplicaId,
    VectorCount,
    ElementCount,
    Key,
    Tick,
    RangeCount,
    Bound,
    Index,
    // Those of a store or batch.
    /// The kind of a store or batch.
    Opening,
    Own,
    SpanEnd,
    /// The length of a knowledge.
    Length,
    RecordCount,
    RecordKind,
    Item,
    VersionReplica,
    VersionTick,
    Tag,
}

/// A field of written bytes.
#[derive(Clone, Copy, Debug, PartialEq, Eq)]
pub struct Field {
    pub kind: Kind,
    pub start: usize,
    pub size: usize,
}

/// Knowledge bytes and their fields from left to right.
#[derive(Clone, Debug, Default)]
pub struct Written {
    pub bytes: Vec<u8>,
    pub fields: Vec<Field>,
}

/// A replica id as a 16-byte number.
pub fn replica_id(number: u128) -> [u8; 16] {
    number.to_be_bytes()
}

/// An item id as a 24-byte number.
pub fn item_id(number: u128) -> [u8; 24] {
    let mut id = [0; 24];
    id[8..].copy_from_slice(&number.to_be_bytes());
    id
}

impl Knowledge {
    /// The length of the longest knowledge.
    pub const LONGEST: usize = 14_933;

    /// No replicas, the empty vector, one range from the first item id on.
    pub fn smallest() -> Self {
        Self::filled(0, 1, 1)
    }

    /// The longest knowledge that the limits allow.
    pub fn largest() -> Self {
        Self::filled(16, 65, 64)
    }

    /// `r` replicas, `v` vectors of which all but the first have an element for every replica, and `g` ranges, which
    /// go through the vectors from the second one on. No tick occurs twice.
    pub fn filled(r: usize, v: usize, g: usize) -> Self {
        let mut tick = 0;
        let mut vector = || {
            let mut element = |key| {
                tick += 1;
                (key, tick)
            };
            (0..r as u32).map(&mut element).collect()
        };
        Self {
            replicas: (1..=r as u128).map(replica_id).collect(),
            vectors: (0..v).map(|k| if k == 0 { Vec::new() } else { vector() }).collect(),
            ranges: (0..g).map(|k| (item_id(k as u128), ((k + 1) % v) as u32)).collect(),
        }
    }

    /// 64 unlike ranges of which the first starts at item 1 and has a vector that is not empty: within the limits, but
    /// its normal form is not.
    pub fn late_start() -> Self {
        let mut knowledge = Self::filled(2, 65, 64);
        for (k, (bound, _)) in knowledge.ranges.iter_mut().enumerate() {
            *bound = item_id(1 + k as u128);
        }
        knowledge
    }

    /// The paper's A: tick 5 of replica P, which has id 1, everywhere.
    pub fn a() -> Self {
        Self { replicas: vec![replica_id(1)], vectors: vec![Vec::new(), vec![(0, 5)]], ranges: vec![(item_id(0), 1)] }
    }

    /// The paper's B: tick 3 of P and tick 2 of replica Q, which has id 2, everywhere.
    pub fn b() -> Self {
        Self {
            replicas: vec![replica_id(1), replica_id(2)],
            vectors: vec![Vec::new(), vec![(0, 3), (1, 2)]],
            ranges: vec![(item_id(0), 1)],
        }
    }

    /// A random knowledge without fault, mostly a small one, seldom in normal form.
    pub fn random(random: &mut SplitMix64) -> Self {
        let (r, v, g) = match random.below(16) {
            0 => (16, 65, 64),
            1..=3 => (16, 12, 12),
            _ => (4, 5, 5),
        };
        let r = random.between(0, r);
        let v = random.between(1, v);
        let g = random.between(1, g);
        let mut replicas = distinct_ids(random, r);
        random.shuffle(&mut replicas);
        let mut vectors = vec![Vec::new()];
        vectors.resize_with(v, || {
            let mut keys: Vec<u32> = (0..r as u32).collect();
            random.shuffle(&mut keys);
            if random.once_in(2) {
                keys.truncate(random.between(0, r));
            }
            keys.into_iter().map(|key| (key, random_tick(random))).collect()
        });
        let bounds = distinct_ids(random, g);
        let ranges = bounds.into_iter().map(|bound| (bound, random.below(v) as u32)).collect();
        Self { replicas, vectors, ranges }
    }

    /// What the bytes of a knowledge without fault say.
    pub fn decoded(bytes: &[u8]) -> Self {
        Self::read(bytes).expect("the knowledge is without fault")
    }

    /// What bytes in normal form say; none where they are not a knowledge in normal form within the limits.
    pub fn in_normal_form(bytes: &[u8]) -> Option<Self> {
        let knowledge = Self::read(bytes)?;
        let (r, v) = (knowledge.replicas.len() as u32, knowledge.vectors.len() as u32);
        let counts = r <= 16 && (1..=65).contains(&v) && (1..=64).contains(&knowledge.ranges.len());
        let mut elements = knowledge.vectors.iter().flatten();
        let within = counts
            && elements.all(|(key, tick)| *key < r && *tick <= i64::MAX as u64)
            && knowledge.ranges.iter().all(|(_, index)| *index < v);
        (within && knowledge.bytes() == bytes && knowledge.is_normal()).then_some(knowledge)
    }

    /// Reads what is not fixed; none where the bytes end before.
    fn read(bytes: &[u8]) -> Option<Self> {
        let mut rest = bytes;
        let mut take = |n| {
            let (field, behind) = rest.split_at_checked(n)?;
            rest = behind;
            Some(field.iter().fold(0, |number: u128, byte| (number << 8) | u128::from(*byte)))
        };
        take(16 + 7)?;
        let r = take(4)?;
        let replicas = (0..r).map(|_| take(16).map(replica_id)).collect::<Option<_>>()?;
        take(13 + 4)?;
        let v = take(4)?;
        let mut vector = |_| {
            take(4)?;
            let n = take(4)?;
            (0..n).map(|_| Some((take(4)? as u32, take(8)? as u64))).collect()
        };
        let vectors = (0..v).map(&mut vector).collect::<Option<_>>()?;
        take(12)?;
        let g = take(4)?;
        let mut range = |_| {
            let (high, low) = (take(8)? as u64, take(16)?);
            let mut bound = item_id(low);
            bound[..8].copy_from_slice(&high.to_be_bytes());
            Some((bound, take(4)? as u32))
        };
        let ranges = (0..g).map(&mut range).collect::<Option<_>>()?;
        Some(Self { replicas, vectors, ranges })
    }

    pub fn bytes(&self) -> Vec<u8> {
        self.write().bytes
    }

    pub fn write(&self) -> Written {
        let mut out = Written::default();
        out.fixed_u32([5, 0, 1, 0]);

        out.fixed_u32([5]);
        out.field(Kind::Fixed, &[0]);
        out.field(Kind::Fixed, &[0, 16]);
        out.number(Kind::ReplicaCount, self.replicas.len() as u32);
        for id in &self.replicas {
            out.field(Kind::ReplicaId, id);
        }

        out.fixed_u32([24]);
        for bytes in [&[0][..], &[0, 16], &[0], &[0, 24], &[0], &[0, 1]] {
            out.field(Kind::Fixed, bytes);
        }

        out.fixed_u32([21]);
        out.number(Kind::VectorCount, self.vectors.len() as u32);
        for vector in &self.vectors {
            out.fixed_u32([1]);
            out.number(Kind::ElementCount, vector.len() as u32);
            for (key, tick) in vector {
                out.number(Kind::Key, *key);
                out.field(Kind::Tick, &tick.to_be_bytes());
            }
        }

        out.fixed_u32([23, 1, 22]);
        out.number(Kind::RangeCount, self.ranges.len() as u32);
        for (bound, index) in &self.ranges {
            out.field(Kind::Bound, bound);
            out.number(Kind::Index, *index);
        }

        out.fixed_u32([0, 25]);
        out.field(Kind::Fixed, &[1]);
        out.fixed_u32([0]);
        out
    }
}

impl Written {
    pub fn field(&mut self, kind: Kind, value: &[u8]) {
        self.fields.push(Field { kind, start: self.bytes.len(), size: value.len() });
        self.bytes.extend_from_slice(value);
    }

    pub fn number(&mut self, kind: Kind, number: u32) {
        self.field(kind, &number.to_be_bytes());
    }

    fn fixed_u32<const N: usize>(&mut self, numbers: [u32; N]) {
        for number in numbers {
            self.number(Kind::Fixed, number);
        }
    }

    /// Writes what was written elsewhere, with its fields.
    pub fn append(&mut self, other: &Written) {
        let start = self.bytes.len();
        self.fields.extend(other.fields.iter().map(|field| Field { start: start + field.start, ..*field }));
        self.bytes.extend_from_slice(&other.bytes);
    }

    pub fn value(&self, field: Field) -> &[u8] {
        &self.bytes[field.start..field.start + field.size]
    }
}

/// `count` distinct ids in increasing order, either close together or far apart.
fn distinct_ids<const N: usize>(random: &mut SplitMix64, count: usize) -> Vec<[u8; N]> {
    let mut ids = BTreeSet::new();
    let base = match random.below(3) {
        0 => [0; N],
        1 => [255; N],
        _ => random.bytes(),
    };
    let place = random.below(N);
    let style = random.below(4);
    while ids.len() < count {
        let mut id = base;
        match style {
            0 => id = random.bytes(),
            1 => id[place] = random.byte(),
            2 => id[N - 1] = id[N - 1].wrapping_add(ids.len() as u8),
            _ => id[random.below(N)] = random.byte(),
        }
        ids.insert(id);
    }
    ids.into_iter().collect()
}

/// A tick within the limits, often at an edge.
fn random_tick(random: &mut SplitMix64) -> u64 {
    const EDGES: [u64; 8] = [0, 1, 2, 255, 256, u32::MAX as u64, 1 << 32, i64::MAX as u64];
    if random.once_in(3) { *random.choose(&EDGES) } else { random.next_u64() >> random.between(1, 63) }
}

#[cfg(test)]
mod tests {
    use super::*;

    #[test]
    fn lengths_follow_the_formula() {
        let mut random = SplitMix64::new(1);
        for _ in 0..1000 {
            let knowledge = Knowledge::random(&mut random);
            let elements: usize = knowledge.vectors.iter().map(Vec::len).sum();
            let length = 77
                + 16 * knowledge.replicas.len()
                + 8 * knowledge.vectors.len()
                + 12 * elements
                + 28 * knowledge.ranges.len();
            assert_eq!(knowledge.bytes().len(), length);
        }
    }

    #[test]
    fn decoding_gives_what_was_written() {
        let mut random = SplitMix64::new(1);
        for _ in 0..1000 {
            let knowledge = Knowledge::random(&mut random);
            assert_eq!(Knowledge::decoded(&knowledge.bytes()), knowledge);
        }
    }

    #[test]
    fn fields_follow_each_other_without_gaps() {
        let written = Knowledge::filled(3, 4, 5).write();
        let end = written.fields.iter().fold(0, |end, field| {
            assert_eq!(field.start, end);
            end + field.size
        });
        assert_eq!(end, written.bytes.len());
    }
}
