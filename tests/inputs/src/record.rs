//! Records as values.

use crate::knowledge::{Kind, Written};
use crate::meaning::{ItemId, ReplicaId};

pub const LIVE: u8 = 1;
pub const TOMBSTONE: u8 = 2;

/// A replica and its tick.
pub type Version = (ReplicaId, u64);

/// A record. Nothing is seen to, so that faulty ones can be written as well.
#[derive(Clone, Debug, PartialEq, Eq)]
pub struct Record {
    pub kind: u8,
    pub item: ItemId,
    pub change: Version,
    pub create: Version,
    pub tag: [u8; 16],
}

impl Record {
    /// The length of its bytes, whatever its kind.
    pub const LENGTH: usize = 89;

    pub fn write(&self, out: &mut Written) {
        out.field(Kind::RecordKind, &[self.kind]);
        out.field(Kind::Item, &self.item);
        for (replica, tick) in [self.change, self.create] {
            out.field(Kind::VersionReplica, &replica);
            out.field(Kind::VersionTick, &tick.to_be_bytes());
        }
        out.field(Kind::Tag, &self.tag);
    }

    /// What the bytes of a record say.
    pub fn decoded(bytes: &[u8]) -> Self {
        assert_eq!(bytes.len(), Self::LENGTH);
        let tick = |at: usize| u64::from_be_bytes(part(bytes, at));
        Self {
            kind: bytes[0],
            item: part(bytes, 1),
            change: (part(bytes, 25), tick(41)),
            create: (part(bytes, 49), tick(65)),
            tag: part(bytes, 73),
        }
    }

    /// Whether kind and tag go together, and the ticks.
    pub fn is_formed(&self) -> bool {
        const LARGEST: u64 = i64::MAX as u64;
        let kind = self.kind == LIVE || (self.kind == TOMBSTONE && self.tag == [0; 16]);
        let ticks = [self.change.1, self.create.1].iter().all(|tick| (1..=LARGEST).contains(tick));
        kind && ticks && self.create.1 <= self.change.1
    }

    /// What decides who wins: the change tick, then the change replica.
    pub fn rank(&self) -> (u64, ReplicaId) {
        (self.change.1, self.change.0)
    }
}

/// The bytes at a place.
pub fn part<const N: usize>(bytes: &[u8], at: usize) -> [u8; N] {
    bytes[at..at + N].try_into().expect("as many bytes as asked for")
}
