//! Records, and the records of a store or batch.

use crate::forward::Forward;
use crate::view::{ItemId, REPLICAS, ReplicaId, View, words};

/// As many records as a store or batch has at most.
pub const RECORDS: usize = 256;
/// Kind and body of a record.
pub const LENGTH: usize = 89;
pub const LIVE: u8 = 1;
pub const TOMBSTONE: u8 = 2;
pub const NO_TAG: [u8; 16] = [0; 16];

/// The bytes of a record, its kind in front.
pub type Bytes = [u8; LENGTH];

/// A replica and its tick.
#[derive(Clone, Copy)]
pub struct Version<'a> {
    pub replica: &'a ReplicaId,
    pub tick: u64,
}

#[derive(Clone, Copy)]
pub struct Record<'a>(pub &'a Bytes);

impl<'a> Record<'a> {
    #[inline]
    fn field<const N: usize>(self, at: usize) -> &'a [u8; N] {
        self.0[at..].first_chunk().expect("the field is in the record")
    }

    #[inline]
    pub fn kind(self) -> u8 {
        self.0[0]
    }

    #[inline]
    pub fn item(self) -> &'a ItemId {
        self.field(1)
    }

    #[inline]
    pub fn change(self) -> Version<'a> {
        Version { replica: self.field(25), tick: u64::from_be_bytes(*self.field(41)) }
    }

    #[inline]
    pub fn create(self) -> Version<'a> {
        Version { replica: self.field(49), tick: u64::from_be_bytes(*self.field(65)) }
    }

    #[inline]
    fn tag(self) -> &'a [u8; 16] {
        self.field(73)
    }

    /// Whether the kind is known and the tag goes with it.
    #[inline]
    fn is_formed(self) -> bool {
        match self.kind() {
            LIVE => true,
            TOMBSTONE => *self.tag() == NO_TAG,
            _ => false,
        }
    }

    /// Whether its change wins over that of another record.
    #[inline]
    pub fn wins(self, other: Self) -> bool {
        let (change, other) = (self.change(), other.change());
        (change.tick, change.replica) > (other.tick, other.replica)
    }
}

/// Whether the records rise by item id and each is as it must be, its versions in the knowledge, which is in normal form.
#[inline]
pub fn are_valid(records: &[Bytes], knowledge: &View) -> bool {
    let mut pass = Pass::new(knowledge);
    let mut before = None;
    records.iter().map(Record).all(|record| {
        let item = words(record.item());
        let rises = before.is_none_or(|before| before < item);
        before = Some(item);
        let (change, create) = (record.change(), record.create());
        rises
            && record.is_formed()
            && create.tick >= 1
            && create.tick <= change.tick
            && pass.contains(record.item(), change)
            && (create.replica == change.replica || pass.contains(record.item(), create))
    })
}

/// A pass over the known ticks of items that do not fall.
pub struct Pass<'a> {
    knowledge: &'a View<'a>,
    cursor: Forward<'a>,
    /// The replica that was asked for last, and its key.
    replica: &'a ReplicaId,
    key: usize,
}

impl<'a> Pass<'a> {
    #[inline]
    pub fn new(knowledge: &'a View<'a>) -> Self {
        let (replica, key) = match knowledge.replicas() {
            [first, ..] => (first, 0),
            [] => (&[0; 16], REPLICAS),
        };
        Self { knowledge, cursor: Forward::at_the_start(knowledge.ranges()), replica, key }
    }

    /// Whether the version of an item is contained; its tick is 1 or more.
    #[inline]
    pub fn contains(&mut self, item: &ItemId, version: Version<'a>) -> bool {
        self.cursor.advance(item);
        if version.replica != self.replica {
            self.replica = version.replica;
            self.key = self.knowledge.replicas().iter().position(|id| id == version.replica).unwrap_or(REPLICAS);
        }
        version.tick <= self.knowledge.tick(self.cursor.index(), self.key)
    }
}

/// The place of an item's record among records that rise, or the place where it would stand.
#[inline]
pub fn find(records: &[Bytes], item: &ItemId) -> Result<usize, usize> {
    let item = words(item);
    records.binary_search_by(|record| words(Record(record).item()).cmp(&item))
}
