//! The numbers of the refusals.

/// The bytes end inside a field.
pub const CUT: u32 = 1;
/// A fixed field differs.
pub const FIXED_FIELD: u32 = 2;
/// The count of replicas, vectors or ranges is beyond its limits, or an element count is above the count of replicas.
pub const COUNT: u32 = 3;
/// The first clock vector is not empty.
pub const FIRST_VECTOR: u32 = 4;
/// A replica id has been seen before.
pub const REPLICA_ID: u32 = 5;
/// A replica key is at or above the count of replicas, or repeated in its vector.
pub const KEY: u32 = 6;
/// A tick is above 2^63 − 1.
pub const TICK: u32 = 7;
/// A range's bound is not above the one before.
pub const BOUND: u32 = 8;
/// A clock vector index is at or above the count of vectors.
pub const INDEX: u32 = 9;
/// Bytes are left over behind the last field.
pub const LEFT_OVER: u32 = 10;
/// The result has over 16 replicas.
pub const RESULT_REPLICAS: u32 = 11;
/// The result has over 64 ranges.
pub const RESULT_RANGES: u32 = 12;
/// The result has over 256 records.
pub const RESULT_RECORDS: u32 = 13;
/// The output buffer is shorter than the result.
pub const BUFFER: u32 = 14;
/// The store is not valid.
pub const STORE: u32 = 15;
/// The batch is not valid.
pub const BATCH: u32 = 16;
/// An item id is not 24, a replica id or tag not 16 bytes long, or a span's first id is above its last.
pub const IDS: u32 = 17;
/// The store does not cover what the batch needs, or the batch has learned of a later tick of the store's own replica.
pub const NOT_COVERED: u32 = 18;
/// The item is absent or a tombstone.
pub const ABSENT: u32 = 19;
/// The largest tick is reached.
pub const LAST_TICK: u32 = 20;
