//! The inputs on which the engine and the reference are compared: one deterministic row of them, for the tests, for
//! the run under valgrind and for the benchmark.

#![forbid(unsafe_code)]

mod batches;
mod borders;
mod breaches;
mod calls;
mod changing;
mod comparing;
mod edits;
mod families;
mod full;
mod instances;
mod knowledge;
mod limits;
mod meaning;
mod merges;
mod pairs;
mod plan;
mod reading;
mod record;
mod replication;
mod rows;
mod shares;
mod splitmix;
mod store;
mod stores;
mod worst;
mod writing;

pub use batches::shapes as batch_shapes;
pub use borders::{AnyCall, BORDERS, Border, End, Side, vector_hash, vector_word};
pub use calls::{Call, faulty};
pub use changing::Changing;
pub use comparing::{Comparing, LARGEST_COMPARISON};
pub use instances::{Instance, instances};
pub use knowledge::{Field, Kind, Knowledge, Written, item_id, replica_id};
pub use limits::{alike_but_for_the_last, backwards};
pub use meaning::{FIRST_ITEM, ItemId, LAST_ITEM, ReplicaId, item_before, next_item};
pub use merges::drawn_pair;
pub use pairs::{Three, rising};
pub use plan::{CallInput, Input, Plan, number_from_environment};
pub use reading::Reading;
pub use record::{LIVE, Record, TOMBSTONE, Version};
pub use replication::ALL;
pub use rows::{Changings, Comparings, Lookups, Readings, Row, Writings};
pub use shares::{containing, containing_tick_1, store_of, with_one_more};
pub use splitmix::SplitMix64;
pub use store::{Batch, Store};
pub use stores::shapes as store_shapes;
pub use worst::{
    alike_but_for, first_replica_missing, hashes_alike, id_alike_at_both_ends, ids_alike_at_both_ends,
    merged_words_alike, shuffled, used_twice, vectors_backwards, words_alike,
};
pub use writing::{LONGEST, Room, Writing};
