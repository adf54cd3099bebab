//! The sync knowledge engine once more, in plain Rust.
//!
//! It is written from the paper that sets the layout, the limits and the numbers of the refusals, and from nothing
//! else, so that the engine can be compared with it. It is also what the engine's speed is measured against.

#![forbid(unsafe_code)]

mod batch;
mod changes;
mod compare;
mod cover;
mod cursor;
mod exchange;
mod forward;
mod ids;
mod knowledge;
mod lookup;
mod normal;
mod operations;
mod parts;
mod record;
pub mod refusal;
mod store;
mod table;
mod view;
mod writer;

pub use changes::{delete, edit, new};
pub use compare::compare;
pub use cover::cover;
pub use exchange::{apply, make};
pub use knowledge::{Sizes, check};
pub use lookup::{contain, lead};
pub use operations::{merge, normalise, project};
pub use parts::{Coverage, Winner, coverage, knowledge, largest_jump, learned, walk, winner};
