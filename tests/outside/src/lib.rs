//! The engine from outside, through its C interface: called, compared with the reference, and measured.

#![deny(unsafe_code)]

pub mod borders;
mod buffer;
pub mod calls;
pub mod changing;
pub mod check;
pub mod comparing;
#[allow(unsafe_code)]
pub mod engine;
pub mod laws;
#[cfg(test)]
mod lenient;
pub mod lists;
pub mod moves;
mod one;
pub mod overview;
pub mod reading;
mod row;
pub mod stand_in;
mod tally;
pub mod writing;
#[cfg(test)]
mod wrong;
