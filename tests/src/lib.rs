//! Outside evidence for Yoldrim, the decision routine of a vehicle's warning
//! unit: a second implementation of documents 01 and 02 in Rust, a comparison
//! of it with the proved static library, and a benchmark.

pub mod busiest;
pub mod comparison;
pub mod days;
pub mod faults;
#[cfg(library)]
pub mod ffi;
#[cfg(library)]
pub mod layout;
pub mod lent_block;
pub mod plain;
pub mod printing;
pub mod random;
pub mod receiver;
pub mod reference;
pub mod scenes;
pub mod tally;
pub mod unit;
