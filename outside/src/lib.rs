//! The line recorder's symbol codec in plain Rust, written from document 01
//! (`01-scope.md`), requests of document 02
//! (`02-change-requests.md`) and Recommendations V.27 ter (000), V.32 (001) and
//! V.41 (002).
//!
//! It is the outside implementation that the proved one is compared with.
//! Every public call is total; a refused call gives its number alone and leaves
//! states and buffers as they were.

pub mod assurance;
pub mod code;
pub mod front;
pub mod image;
pub mod limits;
pub mod listing;
pub mod mode;
pub mod object;
pub mod patterns;
pub mod point;
pub mod reading;
pub mod receiver;
pub mod refusal;
pub mod rng;
pub mod scrambler;
pub mod sender;
pub mod settled;
pub mod store;
pub mod sums;
pub mod training;
pub mod tuned;
pub mod units;
pub mod v41;
