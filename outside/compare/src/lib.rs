//! The proved library, called through its C functions, and what the comparison
//! programs share.

pub mod bits;
pub mod bulk;
pub mod faults;
pub mod floats;
pub mod guard;
pub mod image;
pub mod layout;
pub mod line;
pub mod listing;
pub mod points;
pub mod readings;
pub mod receiving;
pub mod sectors;
pub mod sending;
pub mod settled;
pub mod signal;
pub mod stores;
pub mod storing;
pub mod summing;
pub mod tally;
pub mod timing;
pub mod v41;
pub mod wrapper;
