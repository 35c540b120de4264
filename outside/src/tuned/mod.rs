//! The hot calls again, written for speed: the same results as the plain ones,
//! with loops of their own for each mode and role.

mod append;
mod chain;
mod guard;
mod levels;
mod list;
mod passes;
mod receive;
mod send;
mod serial;
mod sums;
mod symbol;
mod v41;

pub use append::append_points;
pub use levels::receive_level_points;
pub use list::{list, LISTING_ROOM};
pub use receive::{receive_in_passes, receive_points};
pub use send::send;
pub use sums::sums;
pub use v41::{v41_check, v41_make};
