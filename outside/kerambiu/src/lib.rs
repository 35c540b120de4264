//! The line recorder's symbol codec for Rust: V.27 ter and uncoded V.32 points to
//! bits and back, track stores, V.41 blocks. The library is proved; this package
//! calls its C functions and keeps states as types.
//!
//! A call that cannot be done gives a [`Refusal`], which has a number and prints its
//! sentence; the value that it was called on is then as it was. Points are re and im
//! in turn, 1024 units to a level; bits are bytes of 0 or 1, first in time first.
//!
//! ```
//! use kerambiu::{Answer, Mode, Receiver, Refusal, Role, Sender};
//!
//! # fn main() -> Result<(), Refusal> {
//! let (mut sender, training) = Sender::open(Mode::V27Ter2400, Role::Calling, 0)?;
//! let mut receiver = Receiver::new(Mode::V27Ter2400, Role::Calling)?;
//! receiver.points(&training)?;
//! let points = sender.send(&[1, 0])?;
//! match receiver.point(points[0], points[1])? {
//!     Answer::Bits { data, unsettled: 0, .. } => assert_eq!(data, 0b10),
//!     other => panic!("{other:?}"),
//! }
//! # Ok(())
//! # }
//! ```

mod mode;
pub mod raw;
mod receiver;
mod refusal;
mod sender;
mod settled;
mod store;
pub mod v41;

pub use mode::{Mode, Role};
pub use receiver::{Answer, Block, Receiver};
pub use refusal::Refusal;
pub use sender::Sender;
pub use settled::{settled_bits, Run, Runs};
pub use store::{list, Event, Store, Sums};
