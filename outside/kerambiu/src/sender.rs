//! The sender: data bits to points, training first.

use crate::raw::{self, STATE_BYTES};
use crate::refusal::outcome;
use crate::{Mode, Refusal, Role};

/// A sender's state behind its training, always a sound one.
#[derive(Clone, PartialEq, Eq, Debug)]
pub struct Sender {
    state: [u8; STATE_BYTES],
}

impl Sender {
    /// Opens a sender: its state, and the points of its training. For the length see
    /// [`Mode::training_points`].
    pub fn open(mode: Mode, role: Role, length: u32) -> Result<(Sender, Vec<i16>), Refusal> {
        let mut state = [0; STATE_BYTES];
        let mut points = vec![0; 2 * mode.training_points(length).unwrap_or(0)];
        let (number, sender) = (mode.number(), role.number());
        outcome(raw::open(
            &mut state,
            number,
            sender,
            length,
            &mut points,
            0,
        ))?;
        Ok((Sender { state }, points))
    }

    /// The sender that these bytes are the state of.
    pub fn from_bytes(bytes: [u8; STATE_BYTES]) -> Result<Sender, Refusal> {
        let mut state = bytes;
        outcome(raw::send(&mut state, &[], &mut [], 0))?;
        Ok(Sender { state })
    }

    /// The state, laid out as in `include/kerambiu.h`.
    pub fn bytes(&self) -> [u8; STATE_BYTES] {
        self.state
    }

    pub fn mode(&self) -> Mode {
        Mode::try_from(self.state[0]).expect("a sound state has a mode")
    }

    pub fn role(&self) -> Role {
        Role::try_from(self.state[1]).expect("a sound state has a role")
    }

    /// Sends data bits, so many that they fill points; gives the points, re and im in
    /// turn.
    pub fn send(&mut self, bits: &[u8]) -> Result<Vec<i16>, Refusal> {
        let mut points = vec![0; 2 * (bits.len() / self.mode().bits_in_point())];
        outcome(raw::send(&mut self.state, bits, &mut points, 0))?;
        Ok(points)
    }
}
