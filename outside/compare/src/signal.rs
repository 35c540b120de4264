//! A mode with one of its roles.

use outside::mode::{modes_and_roles, Mode};
use outside::receiver::{self, Receiver};
use outside::scrambler::Scrambler;

#[derive(Clone, Copy, Debug)]
pub struct Signal {
    pub mode: &'static Mode,
    pub role: u8,
}

impl Signal {
    /// Every mode with each of its roles.
    pub fn all() -> impl Iterator<Item = Signal> {
        modes_and_roles().map(|(mode, role)| Signal { mode, role })
    }

    /// Every mode with role 0.
    pub fn with_role_0() -> impl Iterator<Item = Signal> {
        Signal::all().filter(|signal| signal.role == 0)
    }

    /// A receiver that has taken nothing.
    pub fn receiver(self) -> Receiver {
        receiver::fresh(self.mode.number, self.role).expect("a mode and its role")
    }

    pub fn scrambler(self) -> Scrambler {
        Scrambler::of(self.mode, self.role).expect("a role of the mode")
    }
}
