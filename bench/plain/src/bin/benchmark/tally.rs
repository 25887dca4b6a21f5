//! What came of a work.

use std::fmt;

/// How many acts or readings there were, how many of them were accepted, and a checksum of all that was seen.
#[derive(Clone, Copy, Debug, Default)]
pub struct Tally {
    done: u64,
    accepted: u64,
    checksum: u64,
}

impl Tally {
    /// Something was seen that has a number.
    pub fn see(&mut self, number: u8) {
        self.checksum = self
            .checksum
            .wrapping_mul(31)
            .wrapping_add(u64::from(number));
    }

    /// An act or a reading was accepted.
    pub fn accept(&mut self) {
        self.done += 1;
        self.accepted += 1;
        self.see(0);
    }

    /// An act was refused, or a plan rejected, with a number.
    pub fn refuse(&mut self, number: u8) {
        self.done += 1;
        self.see(number);
    }
}

impl fmt::Display for Tally {
    fn fmt(&self, f: &mut fmt::Formatter) -> fmt::Result {
        let Tally {
            done,
            accepted,
            checksum,
        } = self;
        write!(f, "done {done}, accepted {accepted}, checksum {checksum}")
    }
}
