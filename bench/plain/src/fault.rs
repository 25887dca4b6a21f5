//! Why a plan is rejected, and where.

/// What is wrong with a plan. The number of a cause is its place in this list, from 1.
#[derive(Clone, Copy, Debug, PartialEq, Eq)]
pub enum Cause {
    /// A byte is needed and there is none.
    Ended = 1,
    /// A value is outside its range.
    OutOfRange,
    /// Bytes follow the last record.
    LeftOver,
    /// The fields of an element do not fit its kind.
    Fields,
    /// A join is not sound.
    Join,
    /// An entry signal is marked as requested at a flank.
    EntryMarked,
    /// The path is missing or unsound.
    Path,
    /// The overlap or the zero overlap is not allowed.
    Overlap,
    /// A point without dual field is requested both ways.
    BothWays,
}

impl Cause {
    pub fn number(self) -> u8 {
        self as u8
    }

    /// The layer that finds it: bytes, elements or routes.
    pub fn layer(self) -> u8 {
        match self {
            Cause::Ended | Cause::OutOfRange | Cause::LeftOver => 1,
            Cause::Fields | Cause::Join | Cause::EntryMarked => 2,
            Cause::Path | Cause::Overlap | Cause::BothWays => 3,
        }
    }
}

/// The first fault of a plan, at a byte, an element or a route.
#[derive(Clone, Copy, Debug, PartialEq, Eq)]
pub struct Fault {
    pub cause: Cause,
    pub place: usize,
}
