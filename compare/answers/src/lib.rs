//! The answers of the image calls, and the calls as a trait, so that two
//! implementations can be fed the same requests.
#![forbid(unsafe_code)]

mod batches;
mod calls;
mod portions;
mod steps;

pub use batches::{Batches, Planned, PHASES};
pub use calls::{Calls, Over};
pub use portions::{CheckBytes, Portion, CHECK_STATE};
pub use steps::{Geometry, Step, STEP};

/// What stands behind one guest offset.
#[derive(Clone, Copy, Debug, PartialEq, Eq)]
pub enum Found {
    Host(u64),
    Zeros,
    Absent,
    Refused(u32),
}

impl Found {
    /// What is found `i` bytes on where the guest bytes go on alike.
    pub fn moved(self, i: u64) -> Found {
        match self {
            Found::Host(host) => Found::Host(host + i),
            other => other,
        }
    }
}

/// Guest bytes that go on alike: what the first is, and how many they are.
#[derive(Clone, Copy, Debug, PartialEq, Eq)]
pub struct Run {
    pub found: Found,
    pub length: u64,
}

/// Kinds of a run in the calls' rows beside 0, for a host offset, and numbers.
pub const ZEROS: u32 = 1002;
pub const ABSENT: u32 = 1003;

impl Run {
    /// A run as a row of three numbers: kind, host offset (0 where there is
    /// none), length.
    pub fn row(self) -> [u64; 3] {
        let (kind, host) = match self.found {
            Found::Host(host) => (0, host),
            Found::Zeros => (ZEROS, 0),
            Found::Absent => (ABSENT, 0),
            Found::Refused(number) => (number, 0),
        };
        [kind.into(), host, self.length]
    }

    pub fn of_row([kind, host, length]: [u64; 3]) -> Run {
        let found = match kind as u32 {
            0 => Found::Host(host),
            ZEROS => Found::Zeros,
            ABSENT => Found::Absent,
            number => Found::Refused(number),
        };
        Run { found, length }
    }
}

/// How a storing call ended, with the units spent.
#[derive(Clone, Copy, Debug, PartialEq, Eq)]
pub enum Outcome {
    Finished(u64),
    Stopped(u64),
    Refused(u32),
}

/// What the check says of an image.
#[derive(Clone, Copy, Debug, PartialEq, Eq)]
pub enum Verdict {
    Sound,
    /// Number of clusters whose count is above their references.
    Leaks(u64),
    /// L1 index of the first bad entry.
    BadL1(u64),
    /// L1 and L2 index of the first bad entry.
    BadL2(u64, u64),
    /// The same in a snapshot's L1 table; the snapshot's number comes last.
    SnapshotBadL1(u64, u64),
    /// The same below a snapshot's L1 table; the snapshot's number comes last.
    SnapshotBadL2(u64, u64, u64),
    /// Lowest cluster that has two roles, or one of them twice.
    Shared(u64),
    /// Lowest cluster whose count is below its references.
    Short(u64),
    /// L1 index of the first active entry whose bit 63 is wrong.
    MarkL1(u64),
    /// L1 and L2 index of the first active entry whose bit 63 is wrong.
    MarkL2(u64, u64),
    Refused(u32),
}

impl Verdict {
    /// Sound or leaking: neither damaged nor refused.
    pub fn is_usable(self) -> bool {
        matches!(self, Verdict::Sound | Verdict::Leaks(_))
    }
}
