//! The check in portions: its state, and what a portion answers.

use crate::Verdict;

/// Bytes of a state.
pub const CHECK_STATE: usize = 56;

/// The state of a check in portions, kept between them by whoever runs it. Any bytes
/// are a state.
#[derive(Clone, Copy, PartialEq, Eq, Debug)]
pub struct CheckBytes(pub [u8; CHECK_STATE]);

impl CheckBytes {
    /// The state that a check begins with.
    pub const NEW: CheckBytes = CheckBytes([0; CHECK_STATE]);

    /// The seven numbers that the bytes are.
    pub fn numbers(&self) -> [u64; 7] {
        std::array::from_fn(|k| u64::from_be_bytes(self.0.as_chunks().0[k]))
    }

    pub fn of_numbers(numbers: [u64; 7]) -> CheckBytes {
        let mut bytes = CheckBytes::NEW;
        let places = bytes.0.as_chunks_mut().0.iter_mut();
        places.zip(numbers).for_each(|(place, number)| *place = number.to_be_bytes());
        bytes
    }
}

impl Default for CheckBytes {
    fn default() -> CheckBytes {
        CheckBytes::NEW
    }
}

/// What a portion of a check answers.
#[derive(Clone, Copy, Debug, PartialEq, Eq)]
pub enum Portion {
    /// Nothing has changed.
    Refused(u32),
    /// The check is not finished yet.
    More,
    /// It is, and says this of the image.
    Told(Verdict),
}
