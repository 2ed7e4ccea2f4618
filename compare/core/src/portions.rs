//! The check in portions, for a store that has little time at once.

use answers::{CheckBytes, Portion, Verdict};

use crate::{ffi, judged, lend, lend_mut};

/// Takes the next `may` L1 entries, or all that are left, counts the references through
/// them into `scratch`, and leaves in `state` where to go on. With no entry left it judges
/// the stored counts. From [`CheckBytes::NEW`] on, with image, backing file, state and
/// scratch left alone between two portions, that is what [`check`](crate::check) says, and
/// the scratch is as it leaves it.
///
/// A refusal that a state was made up to tell is [`Portion::Refused`] too.
pub fn check_portion(
    image: &[u8],
    backing: &[u8],
    state: &mut CheckBytes,
    scratch: &mut [u8],
    may: u64,
) -> Portion {
    let mut pad = 0;
    let ((image, n), (backing, b)) = (lend(image), lend(backing));
    let (scratch, m) = lend_mut(scratch, &mut pad);
    let state = state.0.as_mut_ptr();
    // SAFETY: see the head of lib.rs; the state has the length that the call knows.
    let verdict = judged(|first, second, third| unsafe {
        ffi::qcow2_backed_check_portion(
            image, n, backing, b, state, scratch, m, may, first, second, third,
        )
    });
    match verdict {
        Verdict::Refused(ffi::MORE) => Portion::More,
        Verdict::Refused(number) => Portion::Refused(number),
        verdict => Portion::Told(verdict),
    }
}
