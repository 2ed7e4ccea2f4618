//! The calls that change guest clusters, one guest cluster each.

use qcow2_core::{Outcome, Planned, Step, STEP};

use crate::planner::{batch_discard, batch_write};

#[derive(Clone, Copy)]
pub enum Call<'a> {
    Write { offset: u64, data: &'a [u8] },
    Discard { cluster: u64 },
}

impl Call<'_> {
    /// `backing` is the bytes of the backing file, here and below.
    pub fn run(&self, image: &mut [u8], backing: &[u8], allowance: u64) -> Outcome {
        match *self {
            Call::Write { offset, data } => {
                qcow2_core::write(image, backing, offset, data, allowance)
            }
            Call::Discard { cluster } => qcow2_core::discard(image, backing, cluster, allowance),
        }
    }

    /// What the call is going to change in this image, or with which number it
    /// will be refused.
    pub fn steps(&self, image: &[u8], backing: &[u8]) -> Result<Vec<Step>, u32> {
        let mut rows = [0; STEP * MOST];
        let count = match *self {
            Call::Write { offset, data } => {
                qcow2_core::write_steps(image, backing, offset, data.len() as u64, &mut rows)?
            }
            Call::Discard { cluster } => {
                qcow2_core::discard_steps(image, backing, cluster, &mut rows)?
            }
        };
        Ok(Step::of_rows(&rows[..STEP * count]).collect())
    }

    /// Do steps that are listed of this call change bytes, whatever these hold? All do
    /// that have a count or an entry; data in place may be there already.
    pub fn is_sure(&self, steps: &[Step]) -> bool {
        let clearing = |step: &&Step| step.epoch == 0;
        let others = steps.len() - steps.iter().filter(clearing).count();
        !(others == 1 && matches!(self, Call::Write { .. }))
    }

    /// The same for a batch: its steps by phase, after the first `held` rows.
    pub fn plan(&self, image: &[u8], backing: &[u8], rows: &mut [u64], held: usize) -> Planned {
        match *self {
            Call::Write { offset, data } => {
                batch_write(image, backing, offset, data.len() as u64, rows, held)
            }
            Call::Discard { cluster } => batch_discard(image, backing, cluster, rows, held),
        }
    }
}

/// A write has the most steps.
const MOST: usize = 7;

/// A write as calls that each lie inside one guest cluster. The range does not
/// run past the disk's end.
pub fn writes(offset: u64, data: &[u8], bits: u32) -> impl Iterator<Item = Call<'_>> + Clone {
    let cluster = 1usize << bits;
    let first = cluster - (offset as usize & (cluster - 1));
    let (head, rest) = data.split_at(first.min(data.len()));
    let head = Some(head).filter(|head| !head.is_empty()).into_iter();
    let mut at = offset;
    head.chain(rest.chunks(cluster)).map(move |data| {
        let call = Call::Write { offset: at, data };
        at += data.len() as u64;
        call
    })
}

#[cfg(test)]
mod tests {
    use super::*;

    fn pieces(offset: u64, len: usize) -> Vec<(u64, usize)> {
        let data = vec![0; len];
        let piece = |call| match call {
            Call::Write { offset, data } => (offset, data.len()),
            Call::Discard { .. } => unreachable!(),
        };
        writes(offset, &data, 9).map(piece).collect()
    }

    #[test]
    fn writes_are_split_at_guest_clusters() {
        assert_eq!(pieces(0, 0), []);
        assert_eq!(pieces(510, 2), [(510, 2)]);
        assert_eq!(pieces(510, 3), [(510, 2), (512, 1)]);
        assert_eq!(pieces(512, 1024), [(512, 512), (1024, 512)]);
        assert_eq!(pieces(700, 1000), [(700, 324), (1024, 512), (1536, 164)]);
    }
}
