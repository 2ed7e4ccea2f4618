//! What a batch of calls may leave of the plain disk where it was stored in part:
//! each call is old or new by itself, as a stopped one may be.

use std::collections::BTreeMap;

use super::{settle, Call, Series};

/// What a guest cluster may hold: at each byte what one of these has there.
type Mixed = Vec<Vec<u8>>;

impl Series<'_> {
    /// Calls, each with the image that it was planned on, whose stores reached a drive
    /// in part, which then holds `now`.
    pub fn cut_batch<'a>(
        &mut self,
        calls: impl Iterator<Item = (&'a [u8], Call<'a>)>,
        now: &[u8],
    ) -> Result<(), String> {
        let mut clusters: BTreeMap<u64, Vec<Mixed>> = BTreeMap::new();
        for (image, call) in calls {
            let Ok((_, counts)) = settle(image, self.side.backing, call) else { continue };
            let Some((cluster, at, new)) = self.asked(call) else { continue };
            let old = || vec![vec![self.cluster(cluster)]];
            let may = clusters.entry(cluster).or_insert_with(old);
            let more: Vec<Mixed> = may.iter().map(|may| after(may, at, &new, counts)).collect();
            match counts {
                // All old or all new.
                true => may.extend(more),
                false => *may = more,
            }
            may.sort_unstable();
            may.dedup();
        }
        for (cluster, may) in clusters {
            let offset = cluster * self.disk.page;
            let held = self.read(now, offset, may[0][0].len())?;
            if !may.iter().any(|may| holds(may, &held)) {
                return Err(format!("guest cluster {cluster} is after no such calls"));
            }
            self.disk.set(offset, &held);
        }
        self.hold(now, false)
    }

    /// The guest cluster of a call, where in it, and its bytes afterwards.
    fn asked(&self, call: Call) -> Option<(u64, usize, Vec<u8>)> {
        let page = self.disk.page;
        match call {
            Call::Write { data: [], .. } | Call::Repair { .. } => None,
            Call::Write { offset, data } => {
                Some((offset / page, (offset % page) as usize, data.to_vec()))
            }
            Call::Discard { cluster } => Some((cluster, 0, vec![0; self.cluster(cluster).len()])),
        }
    }

    fn cluster(&self, cluster: u64) -> Vec<u8> {
        let offset = cluster * self.disk.page;
        self.disk.get(offset, self.disk.page.min(self.disk.size - offset) as usize)
    }
}

/// Whole, or any bytes of it.
fn after(may: &Mixed, at: usize, new: &[u8], whole: bool) -> Mixed {
    let put = |bytes: &Vec<u8>| {
        let mut bytes = bytes.clone();
        bytes[at..at + new.len()].copy_from_slice(new);
        bytes
    };
    match whole {
        true => may.iter().map(put).collect(),
        false => may.iter().cloned().chain([put(&may[0])]).collect(),
    }
}

fn holds(may: &Mixed, held: &[u8]) -> bool {
    (0..held.len()).all(|k| may.iter().any(|bytes| bytes[k] == held[k]))
}
