//! The plain disk: one byte for each guest offset, fed each call of a series,
//! and the claim that holds after every call; and that no call changes a byte of
//! a snapshot. A checker for tests.

mod batch;

use std::collections::{BTreeMap, BTreeSet};

use answers::{Outcome, Over, Verdict};

use crate::entries::Rules;
use crate::header::{be64, lay, Disk, Header};
use crate::list::List;
use crate::storing::{discard_list, write_list};

/// Disks up to this size are compared by one read of the whole.
const WHOLE: u64 = 128 << 10;

/// One call of a series.
#[derive(Clone, Copy, Debug)]
pub enum Call<'a> {
    Write {
        offset: u64,
        data: &'a [u8],
    },
    Discard {
        cluster: u64,
    },
    /// A repair with a scratch of this length.
    Repair {
        scratch: usize,
    },
}

/// Guest bytes in pages of the cluster size; a missing page is the backing file's,
/// zeros past its end or where there is none.
#[derive(Clone)]
struct PlainDisk<'c> {
    size: u64,
    page: u64,
    pages: BTreeMap<u64, Vec<u8>>,
    backing: &'c [u8],
}

impl PlainDisk<'_> {
    fn get(&self, offset: u64, len: usize) -> Vec<u8> {
        let mut bytes = vec![0; len];
        lay(&mut bytes, self.backing.get(offset as usize..).unwrap_or_default());
        self.parts(offset, len, |number, at, range| {
            if let Some(page) = self.pages.get(&number) {
                bytes[range.clone()].copy_from_slice(&page[at..at + range.len()]);
            }
        });
        bytes
    }

    fn set(&mut self, offset: u64, bytes: &[u8]) {
        let mut parts = Vec::new();
        self.parts(offset, bytes.len(), |number, at, range| parts.push((number, at, range)));
        for (number, at, range) in parts {
            let missing = !self.pages.contains_key(&number);
            let (from, bytes) = (offset + range.start as u64, &bytes[range]);
            if missing && self.get(from, bytes.len()) == bytes {
                continue;
            }
            if missing {
                self.pages.insert(number, self.get(number * self.page, self.page as usize));
            }
            let page = self.pages.get_mut(&number).expect("a page");
            page[at..at + bytes.len()].copy_from_slice(bytes);
        }
    }

    /// Page number, place in the page and range of the request, page by page.
    fn parts(
        &self,
        offset: u64,
        len: usize,
        mut part: impl FnMut(u64, usize, std::ops::Range<usize>),
    ) {
        let mut done = 0;
        while done < len {
            let at = offset + done as u64;
            let inside = at % self.page;
            let end = len.min(done + (self.page - inside) as usize);
            part(at / self.page, inside as usize, done..end);
            done = end;
        }
    }
}

/// What the paper settles for a call from the image it is handed: the length
/// of its list and whether that stores a count, or the number.
type Settled = Result<(u64, bool), u32>;

fn settle(image: &[u8], backing: &[u8], call: Call) -> Settled {
    let settled = |list: List| (list.units(), list.stores_a_count());
    match call {
        Call::Write { offset, data } => {
            write_list(image, backing, (offset, data.len() as u64), data).map(settled)
        }
        Call::Discard { cluster } => discard_list(image, backing, cluster).map(settled),
        Call::Repair { scratch } => match crate::check(image, backing, &mut vec![0; scratch]) {
            Verdict::Sound => Ok((0, false)),
            Verdict::Leaks(leaks) => Header::judge(image, backing)
                .map(|header| (List::clearing(&header).units() + leaks, true)),
            Verdict::Refused(number) => Err(number),
            _ => Err(17),
        },
    }
}

fn expected(settled: Settled, allowance: u64) -> Outcome {
    match settled {
        Err(number) => Outcome::Refused(number),
        Ok((units, _)) if units <= allowance => Outcome::Finished(units),
        Ok(_) => Outcome::Stopped(allowance),
    }
}

/// Bytes of a snapshot's disk: its number, the offset and the bytes.
type Kept = (u64, u64, Vec<u8>);

/// A series of calls of one implementation, each lent the same backing file,
/// followed by the plain disk.
#[derive(Clone)]
pub struct Series<'c> {
    side: Over<'c>,
    disk: PlainDisk<'c>,
    /// What the snapshots have kept.
    kept: Vec<Kept>,
}

impl<'c> Series<'c> {
    /// Starts from an image that is sound or leaking.
    pub fn start(side: Over<'c>, image: &[u8]) -> Result<Series<'c>, String> {
        let header = judge(image, side.backing)?;
        let (size, page) = (header.disk.size, header.cluster() as u64);
        let disk = PlainDisk { size, page, pages: BTreeMap::new(), backing: header.backing };
        let mut series = Series { side, disk, kept: Vec::new() };
        series.kept = series.snapshots(image)?;
        for (offset, len) in series.reads(image) {
            let bytes = series.read(image, offset, len)?;
            series.disk.set(offset, &bytes);
        }
        series.hold(image, false)?;
        Ok(series)
    }

    /// Makes one call and tests that the claim holds after it.
    pub fn step(
        &mut self,
        image: &mut [u8],
        call: Call,
        allowance: u64,
    ) -> Result<Outcome, String> {
        let settled = settle(image, self.side.backing, call);
        let outcome = self.run(image, call, allowance);
        let expected = expected(settled, allowance);
        if outcome != expected {
            return Err(format!("answered {outcome:?} in place of {expected:?}"));
        }
        self.feed(image, call, outcome, settled.is_ok_and(|(_, counts)| counts))?;
        let repaired = matches!((call, outcome), (Call::Repair { .. }, Outcome::Finished(_)));
        self.hold(image, repaired)?;
        Ok(outcome)
    }

    /// A call on `image` whose stores reached a drive in part, which then holds
    /// `now`: the claim is that of a stopped call.
    pub fn cut(&mut self, image: &[u8], call: Call, now: &[u8]) -> Result<(), String> {
        let settled = settle(image, self.side.backing, call);
        let counts = settled.is_ok_and(|(_, counts)| counts);
        self.feed(now, call, Outcome::Stopped(0), counts)?;
        self.hold(now, false)
    }

    /// The image was made longer, and what was appended is taken in: all reads agree
    /// with those of the earlier one.
    pub fn goes_on(&self, image: &[u8]) -> Result<(), String> {
        self.hold(image, false)
    }

    fn run(&self, image: &mut [u8], call: Call, allowance: u64) -> Outcome {
        match call {
            Call::Write { offset, data } => self.side.write(image, offset, data, allowance),
            Call::Discard { cluster } => self.side.discard(image, cluster, allowance),
            Call::Repair { scratch } => {
                self.side.repair(image, &mut vec![0xA5; scratch], allowance)
            }
        }
    }

    /// The plain disk's step: the bytes of a stopped call are chosen as they
    /// read, which the claim forces, and must be old or new.
    fn feed(
        &mut self,
        image: &[u8],
        call: Call,
        outcome: Outcome,
        stores_a_count: bool,
    ) -> Result<(), String> {
        let (offset, new) = match call {
            Call::Write { offset, data } => (offset, data.to_vec()),
            Call::Discard { cluster } if !matches!(outcome, Outcome::Refused(_)) => {
                let offset = cluster * self.disk.page;
                let len = self.disk.page.min(self.disk.size - offset);
                (offset, vec![0; len as usize])
            }
            _ => return Ok(()),
        };
        match outcome {
            Outcome::Refused(_) => {}
            Outcome::Finished(_) => self.disk.set(offset, &new),
            Outcome::Stopped(_) => {
                let old = self.disk.get(offset, new.len());
                let now = self.read(image, offset, new.len())?;
                let whole = now == old || now == new;
                let each = (0..now.len()).all(|k| now[k] == old[k] || now[k] == new[k]);
                if !(whole || each && !stores_a_count) {
                    return Err(format!("stopped: bytes at {offset} neither old nor new"));
                }
                self.disk.set(offset, &now);
            }
        }
        Ok(())
    }

    /// Reads agree with the plain disk and with the snapshots, and the check says
    /// sound or leaking.
    fn hold(&self, image: &[u8], repaired: bool) -> Result<(), String> {
        for (offset, len) in self.reads(image) {
            if self.read(image, offset, len)? != self.disk.get(offset, len) {
                return Err(format!("read of {len} at {offset} is not the plain disk's"));
            }
        }
        if self.snapshots(image)? != self.kept {
            return Err("a snapshot has changed".into());
        }
        let mut scratch = vec![0x5A; 2 * image.len() / self.disk.page as usize];
        let verdict = self.side.check(image, &mut scratch);
        if !verdict.is_usable() || repaired && verdict != Verdict::Sound {
            return Err(format!("the check says {verdict:?}"));
        }
        let header = judge(image, self.side.backing)?;
        let differs = |cluster: usize| {
            let count = header.cell(image, cluster).load(image);
            (count == 0) != (scratch[2 * cluster..][..2] == [0; 2])
        };
        match (0..header.clusters).find(|&cluster| repaired && differs(cluster)) {
            Some(cluster) => Err(format!("repaired, but count of {cluster} is wrong")),
            None => Ok(()),
        }
    }

    fn read(&self, image: &[u8], offset: u64, len: usize) -> Result<Vec<u8>, String> {
        let mut out = vec![0xC3; len];
        match self.side.read(image, offset, &mut out) {
            Ok(()) => Ok(out),
            Err(number) => Err(format!("read of {len} at {offset} refused {number}")),
        }
    }

    /// The reads that show the whole disk.
    fn reads(&self, image: &[u8]) -> Vec<(u64, usize)> {
        let Ok(header) = judge(image, self.side.backing) else {
            return Vec::new();
        };
        let mut wanted = mapped(&header, image, header.disk);
        wanted.extend(self.disk.pages.keys());
        self.showing(self.disk.size, wanted)
    }

    /// What the snapshots' disks hold.
    fn snapshots(&self, image: &[u8]) -> Result<Vec<Kept>, String> {
        let header = judge(image, self.side.backing)?;
        let mut kept = Vec::new();
        for (snapshot, &disk) in (0..).zip(&header.snapshots.disks) {
            let wanted = mapped(&header, image, disk);
            for (offset, len) in self.showing(disk.size, wanted) {
                let mut out = vec![0xC3; len];
                match self.side.read_snapshot(image, snapshot, offset, &mut out) {
                    Ok(()) => kept.push((snapshot, offset, out)),
                    Err(number) => return Err(format!("snapshot {snapshot} refused {number}")),
                }
            }
        }
        Ok(kept)
    }

    /// The reads that show a whole disk: one, or for a long disk one around each of
    /// the guest clusters that can be other than what lies underneath, around the
    /// end of this, and the disk's ends.
    fn showing(&self, size: u64, clusters: Vec<u64>) -> Vec<(u64, usize)> {
        if size <= WHOLE {
            return vec![(0, size as usize)];
        }
        let page = self.disk.page;
        let (last, end) = ((size - 1) / page, self.disk.backing.len() as u64 / page);
        let mut wanted: BTreeSet<u64> = clusters.into_iter().collect();
        wanted.extend([0, end.min(last), last]);
        let around = |cluster: u64| {
            let from = (cluster * page).saturating_sub(1);
            let to = size.min((cluster + 1) * page + 1);
            (from, (to - from) as usize)
        };
        wanted.into_iter().map(around).collect()
    }
}

fn judge<'b>(image: &[u8], backing: &'b [u8]) -> Result<Header<'b>, String> {
    Header::judge(image, backing).map_err(|number| format!("refused {number}"))
}

/// Guest clusters below the disk's end whose L2 entry is not 0.
fn mapped(header: &Header, image: &[u8], disk: Disk) -> Vec<u64> {
    let rules = Rules::of(header);
    let per_table = header.cluster() / 8;
    let mut found = Vec::new();
    for l1_index in 0..disk.l1_size {
        let Some(table @ 1..) = rules.l1(be64(image, disk.l1_at + 8 * l1_index)) else {
            continue;
        };
        let entries = (0..per_table).filter(|k| be64(image, table + 8 * k) != 0);
        found.extend(entries.map(|k| (l1_index * per_table + k) as u64));
    }
    found.retain(|&cluster| cluster < header.guest_clusters(disk));
    found
}
