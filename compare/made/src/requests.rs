//! Requests: most of them aimed at what the image holds, the others at 0, the
//! cluster size, the disk's end, 2^32, 2^63 and 2^64.

use std::fmt;

use answers::CheckBytes;

use crate::image::Made;
use crate::rng::Rng;

#[derive(Clone)]
pub enum Request {
    Geometry,
    BackingName,
    Translate {
        offset: u64,
    },
    Read {
        offset: u64,
        len: usize,
    },
    ReadSnapshot {
        snapshot: u64,
        offset: u64,
        len: usize,
    },
    Lookup {
        offset: u64,
    },
    /// With room for this many numbers.
    Runs {
        offset: u64,
        len: u64,
        room: usize,
    },
    Write {
        offset: u64,
        data: Vec<u8>,
        allowance: u64,
    },
    Discard {
        cluster: u64,
        allowance: u64,
    },
    /// With a scratch of this length.
    Repair {
        scratch: usize,
        allowance: u64,
    },
    /// Of an image that had `old` bytes.
    Extend {
        old: u64,
        allowance: u64,
    },
    /// With room for this many numbers, as the next two.
    WriteSteps {
        offset: u64,
        len: u64,
        room: usize,
    },
    DiscardSteps {
        cluster: u64,
        room: usize,
    },
    RepairSteps {
        scratch: usize,
        room: usize,
    },
    Check {
        scratch: usize,
    },
    /// From this state on.
    CheckPortion {
        state: CheckBytes,
        scratch: usize,
        may: u64,
    },
}

/// Like the derived one, with no more than the first bytes of the data.
impl fmt::Debug for Request {
    fn fmt(&self, to: &mut fmt::Formatter) -> fmt::Result {
        write!(to, "{}", self.name())?;
        match self {
            Request::Geometry | Request::BackingName => Ok(()),
            Request::Translate { offset } | Request::Lookup { offset } => {
                write!(to, " at {offset}")
            }
            Request::Read { offset, len } => write!(to, " {len} at {offset}"),
            Request::ReadSnapshot { snapshot, offset, len } => {
                write!(to, " {snapshot}, {len} at {offset}")
            }
            Request::Runs { offset, len, room } | Request::WriteSteps { offset, len, room } => {
                write!(to, " of {len} at {offset}, room for {room}")
            }
            Request::DiscardSteps { cluster, room } => {
                write!(to, " of {cluster}, room for {room}")
            }
            Request::RepairSteps { scratch, room } => {
                write!(to, " with scratch of {scratch}, room for {room}")
            }
            Request::Write { offset, data, allowance } => {
                let (len, start) = (data.len(), &data[..data.len().min(8)]);
                write!(to, " {len} at {offset} ({start:x?}), allowance {allowance}")
            }
            Request::Discard { cluster, allowance } => {
                write!(to, " {cluster}, allowance {allowance}")
            }
            Request::Repair { scratch, allowance } => {
                write!(to, " with scratch of {scratch}, allowance {allowance}")
            }
            Request::Extend { old, allowance } => {
                write!(to, " from {old}, allowance {allowance}")
            }
            Request::Check { scratch } => write!(to, " with scratch of {scratch}"),
            Request::CheckPortion { state, scratch, may } => {
                write!(to, " of {may} from {:?}, with scratch of {scratch}", state.numbers())
            }
        }
    }
}

impl Request {
    /// The listing of a storing request's steps, or another listing, with room
    /// for so many numbers.
    pub fn steps(&self, room: usize) -> Request {
        match *self {
            Request::Write { offset, ref data, .. } => {
                Request::WriteSteps { offset, len: data.len() as u64, room }
            }
            Request::WriteSteps { offset, len, .. } => Request::WriteSteps { offset, len, room },
            Request::Discard { cluster, .. } | Request::DiscardSteps { cluster, .. } => {
                Request::DiscardSteps { cluster, room }
            }
            Request::Repair { scratch, .. } | Request::RepairSteps { scratch, .. } => {
                Request::RepairSteps { scratch, room }
            }
            _ => unreachable!("not a storing request"),
        }
    }

    pub fn name(&self) -> &'static str {
        match self {
            Request::Geometry => "geometry",
            Request::BackingName => "backing_name",
            Request::Translate { .. } => "translate",
            Request::Read { .. } => "read",
            Request::ReadSnapshot { .. } => "read_snapshot",
            Request::Lookup { .. } => "lookup",
            Request::Runs { .. } => "runs",
            Request::Write { .. } => "write",
            Request::Discard { .. } => "discard",
            Request::Repair { .. } => "repair",
            Request::Extend { .. } => "extend",
            Request::WriteSteps { .. } => "write_steps",
            Request::DiscardSteps { .. } => "discard_steps",
            Request::RepairSteps { .. } => "repair_steps",
            Request::Check { .. } => "check",
            Request::CheckPortion { .. } => "check_portion",
        }
    }
}

/// Makes requests for one image and for what calls have made of it.
pub struct Requests<'m> {
    made: &'m Made,
    mapped: Vec<u64>,
    /// Guest clusters asked for before.
    recent: Vec<u64>,
}

impl<'m> Requests<'m> {
    pub fn new(made: &'m Made) -> Requests<'m> {
        Requests { made, mapped: made.mapped(), recent: Vec::new() }
    }

    pub fn any(&mut self, rng: &mut Rng) -> Request {
        match rng.below(24) {
            0..=1 => Request::Translate { offset: self.offset(rng) },
            2..=4 => {
                let offset = self.offset(rng);
                Request::Read { offset, len: self.read_length(self.made.size, offset, rng) }
            }
            18 => self.read_snapshot(rng),
            19 if !self.made.snapshots.is_empty() => self.read_snapshot(rng),
            5 => Request::Lookup { offset: self.offset(rng) },
            6 => Request::Check { scratch: self.scratch(rng) },
            7..=8 => self.runs(rng),
            20..=22 => self.steps(rng),
            23 if rng.once_in(2) => Request::BackingName,
            23 => Request::Geometry,
            _ => self.storing(rng),
        }
    }

    pub fn storing(&mut self, rng: &mut Rng) -> Request {
        let allowance = self.allowance(rng);
        match rng.below(10) {
            0..=5 => {
                let offset = self.offset(rng);
                let len = self.write_length(offset, rng);
                Request::Write { offset, data: self.data(len, rng), allowance }
            }
            6..=8 => Request::Discard { cluster: self.guest_cluster(rng), allowance },
            _ => {
                let few = rng.below(8);
                let allowance = rng.pick(&[0, 1, few, allowance, u64::MAX]);
                Request::Repair { scratch: self.scratch(rng), allowance }
            }
        }
    }

    /// The steps of a storing request, with room for less than all or for more.
    pub fn steps(&mut self, rng: &mut Rng) -> Request {
        let (few, all) = (rng.index(32), 4 * (self.made.clusters() + 1));
        let long = edge(self.made.size, self.made.cluster() as u64, rng);
        match self.storing(rng).steps(few) {
            Request::WriteSteps { offset, room, .. } if rng.once_in(16) => {
                Request::WriteSteps { offset, len: long, room }
            }
            Request::RepairSteps { scratch, room } => {
                Request::RepairSteps { scratch, room: rng.pick(&[room, room, all, all / 8]) }
            }
            other => other,
        }
    }

    /// Runs of a part or of all of the disk, or past it.
    fn runs(&mut self, rng: &mut Rng) -> Request {
        let offset = self.offset(rng);
        let (cluster, size) = (self.made.cluster() as u64, self.made.size);
        let most = size.saturating_sub(offset);
        let some = rng.below(most.min(8 * cluster) + 1);
        let len = rng.pick(&[0, 1, some, some, most, most, most + 1, cluster, u64::MAX]);
        let room = rng.pick(&[0, 1, 2, 3, 4, 5, 6, 7, 60, 300]);
        Request::Runs { offset, len, room }
    }

    fn data(&self, len: usize, rng: &mut Rng) -> Vec<u8> {
        if rng.once_in(8) {
            return vec![0; len];
        }
        rng.bytes(len)
    }

    pub fn offset(&mut self, rng: &mut Rng) -> u64 {
        let cluster = self.made.cluster() as u64;
        if rng.once_in(5) {
            return edge(self.made.size, cluster, rng);
        }
        if !self.made.backing.is_empty() && rng.once_in(8) {
            // Around the end of what is lent.
            let before = rng.below(cluster);
            let near = rng.pick(&[0, 1, 2, cluster, before]);
            return (self.made.backing.len() as u64 + 1).saturating_sub(near);
        }
        let start = self.guest_cluster(rng).wrapping_mul(cluster);
        let random = rng.below(cluster);
        let inside = rng.pick(&[0, 1, random, random, cluster - 1]);
        let offset = start.wrapping_add(inside);
        if self.made.size != 0 && offset >= self.made.size && !rng.once_in(4) {
            return offset % self.made.size;
        }
        offset
    }

    /// A guest cluster: one with an entry, one with a table, one asked for
    /// before, any, or an edge.
    pub fn guest_cluster(&mut self, rng: &mut Rng) -> u64 {
        let (made, cluster) = (self.made, self.made.cluster() as u64);
        let chosen = match rng.below(12) {
            0..=3 if !self.mapped.is_empty() => rng.pick(&self.mapped),
            4..=6 if !made.tables.is_empty() => {
                let (l1_index, _) = rng.pick(&made.tables);
                (l1_index * made.per_table() + rng.index(made.per_table())) as u64
            }
            7..=9 if !self.recent.is_empty() => rng.pick(&self.recent),
            11 => match rng.below(4) {
                0 => edge(made.guest_clusters(), cluster, rng),
                1 => edge(made.size, cluster, rng) / cluster,
                _ => made.guest_clusters().wrapping_sub(rng.below(2)),
            },
            _ if made.size == 0 => rng.below(3),
            _ => rng.below(made.size) / cluster,
        };
        let chosen = match made.guest_clusters() {
            guest @ 1.. if !rng.once_in(8) => chosen % guest,
            _ => chosen,
        };
        self.recent.push(chosen);
        chosen
    }

    fn write_length(&self, offset: u64, rng: &mut Rng) -> usize {
        let cluster = self.made.cluster() as u64;
        let to_end = cluster - offset % cluster;
        let on_disk = to_end.min(self.made.size.saturating_sub(offset));
        let random = rng.below(on_disk + 1);
        let edges = [0, 1, on_disk + 1, to_end, to_end + 1, cluster, cluster + 1, 2 * cluster];
        let len = match rng.below(6) {
            0 => rng.pick(&edges),
            1 => on_disk,
            2 => on_disk.min(5),
            _ => random,
        };
        len as usize
    }

    /// A read of a snapshot that is there, or of the one after the last.
    fn read_snapshot(&mut self, rng: &mut Rng) -> Request {
        let count = self.made.snapshots.len() as u64;
        let chosen = if rng.once_in(12) { count } else { rng.below(count.max(1)) };
        let snapshot = if rng.once_in(60) { edge(0, 1 << 32, rng) } else { chosen };
        let reach = match self.made.snapshots.get(snapshot as usize) {
            Some(snapshot) => (snapshot.l1_size * self.made.per_table()) as u64,
            None => 1,
        } << self.made.cluster_bits;
        let offset = match rng.below(8) {
            0 => edge(reach, self.made.cluster() as u64, rng),
            1 => rng.below(reach + 1),
            2..=5 => self.offset_in(snapshot, rng),
            _ => self.offset(rng),
        };
        Request::ReadSnapshot { snapshot, offset, len: self.read_length(reach, offset, rng) }
    }

    /// A guest offset below one of a snapshot's L2 tables, where it has any.
    fn offset_in(&mut self, snapshot: u64, rng: &mut Rng) -> u64 {
        match self.made.snapshots.get(snapshot as usize) {
            Some(snapshot) if !snapshot.tables.is_empty() => {
                let (l1_index, table) = rng.pick(&snapshot.tables);
                let within = table..table + self.made.cluster();
                let entries: Vec<usize> =
                    self.made.entries.iter().copied().filter(|at| within.contains(at)).collect();
                let l2_index = match entries.is_empty() || rng.once_in(4) {
                    true => rng.index(self.made.per_table()),
                    false => (rng.pick(&entries) - table) / 8,
                };
                let guest = l1_index * self.made.per_table() + l2_index;
                ((guest as u64) << self.made.cluster_bits) + rng.below(self.made.cluster() as u64)
            }
            _ => self.offset(rng),
        }
    }

    fn read_length(&self, size: u64, offset: u64, rng: &mut Rng) -> usize {
        let cluster = self.made.cluster() as u64;
        let most = size.saturating_sub(offset).min(4 * cluster + 4096);
        let random = rng.below(most + 1);
        let edges = [0, 1, cluster, most, most + 1, 3 * cluster];
        let len = if rng.once_in(3) { rng.pick(&edges) } else { random };
        if size <= 1 << 17 && rng.once_in(16) {
            return size as usize + rng.index(2);
        }
        len as usize
    }

    pub fn allowance(&self, rng: &mut Rng) -> u64 {
        let cluster = self.made.cluster() as u64;
        let around = rng.pick(&[1, cluster, cluster + 1, cluster + 2, 2 * cluster + 3]);
        let near = around + rng.below(3) - 1;
        let random = rng.below(2 * cluster + 6);
        let all = u64::MAX - rng.below(2);
        match rng.below(4) {
            0 => near,
            1 => random,
            2 => rng.pick(&[0, 1, 2, 1 << 32, 1 << 63]),
            _ => all,
        }
    }

    pub fn scratch(&self, rng: &mut Rng) -> usize {
        let needed = self.made.scratch();
        match rng.below(8) {
            0 => rng.pick(&[0, 1, needed.saturating_sub(1), needed / 2]),
            1 => needed + 1 + rng.index(100),
            _ => needed,
        }
    }
}

/// A number at or beside one of the edges.
fn edge(size: u64, cluster: u64, rng: &mut Rng) -> u64 {
    let bases: [u64; 8] =
        [0, cluster, size, 1 << 30, 1 << 32, 1 << 40, 1 << 63, cluster.wrapping_neg()];
    let delta = rng.pick(&[0, 1, 2, cluster / 2, cluster - 1, cluster]);
    let base = rng.pick(&bases);
    if rng.once_in(2) {
        base.wrapping_add(delta)
    } else {
        base.wrapping_sub(delta)
    }
}
