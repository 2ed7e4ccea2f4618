//! Images with snapshots.

use std::fs;

use ::made::image::{Kind, Made, USED};
use ::made::plan::bench_image;
use ::made::rng::Rng;
use ::made::snapshots::keep_all;

use super::images;

/// The guest cluster of L1 entry 1, its offset, and the places of the disk's L2
/// table and data.
pub const GUEST: u64 = 64;
pub const OFFSET: u64 = 64 * 512;
pub const TABLE: usize = 4 * 512;
pub const DATA: usize = 5 * 512;

/// 16 clusters of 512 bytes with an L2 table and data below L1 entry 1, and so
/// many snapshots of them.
pub fn kept(count: usize) -> Made {
    let mut made = bench_image();
    let table = made.add_table(1).expect("room");
    assert!(made.add_entry(table, 0, Kind::Data, &mut Rng::new(1)));
    assert_eq!((table, made.get64(TABLE)), (TABLE, USED | DATA as u64));
    keep_all(&mut made, count);
    made
}

/// The same with one snapshot, once the disk has a table and data of its own in
/// clusters 8 and 9.
pub fn copied() -> Made {
    let mut made = kept(1);
    let (table, data) = (8 * 512, 9 * 512);
    made.bytes.copy_within(TABLE..TABLE + 512, table);
    made.bytes[data..data + 512].fill(7);
    made.put64(made.l1_entry(1), USED | table as u64);
    made.put64(table, USED | data as u64);
    (4..10).for_each(|cluster| made.set_count(cluster, 1));
    made
}

/// An entry of the snapshot table, with its L1 table.
pub struct Entry<'a> {
    pub id: &'a [u8],
    pub name: &'a [u8],
    pub seconds: u32,
    /// The size of the disk then, if extra data has it.
    pub size: Option<u64>,
    pub state: u32,
}

impl Entry<'_> {
    fn bytes(&self, l1_at: usize, l1_size: usize) -> Vec<u8> {
        let extra = self.size.map_or(Vec::new(), |size| {
            [u64::from(self.state).to_be_bytes(), size.to_be_bytes()].concat()
        });
        let mut bytes = (l1_at as u64).to_be_bytes().to_vec();
        bytes.extend((l1_size as u32).to_be_bytes());
        bytes.extend((self.id.len() as u16).to_be_bytes());
        bytes.extend((self.name.len() as u16).to_be_bytes());
        bytes.extend(self.seconds.to_be_bytes());
        bytes.extend([0; 12]);
        bytes.extend(self.state.to_be_bytes());
        bytes.extend((extra.len() as u32).to_be_bytes());
        bytes.extend([&extra[..], self.id, self.name].concat());
        bytes.resize(bytes.len().next_multiple_of(8), 0);
        bytes
    }
}

pub fn named<'a>(id: &'a str, name: &'a str) -> Entry<'a> {
    let (id, name) = (id.as_bytes(), name.as_bytes());
    Entry { id, name, seconds: 1_700_000_000, size: None, state: 0 }
}

/// [`kept`] with these entries, which have to fit into the one cluster of the
/// snapshot table.
pub fn with_entries(entries: &[Entry]) -> Made {
    let mut made = kept(entries.len());
    let at = made.snapshots_at;
    let l1 = made.snapshots.iter().map(|it| (it.l1_at, it.l1_size));
    let bytes: Vec<u8> =
        entries.iter().zip(l1).flat_map(|(entry, (at, size))| entry.bytes(at, size)).collect();
    assert!(bytes.len() <= 512);
    made.bytes[at..at + 512].fill(0);
    made.bytes[at..at + bytes.len()].copy_from_slice(&bytes);
    made
}

/// The image that qemu made, with a snapshot, and what qemu reads of that.
pub fn of_qemu() -> (Vec<u8>, Vec<u8>) {
    let image = fs::read(images().join("22-v3-512-snapshot.qcow2")).expect("the image");
    (image, super::guest("22-v3-512-snapshot.0.qcow2"))
}

/// What an L1 table gives by the tables alone, in an image without bad entries.
pub fn by_tables(image: &[u8], l1_at: usize, l1_size: usize) -> Vec<u8> {
    let cluster = 1usize << image[23];
    let place = |at: usize| (super::made::get64(image, at) & 0x00FF_FFFF_FFFF_FE00) as usize;
    let mut bytes = Vec::new();
    for index in 0..l1_size {
        let table = place(l1_at + 8 * index);
        for entry in 0..cluster / 8 {
            let at = table + 8 * entry;
            let data = if table == 0 || image[at + 7] & 1 == 1 { 0 } else { place(at) };
            match data {
                0 => bytes.resize(bytes.len() + cluster, 0),
                data => bytes.extend_from_slice(&image[data..data + cluster]),
            }
        }
    }
    bytes
}
