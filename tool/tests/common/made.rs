//! Images made by hand.

/// Puts a number of eight bytes.
pub fn put64(image: &mut [u8], at: usize, number: u64) {
    image[at..at + 8].copy_from_slice(&number.to_be_bytes());
}

pub fn get64(image: &[u8], at: usize) -> u64 {
    u64::from_be_bytes(image[at..at + 8].try_into().unwrap())
}

/// An empty image: header, refcount table, blocks, L1 table, free clusters.
pub struct Made {
    pub image: Vec<u8>,
    pub cluster: usize,
    pub table_at: usize,
    pub block_at: usize,
    pub l1_at: usize,
}

pub fn made(version: u8, bits: u32, clusters: usize, size: u64) -> Made {
    made_at(4, version, bits, clusters, size)
}

/// The same with counts of 2^order bits.
pub fn made_at(order: u32, version: u8, bits: u32, clusters: usize, size: u64) -> Made {
    let cluster = 1usize << bits;
    let blocks = clusters.div_ceil((8 * cluster) >> order);
    // One entry more than is needed.
    let table_clusters = (8 * (blocks + 1)).div_ceil(cluster);
    let l1_size = (size as usize).div_ceil(cluster * cluster / 8);
    let l1_clusters = (8 * l1_size).div_ceil(cluster);
    let block_at = (1 + table_clusters) * cluster;
    let l1_at = block_at + blocks * cluster;
    let used = l1_at / cluster + l1_clusters;
    assert!(used <= clusters);
    let mut image = vec![0; clusters * cluster];
    image[..8].copy_from_slice(&[0x51, 0x46, 0x49, 0xFB, 0, 0, 0, version]);
    image[23] = bits as u8;
    put64(&mut image, 24, size);
    image[36..40].copy_from_slice(&(l1_size as u32).to_be_bytes());
    put64(&mut image, 40, l1_at as u64);
    put64(&mut image, 48, cluster as u64);
    image[56..60].copy_from_slice(&(table_clusters as u32).to_be_bytes());
    if version == 3 {
        (image[99], image[103]) = (order as u8, 104);
    }
    for block in 0..blocks {
        put64(&mut image, cluster + 8 * block, (block_at + block * cluster) as u64);
    }
    // The blocks stand one after the other, and so do all counts.
    (0..used).for_each(|index| put_count(&mut image[block_at..], order, index, 1));
    Made { image, cluster, table_at: cluster, block_at, l1_at }
}

/// Puts an image of version 3 over a backing file of this name. The extensions
/// begin where the header ends, with the file's format, if that is to be said; the
/// name stands behind them.
pub fn over(image: &mut [u8], name: &[u8], format: Option<&[u8]>) {
    let mut extensions = Vec::new();
    if let Some(format) = format {
        extensions.extend(0xE279_2ACAu32.to_be_bytes());
        extensions.extend((format.len() as u32).to_be_bytes());
        extensions.extend(format);
        extensions.resize(extensions.len().next_multiple_of(8), 0);
    }
    extensions.extend([0; 8]);
    let at = usize::from(image[103]);
    let stop = at + extensions.len();
    image[at..stop].copy_from_slice(&extensions);
    put64(image, 8, stop as u64);
    image[16..20].copy_from_slice(&(name.len() as u32).to_be_bytes());
    image[stop..stop + name.len()].copy_from_slice(name);
}

/// Puts a count of 2^order bits, bit by bit.
pub fn put_count(counts: &mut [u8], order: u32, index: usize, count: u64) {
    let width = 1 << order;
    for bit in 0..width {
        // A number of several bytes has its lowest bits in the last.
        let (byte, shift) = match width {
            1 | 2 | 4 => ((index * width + bit) / 8, (index * width + bit) % 8),
            _ => (((index + 1) * width - 1 - bit) / 8, bit % 8),
        };
        counts[byte] = counts[byte] & !(1 << shift) | ((count >> bit & 1) as u8) << shift;
    }
}

/// The count that [`put_count`] puts.
pub fn get_count(counts: &[u8], order: u32, index: usize) -> u64 {
    let width = 1 << order;
    let number = |bytes: &[u8]| bytes.iter().fold(0, |sum, &byte| sum * 256 + u64::from(byte));
    match width {
        1 | 2 | 4 => {
            u64::from(counts[index * width / 8]) >> (index * width % 8) & ((1 << width) - 1)
        }
        _ => number(&counts[index * width / 8..][..width / 8]),
    }
}

/// The largest count.
pub fn largest(order: u32) -> u64 {
    u64::MAX >> (64 - (1 << order))
}

/// The disk as the tables alone give it: the counts are not looked at, and what
/// lies past the file's end reads as zeros.
pub fn guest_by_tables(image: &[u8]) -> Vec<u8> {
    by_tables(image, get64(image, 40) as usize, get64(image, 24) as usize)
}

/// The same for every snapshot, as far as their table can be read, and with at
/// most a megabyte of each.
pub fn snapshots_by_tables(image: &[u8]) -> Vec<Vec<u8>> {
    let reach = |l1_size: usize| l1_size.saturating_mul(1 << (2 * image[23] - 3)).min(1 << 20);
    let read = |(l1_at, l1_size)| by_tables(image, l1_at, reach(l1_size));
    l1_of_snapshots(image).into_iter().map(read).collect()
}

/// The snapshots' L1 tables, with their sizes.
pub fn l1_of_snapshots(image: &[u8]) -> Vec<(usize, usize)> {
    let be = |at: usize, length: usize| {
        let bytes = image.get(at..at.checked_add(length)?)?;
        Some(bytes.iter().fold(0, |sum, &byte| sum << 8 | usize::from(byte)))
    };
    let (mut found, mut at) = (Vec::new(), get64(image, 64) as usize);
    for _ in 0..be(60, 4).unwrap().min(64) {
        let (Some(l1_at), Some(extra)) = (be(at, 8), be(at.saturating_add(36), 4)) else { break };
        found.push((l1_at, be(at + 8, 4).unwrap()));
        let words = be(at + 12, 2).unwrap() + be(at + 14, 2).unwrap();
        at = (at + 40 + extra + words).next_multiple_of(8);
    }
    found
}

fn by_tables(image: &[u8], l1_at: usize, size: usize) -> Vec<u8> {
    let cluster = 1usize << image[23];
    let entry = |at: usize| {
        let bytes = at.checked_add(8).and_then(|end| image.get(at..end));
        bytes.map_or(0, |bytes| get64(bytes, 0))
    };
    let place = |entry: u64| (entry & 0x00FF_FFFF_FFFF_FE00) as usize;
    let mut guest = vec![0; size];
    for (index, part) in guest.chunks_mut(cluster).enumerate() {
        let table = place(entry(l1_at.saturating_add(8 * (index / (cluster / 8)))));
        if table == 0 {
            continue;
        }
        let l2_entry = entry(table + 8 * (index % (cluster / 8)));
        let host = place(l2_entry);
        let stop = (host + part.len()).min(image.len());
        if host != 0 && host < stop && l2_entry & 1 == 0 {
            part[..stop - host].copy_from_slice(&image[host..stop]);
        }
    }
    guest
}

/// Does a table or an entry name a byte at or past `end`?
pub fn names_past(image: &[u8], end: usize) -> bool {
    let cluster = 1usize << image[23];
    let place = |entry: u64| (entry & 0x00FF_FFFF_FFFF_FE00) as usize;
    let entries = |at: usize, number: usize| {
        let range = at.min(image.len())..at.saturating_add(8 * number).min(image.len());
        image[range].chunks_exact(8).map(|entry| place(get64(entry, 0))).collect::<Vec<usize>>()
    };
    let l1_size = u32::from_be_bytes(image[36..40].try_into().unwrap()) as usize;
    let table_clusters = u32::from_be_bytes(image[56..60].try_into().unwrap()) as usize;
    let (l1_at, table_at) = (get64(image, 40) as usize, get64(image, 48) as usize);
    let past = |at: &usize| *at != 0 && at + cluster > end;
    let mut l1 = vec![(l1_at, l1_size)];
    l1.extend(l1_of_snapshots(image));
    let tables: Vec<usize> = l1.iter().flat_map(|&(at, size)| entries(at, size)).collect();
    let data = tables.iter().filter(|at| **at != 0).flat_map(|&at| entries(at, cluster / 8));
    l1.iter().any(|(at, size)| at.saturating_add(8 * size) > end)
        || table_at + table_clusters * cluster > end
        || entries(table_at, table_clusters * cluster / 8).iter().any(past)
        || tables.iter().any(past)
        || data.into_iter().any(|at| past(&at))
}
