//! The snapshot table as it stands: for messages, and for the L1 tables of an
//! image that the core has accepted. The image may be refused, so nothing that
//! it says is relied on.

use std::ffi::OsStr;
use std::os::unix::ffi::OsStrExt;

use crate::date::Date;
use crate::fields::{be16, be32, be64, Fields};
use crate::json::Json;

/// Bytes of an entry before its extra data.
const FIXED: usize = 40;
/// The most entries that are read, which are qemu's most too.
pub const MOST: u32 = 65_536;
/// Where extra data has the disk's size, and where that ends.
const DISK_SIZE: usize = 8;
const DISK_SIZE_END: usize = 16;

/// A snapshot by its entry.
#[derive(Clone, Debug, PartialEq)]
pub struct Snapshot {
    /// From 0, in the table's order.
    pub number: u64,
    pub id: Vec<u8>,
    pub name: Vec<u8>,
    pub date: Date,
    /// Of a machine's state that is kept with it; 0 if there is none.
    pub state_size: u64,
    pub l1_at: u64,
    pub l1_size: u32,
    /// Bytes that its L1 table reaches.
    pub reach: u64,
    /// The disk's size then, if the extra data has it.
    size: Option<u64>,
}

impl Snapshot {
    /// The disk's size then, or all that the L1 table reaches.
    pub fn disk_size(&self) -> u64 {
        self.size.unwrap_or(self.reach)
    }

    /// `#0 (id "1", name "before")`, whatever letters the image's maker chose.
    pub fn label(&self) -> String {
        let text = |bytes: &[u8]| String::from_utf8_lossy(bytes).into_owned();
        format!("#{} (id {:?}, name {:?})", self.number, text(&self.id), text(&self.name))
    }

    /// As a line of `info`.
    pub fn line(&self) -> String {
        let state = match self.state_size {
            0 => String::new(),
            bytes => format!(", machine's state of {bytes} bytes"),
        };
        format!("{}: {}, disk size {}{state}", self.label(), self.date, self.disk_size())
    }

    pub fn object(&self) -> Json {
        let text = |bytes: &[u8]| Json::Text(String::from_utf8_lossy(bytes).into_owned());
        Json::Object(vec![
            ("snapshot", self.number.into()),
            ("id", text(&self.id)),
            ("name", text(&self.name)),
            ("date", self.date.to_string().into()),
            ("seconds", self.date.seconds.into()),
            ("nanoseconds", self.date.nanoseconds.into()),
            ("disk_size", self.disk_size().into()),
            ("reach", self.reach.into()),
            ("l1_size", self.l1_size.into()),
            ("state_size", self.state_size.into()),
        ])
    }
}

/// The entries that lie inside the bytes, up to the first that does not.
#[derive(Default)]
pub struct Table {
    pub snapshots: Vec<Snapshot>,
    /// Where the last of them ends.
    pub end: u64,
    /// Does no entry run past the bytes?
    pub whole: bool,
    /// The most extra data that an entry says to have.
    pub extra: u32,
}

impl Table {
    pub fn of(bytes: &[u8], fields: &Fields) -> Table {
        let mut table = Table { end: fields.snapshots_at, ..Table::default() };
        for number in 0..u64::from(fields.snapshots.min(MOST)) {
            table.extra = table.extra.max(extra(bytes, table.end).unwrap_or(0));
            let Some((snapshot, end)) = entry(bytes, fields, number, table.end) else {
                return table;
            };
            table.snapshots.push(snapshot);
            table.end = end;
        }
        Table { whole: true, ..table }
    }
}

/// Bytes of extra data of the entry at `at`.
fn extra(bytes: &[u8], at: u64) -> Option<u32> {
    be32(bytes, usize::try_from(at).ok()?.checked_add(36)?)
}

/// The snapshot whose entry stands at `at`, and where the next one begins.
fn entry(bytes: &[u8], fields: &Fields, number: u64, at: u64) -> Option<(Snapshot, u64)> {
    let bytes = bytes.get(usize::try_from(at).ok()?..)?;
    let extra = be32(bytes, 36)? as usize;
    let id_at = FIXED.checked_add(extra)?;
    let name_at = id_at.checked_add(be16(bytes, 12)?.into())?;
    let end = name_at.checked_add(be16(bytes, 14)?.into())?;
    let (id, name) = (bytes.get(id_at..name_at)?.to_vec(), bytes.get(name_at..end)?.to_vec());
    let of_extra = |at: usize| be64(bytes, FIXED + at);
    let l1_size = be32(bytes, 8)?;
    let snapshot = Snapshot {
        number,
        id,
        name,
        date: Date { seconds: be32(bytes, 16)?, nanoseconds: be32(bytes, 20)? },
        state_size: match extra {
            ..8 => be32(bytes, 32)?.into(),
            _ => of_extra(0)?,
        },
        l1_at: be64(bytes, 0)?,
        l1_size,
        reach: fields.reach(l1_size),
        size: (extra >= DISK_SIZE_END).then(|| of_extra(DISK_SIZE)).flatten(),
    };
    Some((snapshot, at.checked_add(end.next_multiple_of(8) as u64)?))
}

/// Some of them by name, and how many more.
pub fn labels(snapshots: &[Snapshot]) -> String {
    const SHOWN: usize = 8;
    let shown: Vec<String> = snapshots.iter().take(SHOWN).map(Snapshot::label).collect();
    match snapshots.len().saturating_sub(SHOWN) {
        0 => shown.join(", "),
        more => format!("{} and {more} more", shown.join(", ")),
    }
}

/// Which snapshot a word names: an id before a name, as with qemu, then `#`
/// and the number. A name that several have names none.
pub fn find<'a>(snapshots: &'a [Snapshot], word: &OsStr) -> Result<&'a Snapshot, Missing> {
    let word = word.as_bytes();
    let by = |part: fn(&Snapshot) -> &[u8]| -> Vec<&'a Snapshot> {
        snapshots.iter().filter(|snapshot| part(snapshot) == word).collect()
    };
    for found in [by(|snapshot| &snapshot.id), by(|snapshot| &snapshot.name)] {
        match found[..] {
            [] => {}
            [one] => return Ok(one),
            _ => return Err(Missing::Several(found.iter().map(|one| one.number).collect())),
        }
    }
    let number = word.strip_prefix(b"#").and_then(|digits| str::from_utf8(digits).ok());
    let number = number.filter(|digits| digits.bytes().all(|digit| digit.is_ascii_digit()));
    let number = number.and_then(|digits| digits.parse::<usize>().ok());
    number.and_then(|number| snapshots.get(number)).ok_or(Missing::None)
}

/// Why a word names no snapshot.
#[derive(Debug, PartialEq)]
pub enum Missing {
    None,
    /// The numbers of those that it could be.
    Several(Vec<u64>),
}

#[cfg(test)]
mod tests {
    use super::*;

    /// A table of entries at 1024 in an image of clusters of 512 bytes.
    fn image(entries: &[(&[u8], &[u8], &[u8])]) -> (Vec<u8>, Fields) {
        let mut bytes = vec![0; 1024];
        bytes[..8].copy_from_slice(&[0x51, 0x46, 0x49, 0xFB, 0, 0, 0, 3]);
        (bytes[23], bytes[63], bytes[70]) = (9, entries.len() as u8, 4);
        for (k, (extra, id, name)) in entries.iter().enumerate() {
            bytes.resize(bytes.len().next_multiple_of(8), 0);
            bytes.extend((4096 + 512 * k as u64).to_be_bytes());
            bytes.extend((2 + k as u32).to_be_bytes());
            bytes.extend((id.len() as u16).to_be_bytes());
            bytes.extend((name.len() as u16).to_be_bytes());
            bytes.extend(1_700_000_000u32.to_be_bytes());
            bytes.extend(5u32.to_be_bytes());
            bytes.extend([0; 8]);
            bytes.extend(77u32.to_be_bytes());
            bytes.extend((extra.len() as u32).to_be_bytes());
            bytes.extend([*extra, *id, *name].concat());
        }
        let fields = Fields::read(&bytes).unwrap();
        (bytes, fields)
    }

    fn extra(state: u64, size: u64) -> Vec<u8> {
        [state.to_be_bytes(), size.to_be_bytes()].concat()
    }

    #[test]
    fn entries_one_after_the_other() {
        let (bytes, fields) =
            image(&[(&[], b"1", b"one"), (&extra(0, 65_536), b"22", b""), (&[0; 8], b"", b"x\n")]);
        let table = Table::of(&bytes, &fields);
        assert!(table.whole);
        let [first, second, third] = &table.snapshots[..] else { panic!("three of them") };
        assert_eq!(
            (&first.id[..], &first.name[..], first.state_size),
            (&b"1"[..], &b"one"[..], 77)
        );
        assert_eq!((first.l1_at, first.l1_size, first.reach), (4096, 2, 65_536));
        assert_eq!(
            (first.disk_size(), second.disk_size(), third.disk_size()),
            (65_536, 65_536, 4 << 15)
        );
        assert_eq!(
            (second.l1_at, second.l1_size, second.reach, second.state_size),
            (4608, 3, 3 << 15, 0)
        );
        assert_eq!(third.label(), "#2 (id \"\", name \"x\\n\")");
        let line = "#0 (id \"1\", name \"one\"): 2023-11-14 22:13:20 UTC, disk size 65536, \
                    machine's state of 77 bytes";
        assert_eq!(first.line(), line);
        assert_eq!(table.end, (bytes.len() as u64).next_multiple_of(8));
    }

    #[test]
    fn entries_up_to_the_end() {
        let (bytes, fields) = image(&[(&[], b"1", b"one"), (&[9; 20], b"22", b"two")]);
        for cut in 1..=40 + 20 + 5 {
            let table = Table::of(&bytes[..bytes.len() - cut], &fields);
            assert!(!table.whole && table.snapshots.len() == 1 && table.end == 1024 + 48, "{cut}");
        }
        let mut huge = bytes.clone();
        huge[1024 + 36..1024 + 40].fill(0xFF);
        let table = Table::of(&huge, &fields);
        assert!(!table.whole && table.snapshots.is_empty() && table.extra == u32::MAX);
        assert_eq!(Table::of(&bytes, &fields).extra, 20);
        let far = Fields { snapshots_at: u64::MAX, ..fields };
        assert!(Table::of(&bytes, &far).snapshots.is_empty());
        let none = Fields { snapshots: 0, ..far };
        assert!(Table::of(&bytes, &none).whole);
        let zeros = vec![0; 40 * 70_000];
        let many = Fields { snapshots: u32::MAX, snapshots_at: 0, ..fields };
        assert_eq!(Table::of(&zeros, &many).snapshots.len(), 65_536);
    }

    #[test]
    fn words_for_snapshots() {
        let (bytes, fields) = image(&[
            (&[], b"1", b"2"),
            (&[], b"2", b"two"),
            (&[], b"3", b"same"),
            (&[], b"4", b"same"),
            (&[], b"5", b"#0"),
            (&[], b"6", b"\xFF"),
        ]);
        let snapshots = Table::of(&bytes, &fields).snapshots;
        let find = |word: &[u8]| find(&snapshots, OsStr::from_bytes(word)).map(|it| it.number);
        assert_eq!((find(b"1"), find(b"2"), find(b"two")), (Ok(0), Ok(1), Ok(1)));
        assert_eq!(find(b"same"), Err(Missing::Several(vec![2, 3])));
        assert_eq!((find(b"#3"), find(b"#0"), find(b"\xFF")), (Ok(3), Ok(4), Ok(5)));
        for word in [&b""[..], b"#", b"#6", b"#+1", b"7", b"0", b"#-1", b"#18446744073709551616"] {
            assert_eq!(find(word), Err(Missing::None), "{word:?}");
        }
    }
}
