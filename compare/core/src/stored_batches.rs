//! The numbers that planning a call into a batch stores beside each of its answers, and
//! its rows.

use made::image::{Made, AUTOCLEAR};

use crate::ffi;
use crate::lend;
use crate::stored::{kept, sound, with_count, with_entry, ALL, BAD, SCRATCH};

/// What rows and numbers hold before a call.
const HELD: u64 = 0xC3C3_C3C3_C3C3_C3C3;
const GUEST: u64 = 64;
const OFFSET: u64 = GUEST * 512;

#[derive(Clone, Copy, Debug)]
enum Ask {
    Write { offset: u64, len: u64 },
    Discard { cluster: u64 },
    Repair { scratch: usize },
}

/// Plans after so many rows; the code, the number and the rows.
fn plan(made: &Made, ask: Ask, mut rows: Vec<u64>, held: usize) -> (u32, u64, Vec<u64>) {
    let ((image, n), (backing, b)) = (lend(&made.bytes), lend(&made.backing));
    let (mut scratch, mut count) = ([0x5A; SCRATCH + 1], HELD);
    let (lent, m) = (rows.as_mut_ptr(), rows.len());
    macro_rules! over {
        ($call:ident, $($arg:expr),+) => {
            ffi::$call(image, n, backing, b, $($arg,)+ lent, m, held as u64, &mut count)
        };
    }
    // SAFETY: see the head of lib.rs; the scratch is as long as is said, or longer.
    let code = unsafe {
        match ask {
            Ask::Write { offset, len } => over!(qcow2_backed_batch_write, offset, len),
            Ask::Discard { cluster } => over!(qcow2_backed_batch_discard, cluster),
            Ask::Repair { scratch: length } => {
                assert!(length <= scratch.len());
                over!(qcow2_backed_batch_repair, scratch.as_mut_ptr(), length)
            }
        }
    };
    (code, count, rows)
}

/// Planned after one row of this phase for these bytes: the rows after it, or the code.
fn after(made: &Made, ask: Ask, first: [u64; 4]) -> Result<Vec<[u64; 4]>, u32> {
    let mut rows = vec![HELD; 43];
    rows[..4].copy_from_slice(&first);
    let (code, count, rows) = plan(made, ask, rows, 1);
    assert_eq!(rows[..4], first);
    if code != 0 {
        assert_eq!(count, 0, "{ask:?}");
        return Err(code);
    }
    let (new, rest) = rows[4..].split_at(4 * (count as usize - 1));
    assert!(rest.iter().all(|&number| number == HELD), "{ask:?}");
    Ok(new.as_chunks().0.to_vec())
}

/// A row that meets none.
const APART: [u64; 4] = [15 * 512, 512, 512, 1];

#[test]
fn rows() {
    let mut leaking = with_count(9, 3);
    leaking.put64(AUTOCLEAR, 1);
    let clears = [88, 8, 1, 0];
    let new = [[1024 + 12, 2, 1, 1], [6 * 512, 512, 512, 1]];
    let table = [
        clears,
        new[0],
        new[1],
        [1024 + 14, 2, 1, 1],
        [7 * 512, 512, 512, 1],
        [6 * 512, 8, 1, 1],
        [1536, 8, 1, 2],
    ];
    let write = |offset, len| Ask::Write { offset, len };
    assert_eq!(after(&leaking, write(3, 2), APART), Ok(table.to_vec()));
    let entry = [4 * 512 + 16, 8, 1, 2];
    assert_eq!(after(&sound(), write(OFFSET + 1024, 1), APART), Ok([&new[..], &[entry]].concat()));
    // In a table that the batch has in phase 1.
    let entry = [4 * 512 + 16, 8, 1, 1];
    let wanted = Ok([&new[..], &[entry]].concat());
    assert_eq!(after(&sound(), write(OFFSET + 1024, 1), [4 * 512, 512, 512, 1]), wanted);
    assert_eq!(after(&sound(), write(OFFSET + 3, 4), APART), Ok(vec![[5 * 512 + 3, 4, 4, 1]]));
    let freed = [[4 * 512, 8, 1, 2], [1024 + 10, 2, 1, 3]];
    assert_eq!(after(&sound(), Ask::Discard { cluster: GUEST }, APART), Ok(freed.to_vec()));
    let repaired = [clears, [1024 + 18, 2, 1, 3]];
    let repair = Ask::Repair { scratch: SCRATCH };
    assert_eq!(after(&leaking, repair, APART), Ok(repaired.to_vec()));
    assert_eq!(after(&sound(), repair, APART), Ok(vec![]));
    assert_eq!(after(&sound(), Ask::Discard { cluster: 0 }, APART), Ok(vec![]));
}

/// Bytes of phases 1 and 3, and no room.
#[test]
fn ends() {
    let (write, discard) = (Ask::Write { offset: 3, len: 2 }, Ask::Discard { cluster: GUEST });
    assert_eq!(after(&sound(), discard, [1024 + 11, 1, 1, 1]), Err(ffi::BATCH_ENDS));
    assert_eq!(after(&sound(), write, [1024 + 12, 2, 1, 3]), Err(ffi::BATCH_ENDS));
    assert!(after(&sound(), discard, [1024 + 11, 1, 1, 3]).is_ok());
    let repair = Ask::Repair { scratch: SCRATCH };
    let leaking = with_count(9, 3);
    assert_eq!(after(&leaking, repair, [1024 + 18, 1, 1, 1]), Err(ffi::BATCH_ENDS));
    for (room, held) in [(0, 0), (23, 0), (24, 1), (27, 1), (0, usize::MAX)] {
        let (code, count, rows) = plan(&sound(), write, vec![HELD; room], held);
        assert_eq!((code, count), (ffi::BATCH_ENDS, 0), "{room} {held}");
        let start = held.saturating_mul(4).min(room);
        assert!(rows[..start].iter().all(|&number| number == HELD));
    }
    for (room, held) in [(24, 0), (31, 1)] {
        let (code, count, _) = plan(&sound(), write, vec![HELD; room], held);
        assert_eq!((code, count), (0, 6 + held as u64));
    }
}

/// A refusal stores 0 and changes no row.
#[test]
fn refused() {
    let write = |offset, len| Ask::Write { offset, len };
    for (made, ask, number) in [
        (sound(), write(510, 3), 11),
        (sound(), write(0, ALL), 11),
        (sound(), Ask::Discard { cluster: ALL }, 11),
        (sound(), Ask::Repair { scratch: SCRATCH - 1 }, 15),
        (with_entry(BAD), write(OFFSET + 1024, 1), 12),
        (with_entry(BAD), Ask::Discard { cluster: GUEST + 2 }, 12),
        (with_entry(BAD), Ask::Repair { scratch: SCRATCH }, 17),
        (with_count(5, 0), Ask::Discard { cluster: GUEST }, 16),
        (kept(), write(OFFSET, 1), 22),
    ] {
        for held in [0, 1, 9] {
            let planned = plan(&made, ask, vec![HELD; 28], held);
            assert_eq!(planned, (number, 0, vec![HELD; 28]), "{ask:?}");
        }
    }
}
