//! Runs by their definition: byte by byte, what translation gives.
#![forbid(unsafe_code)]

use made::drive::any_image;
use made::plan::bench_image;
use made::requests::{Request, Requests};
use made::rng::Rng;
use plain::{Found, Outcome, Over, Plain, Run, ALONE};

/// The runs of a range inside the disk, from one translation for each byte.
fn by_bytes(side: Over, image: &[u8], offset: u64, len: u64, most: usize) -> Vec<Run> {
    let mut list: Vec<Run> = Vec::new();
    for at in offset..offset + len {
        let (found, listed) = (side.translate(image, at), list.len());
        match list.last_mut() {
            Some(run) if found == run.found.moved(run.length) => run.length += 1,
            _ if listed == most => break,
            _ => list.push(Run { found, length: 1 }),
        }
    }
    list
}

fn listed(side: Over, image: &[u8], offset: u64, len: u64, most: usize) -> Result<Vec<Run>, u32> {
    let mut rows = vec![7; 3 * most];
    let count = side.runs(image, offset, len, &mut rows)?;
    let rows = rows.as_chunks::<3>().0;
    assert!(rows[count..].iter().all(|row| *row == [7; 3]));
    Ok(rows[..count].iter().map(|row| Run::of_row(*row)).collect())
}

#[test]
fn each_byte_is_where_its_run_has_it() {
    let mut rng = Rng::from_env("runs", 31);
    let mut several = 0;
    for _ in 0..600 {
        let made = any_image(&mut rng);
        let mut requests = Requests::new(&made);
        let offset = requests.offset(&mut rng);
        let accepted = |len| listed(made.over(&Plain), &made.bytes, offset, len, 9).is_ok();
        let len = rng.below(made.size.saturating_sub(offset).min(20_000) + 1);
        if !accepted(len) {
            continue;
        }
        let found = listed(made.over(&Plain), &made.bytes, offset, len, 9).unwrap();
        assert_eq!(
            found,
            by_bytes(made.over(&Plain), &made.bytes, offset, len, 9),
            "{len} at {offset}"
        );
        several += usize::from(found.len() > 2);
    }
    assert!(several > 20, "{several}");
}

#[test]
fn the_bench_image() {
    let mut image = bench_image().bytes;
    let run = |found, length| Run { found, length };
    assert_eq!(listed(ALONE, &image, 0, 65_536, 4), Ok(vec![run(Found::Absent, 65_536)]));
    assert_eq!(listed(ALONE, &image, 65_536, 0, 4), Ok(vec![]));
    assert_eq!(listed(ALONE, &image, 65_536, 1, 4), Err(11));
    assert_eq!(listed(ALONE, &image, u64::MAX, u64::MAX, 4), Err(11));
    assert_eq!(ALONE.write(&mut image, 33_285, b"hello", u64::MAX), Outcome::Finished(1028));
    assert_eq!(ALONE.write(&mut image, 33_792, b"more", u64::MAX), Outcome::Finished(514));
    let wanted = [
        run(Found::Absent, 33_280),
        run(Found::Host(2560), 1024),
        run(Found::Absent, 65_536 - 34_304),
    ];
    assert_eq!(listed(ALONE, &image, 0, 65_536, 4), Ok(wanted.to_vec()));
    assert_eq!(listed(ALONE, &image, 0, 65_536, 2), Ok(wanted[..2].to_vec()));
    assert_eq!(listed(ALONE, &image, 0, 65_536, 0), Ok(vec![]));
    let inside = [run(Found::Host(2660), 924), run(Found::Absent, 76)];
    assert_eq!(listed(ALONE, &image, 33_380, 1000, 4), Ok(inside.to_vec()));
}

/// A range that is refused by a read is listed: its bad entries are runs.
#[test]
fn bad_entries_are_runs() {
    let mut rng = Rng::from_env("bad runs", 32);
    let (mut bad, mut compressed) = (0, 0);
    for _ in 0..3000 {
        let made = any_image(&mut rng);
        let request = Requests::new(&made).any(&mut rng);
        let Request::Runs { offset, len, .. } = request else { continue };
        let Ok(list) = listed(made.over(&Plain), &made.bytes, offset, len, 100) else { continue };
        bad += list.iter().filter(|run| run.found == Found::Refused(12)).count();
        compressed += list.iter().filter(|run| run.found == Found::Refused(13)).count();
    }
    assert!(bad > 0 && compressed > 0, "{bad} {compressed}");
}
