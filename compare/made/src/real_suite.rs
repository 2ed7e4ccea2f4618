//! The real images read by one implementation.

use answers::{Calls, Found, Outcome, Over};
use plain::plain_disk::{Call, Series};

use crate::real::{all, suite, Real};
use crate::report::report;

/// What the small program writes for each image.
pub fn reports(calls: &dyn Calls) {
    for real in all() {
        assert_eq!(report(Over::none(calls), &real.bytes), real.report, "{}", real.file);
    }
    for (file, bytes, lines) in suite() {
        assert_eq!(report(Over::none(calls), &bytes), lines, "{file}");
    }
}

/// Compares the guest bytes in requests of `portion` bytes.
fn read_all(side: Over, real: &Real, portion: usize) {
    let guest = real.guest.as_ref().expect("guest bytes");
    let mut offset = 0;
    while offset < guest.size() {
        let len = (guest.size() - offset).min(portion as u64) as usize;
        let mut out = vec![0xC3; len];
        let answer = side.read(&real.bytes, offset, &mut out);
        assert_eq!(answer, Ok(()), "{} at {offset}", real.file);
        assert!(out == guest.bytes(offset, len), "{} at {offset}", real.file);
        offset += len as u64;
    }
}

/// Reads equal what the independent program reads.
pub fn guest_bytes(calls: &dyn Calls) {
    let mut compared = 0;
    for real in all() {
        let side = real.over(calls);
        if real.reads_equal() {
            read_all(side, &real, 1 << 20);
            if real.bytes.len() < 20_000 {
                read_all(side, &real, 777);
            }
            compared += 1;
        } else if let Some(number) = real.read_equal.strip_prefix("doc01 refused ") {
            let mut out = vec![0xC3; 65_536];
            let answer = side.read(&real.bytes, 0, &mut out);
            assert_eq!(answer, Err(number.parse().unwrap()), "{}", real.file);
            assert!(out.iter().all(|&byte| byte == 0xC3));
        }
    }
    assert!(compared >= 19);
}

/// The same for snapshots.
pub fn snapshots(calls: &dyn Calls) {
    let mut compared = 0;
    for real in all() {
        let side = real.over(calls);
        for (snapshot, guest) in (0..).zip(&real.snapshots) {
            let mut out = vec![0xC3; guest.size() as usize];
            let answer = side.read_snapshot(&real.bytes, snapshot, 0, &mut out);
            assert_eq!(answer, Ok(()), "{} {snapshot}", real.file);
            assert!(out == guest.bytes(0, out.len()), "{} {snapshot}", real.file);
            compared += 1;
        }
    }
    assert!(compared >= 2);
}

/// Lookups agree with translation and with the guest bytes.
pub fn lookups(calls: &dyn Calls) {
    for real in all().iter().filter(|real| real.reads_equal()) {
        let side = real.over(calls);
        let guest = real.guest.as_ref().expect("guest bytes");
        let step = if guest.size() > 1 << 20 { 4093 } else { 61 };
        for offset in (0..guest.size()).step_by(step) {
            let part = side.lookup(&real.bytes, offset);
            let found = side.translate(&real.bytes, offset);
            assert_eq!(part.is_empty(), !matches!(found, Found::Host(_)));
            assert!(part == guest.bytes(offset, part.len()), "{} at {offset}", real.file);
        }
    }
}

/// Writes, cut writes, discards and repairs on each usable image.
pub fn series(calls: &dyn Calls) {
    for real in all().iter().filter(|real| !real.report.contains("damaged")) {
        match Series::start(real.over(calls), &real.bytes) {
            Ok(series) => series_of(real, series),
            Err(_) => assert!(real.report.starts_with("refused"), "{}", real.file),
        }
    }
}

fn series_of(real: &Real, mut series: Series) {
    let mut image = real.bytes.clone();
    let repair = Call::Repair { scratch: image.len() / 256 };
    let mut step = |call, allowance| {
        let answer = series.step(&mut image, call, allowance);
        answer.unwrap_or_else(|fault| panic!("{}: {fault}", real.file))
    };
    for cluster in [0, 1, 8, 9, 20, 65, 66] {
        let offset = cluster * 512 + 7;
        step(Call::Write { offset, data: b"some bytes" }, 600 + cluster);
        step(Call::Discard { cluster: cluster + 1 }, 1);
        step(Call::Write { offset, data: b"more bytes" }, u64::MAX);
        step(Call::Discard { cluster: cluster + 2 }, u64::MAX);
        step(repair, cluster % 3);
    }
    assert!(matches!(step(repair, u64::MAX), Outcome::Finished(_)));
}
