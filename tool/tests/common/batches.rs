//! Batches of calls on a drive that forgets, every state on the way looked at.

use std::ops::Range;

use qcow2_core::{Outcome, Planned};
use qstore::batch::Batch;
use qstore::call::Call;
use qstore::layout::Layout;

use super::drive::{all_torn, usable_over, Drive, Random};
use super::promise::{guest_over, kept_over, verdict_over};
use super::series::set_bits;

/// What is promised of calls that are stored together.
pub struct Together {
    /// The image before them, after each, and what the guest reads of each.
    images: Vec<Vec<u8>>,
    guests: Vec<Vec<u8>>,
    snapshots: Vec<Vec<u8>>,
    backing: Vec<u8>,
    /// Guest bytes that are written in place, and may be old and new.
    in_place: Vec<Range<usize>>,
    bits: u32,
}

impl Together {
    pub fn of(image: &[u8], backing: &[u8], calls: &[Call]) -> Together {
        let (mut images, mut in_place) = (vec![image.to_vec()], vec![]);
        for call in calls {
            let mut next = images.last().unwrap().clone();
            let steps = call.steps(&next, backing).expect("an accepted call");
            if let Call::Write { offset, data } = *call {
                let at = offset as usize;
                in_place.extend(steps.iter().all(|it| it.epoch < 2).then_some(at..at + data.len()));
            }
            call.run(&mut next, backing, u64::MAX);
            images.push(next);
        }
        let guests = images.iter().map(|image| guest_over(image, backing)).collect();
        let (snapshots, bits) = (kept_over(image, backing), Layout::of(image).unwrap().bits);
        Together { images, guests, snapshots, backing: backing.to_vec(), in_place, bits }
    }

    /// The image in memory once all are made.
    pub fn memory(&self) -> &[u8] {
        self.images.last().unwrap()
    }

    /// In what an image breaks it.
    pub fn fault(&self, image: &[u8]) -> Option<String> {
        let verdict = verdict_over(image, &self.backing);
        if !verdict.is_usable() {
            return Some(format!("{verdict:?}"));
        }
        if kept_over(image, &self.backing) != self.snapshots {
            return Some("a byte of a snapshot".into());
        }
        if image[7] == 3 && image[88..96] != [0; 8] && image != self.images[0] {
            return Some("the autoclear bits stand".into());
        }
        let seen = guest_over(image, &self.backing);
        let clusters = (0..seen.len()).step_by(1 << self.bits);
        let mut parts = clusters.map(|at| at..seen.len().min(at + (1 << self.bits)));
        parts.find(|part| !self.allows(&seen, part)).map(|part| format!("guest bytes {part:?}"))
    }

    /// A guest cluster is as one of the images had it, but for bytes in place.
    fn allows(&self, seen: &[u8], part: &Range<usize>) -> bool {
        let had = |guest: &Vec<u8>, at: usize| guest[at] == seen[at];
        let mixed = |at: usize| {
            let in_place = self.in_place.iter().any(|range| range.contains(&at));
            in_place && self.guests.iter().any(|guest| had(guest, at))
        };
        let as_in = |guest: &Vec<u8>| part.clone().all(|at| had(guest, at) || mixed(at));
        self.guests.iter().any(as_in)
    }
}

/// How many of these calls the first batch takes.
pub fn first(image: &[u8], backing: &[u8], calls: &[Call]) -> usize {
    let (mut batch, mut memory) = (Batch::default(), image.to_vec());
    let fits = |call: &&Call| match batch.plan(call, &memory, backing) {
        Planned::Rows(count) => {
            batch.hold(call, count);
            matches!(call.run(&mut memory, backing, u64::MAX), Outcome::Finished(_))
        }
        _ => false,
    };
    calls.iter().take_while(fits).count()
}

/// Makes these calls on a drive, each batch by itself; every state on the way, then
/// the image afterwards.
pub fn follow(image: &[u8], backing: &[u8], calls: &[Call], random: &mut Random) -> Vec<u8> {
    let (mut image, mut rest) = (image.to_vec(), calls);
    while !rest.is_empty() {
        let (batch, after) = rest.split_at(first(&image, backing, rest));
        assert!(!batch.is_empty(), "a call that no batch takes");
        let mut ordered = usable_over(Drive::with(&image), backing);
        let outcome = ordered.calls(batch.iter().copied(), u64::MAX, |_| ());
        let promise = Together::of(&image, backing, batch);
        assert!(matches!(outcome, Ok(Outcome::Finished(_))), "{outcome:?}");
        assert!(ordered.is_in_step().unwrap() && ordered.image() == promise.memory());
        let drive = ordered.into_disk();
        assert!(drive.open.is_empty(), "something was not flushed");
        assert!(drive.epochs[0].is_empty(), "stored before the first flush");
        assert!(drive.epochs.len() <= 5 && drive.epochs[1..].iter().all(|it| !it.is_empty()));
        let states = all_torn(&image, &drive, random);
        for state in &states {
            assert_eq!(promise.fault(state), None);
        }
        assert!(states.last().unwrap() == promise.memory());
        (image, rest) = (promise.memory().to_vec(), after);
    }
    image
}

/// Random calls, half of them on few guest clusters, as many as are not refused.
fn drawn<'a>(image: &[u8], backing: &[u8], noise: &'a [u8], random: &mut Random) -> Vec<Call<'a>> {
    let layout = Layout::of(image).unwrap();
    let (mut memory, mut calls) = (image.to_vec(), vec![]);
    let clusters = layout.guest_clusters() as usize;
    let hot: Vec<usize> = (0..3).map(|_| random.below(clusters)).collect();
    for _ in 0..3 + random.below(8) {
        let any = random.below(clusters);
        let cluster = if random.below(2) == 0 { any } else { hot[random.below(hot.len())] };
        let start = cluster << layout.bits;
        let room = layout.cluster().min(layout.size as usize - start);
        let from = random.below(room);
        let length = 1 + random.below(room - from);
        let (from, length) = if random.below(2) == 0 { (0, room) } else { (from, length) };
        let data = &noise[random.below(noise.len() - length)..][..length];
        let call = match random.below(3) {
            0 => Call::Discard { cluster: cluster as u64 },
            _ => Call::Write { offset: (start + from) as u64, data },
        };
        match call.run(&mut memory, backing, u64::MAX) {
            Outcome::Finished(_) => calls.push(call),
            other => assert!(matches!(other, Outcome::Refused(14 | 20 | 22)), "{other:?}"),
        }
    }
    calls
}

/// Some of them in turn, with autoclear bits at times.
pub fn batches(mut image: Vec<u8>, backing: &[u8], turns: usize, random: &mut Random) -> Vec<u8> {
    let layout = Layout::of(&image).unwrap();
    let noise: Vec<u8> = (0..3 * layout.cluster()).map(|_| random.below(256) as u8).collect();
    for _ in 0..turns {
        set_bits(&mut image, &layout, random);
        let calls = drawn(&image, backing, &noise, random);
        image = follow(&image, backing, &calls, random);
    }
    image
}
