//! Series of calls on a drive that forgets, every state on the way looked at.

use qcow2_core::{translate, Found, Outcome};
use qstore::call::Call;
use qstore::layout::Layout;

use super::drive::{all_torn, usable_over, Drive, Random};
use super::promise::Promise;

/// At times sets autoclear bits, where the image has a field for them.
pub fn set_bits(image: &mut [u8], layout: &Layout, random: &mut Random) {
    if layout.version == 3 && random.below(2) == 1 {
        image[88 + random.below(8)] = 1 + random.below(255) as u8;
    }
}

/// One call on a drive; every state on the way, then the image afterwards.
fn follow(image: &[u8], backing: &[u8], call: Call, random: &mut Random) -> Vec<u8> {
    let mut ordered = usable_over(Drive::with(image), backing);
    let outcome = ordered.call(&call, u64::MAX).expect("no fault");
    let mut wanted = image.to_vec();
    assert_eq!(call.run(&mut wanted, backing, u64::MAX), outcome);
    assert!(ordered.is_in_step().unwrap() && ordered.image() == wanted);
    let drive = ordered.into_disk();
    assert!(drive.open.is_empty(), "something was not flushed");
    assert!(drive.epochs[0].is_empty(), "stored before the first flush");
    assert!(drive.epochs.len() <= 4 && drive.epochs[1..].iter().all(|it| !it.is_empty()));
    let promise = Promise::over(image, backing, &call);
    let states = all_torn(image, &drive, random);
    for state in &states {
        assert_eq!(promise.fault(state), None);
    }
    assert!(states.last() == Some(&wanted));
    wanted
}

/// Writes to where zero marks are, then discards and writes in turn.
pub fn series(mut image: Vec<u8>, backing: &[u8], turns: usize, random: &mut Random) -> Vec<u8> {
    let layout = Layout::of(&image).unwrap();
    // Zero marks first: the clusters below some hold old bytes.
    let offsets = (0..layout.size).step_by(layout.cluster());
    let zeros = |at: &u64| translate(&image, backing, *at) == Found::Zeros;
    let zeros: Vec<u64> = offsets.filter(zeros).collect();
    for offset in zeros {
        set_bits(&mut image, &layout, random);
        let data = vec![7; 1 + random.below(300)];
        let call = Call::Write { offset: offset + 100, data: &data };
        image = unless_refused(image, backing, call, random);
    }
    for _ in 0..turns {
        let cluster = random.below(layout.guest_clusters() as usize) as u64;
        set_bits(&mut image, &layout, random);
        image = unless_refused(image, backing, Call::Discard { cluster }, random);
        set_bits(&mut image, &layout, random);
        let offset = random.below(layout.size as usize);
        let room =
            (layout.cluster() - offset % layout.cluster()).min(layout.size as usize - offset);
        let data: Vec<u8> = (0..1 + random.below(room)).map(|k| (k % 255) as u8 + 1).collect();
        let call = Call::Write { offset: offset as u64, data: &data };
        image = unless_refused(image, backing, call, random);
    }
    image
}

/// Unless there is no room, a snapshot holds what would be changed, or the backing
/// file would show.
fn unless_refused(image: Vec<u8>, backing: &[u8], call: Call, random: &mut Random) -> Vec<u8> {
    match call.run(&mut image.clone(), backing, 0) {
        Outcome::Refused(14 | 22) => image,
        Outcome::Refused(20) if !backing.is_empty() => image,
        _ => follow(&image, backing, call, random),
    }
}
