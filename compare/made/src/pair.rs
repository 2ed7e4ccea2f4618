//! Two implementations fed the same requests: every answer and every lent byte
//! must agree, and no byte around the lent ones may change.

use std::collections::BTreeMap;

use answers::{Calls, Outcome, Over, Portion, STEP};

use crate::backing::NAME_AT;
use crate::breaks::ORDER;
use crate::guard::{with_numbers, with_state, Guarded};
use crate::image::Made;
use crate::portions::Kept;
use crate::requests::Request;

pub struct Pair<'c> {
    sides: [&'c dyn Calls; 2],
    images: [Guarded; 2],
    /// The image before the call.
    before: Vec<u8>,
    /// The bytes of a backing file that each side is lent, and as they have to stay.
    backing: [(Guarded, Vec<u8>); 2],
    /// Calls made so far, of each side.
    pub calls: u64,
    /// How often each call gave each kind of answer.
    pub tally: BTreeMap<String, u64>,
}

impl<'c> Pair<'c> {
    pub fn new(left: &'c dyn Calls, right: &'c dyn Calls) -> Pair<'c> {
        Pair {
            sides: [left, right],
            images: [Guarded::default(), Guarded::default()],
            before: Vec::new(),
            backing: [(); 2].map(|()| (Guarded::of(&[]), Vec::new())),
            calls: 0,
            tally: BTreeMap::new(),
        }
    }

    /// Lends both sides a copy of the image from now on, and its backing file.
    pub fn load(&mut self, made: &Made) {
        self.load_bytes(&made.bytes, &made.backing);
    }

    /// Where an image names no backing file, the right side is lent none: what the
    /// left side is lent must not matter.
    pub fn load_bytes(&mut self, image: &[u8], backing: &[u8]) {
        image.clone_into(&mut self.before);
        self.images.iter_mut().for_each(|side| side.set(image));
        let is_backed = image.get(NAME_AT..NAME_AT + 8).is_some_and(|place| place != [0; 8]);
        let bytes = [backing, if is_backed { backing } else { &[] }];
        for ((lent, kept), bytes) in self.backing.iter_mut().zip(bytes) {
            if kept != bytes {
                bytes.clone_into(kept);
                lent.set(bytes);
            }
        }
    }

    /// The image as the calls have left it.
    pub fn image(&self) -> &[u8] {
        &self.before
    }

    /// Makes one call of each side and compares; what a storing call answered.
    pub fn run(&mut self, request: &Request) -> Option<Outcome> {
        self.calls += 1;
        match *request {
            Request::Translate { offset } => {
                self.answers(request, |side, image| side.translate(image.lent(), offset));
            }
            Request::Lookup { offset } => {
                self.answers(request, |side, image| part(image, side.lookup(image.lent(), offset)));
            }
            Request::Read { offset, len } => {
                self.read(request, len, |side, image, out| side.read(image, offset, out));
            }
            Request::ReadSnapshot { snapshot, offset, len } => {
                self.read(request, len, |side, image, out| {
                    side.read_snapshot(image, snapshot, offset, out)
                });
            }
            Request::Geometry => {
                _ = self.answers(request, |side, image| side.geometry(image.lent()))
            }
            Request::BackingName => {
                _ = self.answers(request, |side, image| {
                    side.calls.backing_name(image.lent()).map(|name| part(image, name))
                })
            }
            Request::Runs { offset, len, room } => self.runs(request, offset, len, room),
            Request::WriteSteps { room, .. } | Request::DiscardSteps { room, .. } => {
                self.steps(request, 0, room);
            }
            Request::RepairSteps { scratch, room } => self.steps(request, scratch, room),
            Request::Check { scratch } => {
                self.with_scratch(request, scratch, |side, image, scratch| {
                    side.check(image.lent(), scratch)
                });
            }
            _ => return Some(self.store(request)),
        }
        same(request, &self.images, Some(&self.before));
        None
    }

    /// One portion of each side: both begin with what was kept, and leave the same. Where
    /// the state stays the scratch does.
    pub fn portion(&mut self, kept: &mut Kept, may: u64) -> Portion {
        self.calls += 1;
        let (state, scratch) = (kept.state, kept.scratch.len());
        let request = &Request::CheckPortion { state, scratch, may };
        let before = std::mem::take(&mut kept.scratch);
        let mut states = Vec::new();
        let (answer, after) = self.over_scratch(request, &before, |side, image, scratch| {
            let call = |lent: &mut _| side.check_portion(image.lent(), lent, scratch, may);
            let (after, answer) = with_state(state, call);
            states.push(after);
            answer
        });
        same(request, &self.images, Some(&self.before));
        assert!(states[0] == states[1], "states differ, {states:?}: {request:?}");
        assert!(states[0] != state || after == before, "the scratch changed: {request:?}");
        *kept = Kept { state: states[0], scratch: after };
        answer
    }

    /// A storing call: the images agree after it, and a refusal or a cut at 0
    /// changed nothing.
    fn store(&mut self, request: &Request) -> Outcome {
        let outcome = match *request {
            Request::Repair { scratch, allowance } => {
                self.with_scratch(request, scratch, |side, image, scratch| {
                    side.repair(image.lent_mut(), scratch, allowance)
                })
            }
            Request::Discard { cluster, allowance } => self
                .answers(request, |side, image| side.discard(image.lent_mut(), cluster, allowance)),
            Request::Extend { old, allowance } => self.answers(request, |side, image| {
                side.calls.extend(image.lent_mut(), old, allowance)
            }),
            Request::Write { offset, ref data, allowance } => {
                let lent = Guarded::of(data);
                let outcome = self.answers(request, |side, image| {
                    side.write(image.lent_mut(), offset, lent.lent(), allowance)
                });
                assert!(lent.intact() && lent.lent() == data, "data changed: {request:?}");
                outcome
            }
            _ => unreachable!("not a storing request"),
        };
        let unchanged = matches!(outcome, Outcome::Refused(_) | Outcome::Stopped(0));
        same(request, &self.images, unchanged.then_some(&self.before));
        self.before.copy_from_slice(self.images[0].lent());
        outcome
    }

    fn answers<A: PartialEq + std::fmt::Debug>(
        &mut self,
        request: &Request,
        mut call: impl FnMut(Over, &mut Guarded) -> A,
    ) -> A {
        let [left, right] = [0, 1].map(|k| {
            let (backing, kept) = &self.backing[k];
            let side = Over { calls: self.sides[k], backing: backing.lent() };
            let answer = call(side, &mut self.images[k]);
            let same = backing.intact() && backing.lent() == kept;
            assert!(same, "the backing file's bytes changed: {request:?}");
            answer
        });
        let names = self.sides.map(|side| side.name());
        assert_eq!(left, right, "{names:?} answer differently: {request:?}");
        *self.tally.entry(kind(request, &left)).or_default() += 1;
        left
    }

    fn read(
        &mut self,
        request: &Request,
        len: usize,
        read: impl Fn(Over, &[u8], &mut [u8]) -> Result<(), u32>,
    ) {
        let before = vec![0xC3; len];
        let out = &mut [Guarded::of(&before), Guarded::of(&before)];
        let mut lent = out.iter_mut();
        let answer = self.answers(request, |side, image| {
            read(side, image.lent(), lent.next().expect("two sides").lent_mut())
        });
        same(request, out, answer.is_err().then_some(&before));
    }

    fn runs(&mut self, request: &Request, offset: u64, len: u64, room: usize) {
        let mut rows = Vec::new();
        let answer = self.answers(request, |side, image| {
            let run = |lent: &mut [u64]| side.runs(image.lent(), offset, len, lent);
            let (numbers, answer) = with_numbers(room, HELD, run);
            rows.push(numbers);
            answer
        });
        let runs = same_rows(request, &rows, 3 * answer.unwrap_or(0));
        let most = if answer.is_ok() { len } else { 0 };
        let covered: u64 = runs.iter().skip(2).step_by(3).sum();
        assert!(covered == most || covered < most && runs.len() / 3 == room / 3, "{request:?}");
    }

    /// With a scratch and numbers of these lengths.
    fn steps(&mut self, request: &Request, scratch: usize, room: usize) {
        let mut rows = Vec::new();
        let answer = self.with_scratch(request, scratch, |side, image, scratch| {
            let list = |lent: &mut [u64]| list_steps(side, image.lent(), request, scratch, lent);
            let (numbers, answer) = with_numbers(room, HELD, list);
            rows.push(numbers);
            answer
        });
        let count = answer.unwrap_or(0);
        same_rows(request, &rows, STEP * count);
        assert!(count <= room / STEP, "{request:?}");
    }

    fn with_scratch<A: PartialEq + std::fmt::Debug>(
        &mut self,
        request: &Request,
        len: usize,
        call: impl FnMut(Over, &mut Guarded, &mut [u8]) -> A,
    ) -> A {
        self.over_scratch(request, &vec![0x5A; len], call).0
    }

    /// With a copy of these bytes as the scratch, and what becomes of it.
    fn over_scratch<A: PartialEq + std::fmt::Debug>(
        &mut self,
        request: &Request,
        before: &[u8],
        mut call: impl FnMut(Over, &mut Guarded, &mut [u8]) -> A,
    ) -> (A, Vec<u8>) {
        let scratch = &mut [Guarded::of(before), Guarded::of(before)];
        let mut lent = scratch.iter_mut();
        let answer = self.answers(request, |side, image| {
            call(side, image, lent.next().expect("two sides").lent_mut())
        });
        same(request, scratch, None);
        (answer, scratch[0].lent().to_vec())
    }
}

/// The steps that are asked for.
pub fn list_steps(
    side: Over,
    image: &[u8],
    request: &Request,
    scratch: &mut [u8],
    rows: &mut [u64],
) -> Result<usize, u32> {
    match *request {
        Request::WriteSteps { offset, len, .. } => side.write_steps(image, offset, len, rows),
        Request::DiscardSteps { cluster, .. } => side.discard_steps(image, cluster, rows),
        Request::RepairSteps { .. } => side.repair_steps(image, scratch, rows),
        _ => unreachable!("not a listing of steps"),
    }
}

/// What lent numbers hold before a call.
const HELD: u64 = 0xC3C3;

/// The numbers that both have filled: they agree, and what is left over, or all
/// of a refused call's, is as it was.
fn same_rows<'a>(request: &Request, rows: &'a [Vec<u64>], filled: usize) -> &'a [u64] {
    assert!(rows[0] == rows[1], "rows differ: {request:?}");
    let (numbers, rest) = rows[0].split_at(filled);
    assert!(rest.iter().all(|&number| number == HELD), "past the rows: {request:?}");
    numbers
}

/// Both hold the same bytes, `wanted` if that is given.
fn same(request: &Request, held: &[Guarded; 2], wanted: Option<&Vec<u8>>) {
    let [left, right] = held;
    assert!(left.intact() && right.intact(), "bytes around changed: {request:?}");
    let wanted = wanted.map_or(left.lent(), Vec::as_slice);
    for side in held {
        let differs = || wanted.iter().zip(side.lent()).position(|(a, b)| a != b);
        assert!(side.lent() == wanted, "bytes differ at {:?}: {request:?}", differs());
    }
}

/// The kinds of answers that a long random run has to meet and did not.
pub fn missing(tally: &BTreeMap<String, u64>) -> Vec<String> {
    let mut wanted: Vec<String> = Vec::new();
    let storing = ["Finished", "Stopped"].as_slice();
    for (call, answers, numbers) in [
        ("geometry", ["Ok"].as_slice(), [].as_slice()),
        ("backing_name", &["Ok"], &[]),
        ("translate", &["Host", "Zeros", "Absent"], &[11, 12, 13]),
        ("read", &["Ok"], &[11, 12, 13]),
        ("read_snapshot", &["Ok"], &[11]),
        ("runs", &["Ok"], &[11]),
        ("write", storing, &[11, 12, 13, 14, 22]),
        ("discard", storing, &[11, 12, 13, 16, 20, 22]),
        ("repair", storing, &[15, 17]),
        ("write_steps", &["Ok"], &[11, 12, 13, 14, 22]),
        ("discard_steps", &["Ok"], &[11, 12, 13, 16, 20, 22]),
        ("repair_steps", &["Ok"], &[15, 17]),
        ("check", &["Sound", "Leaks", "BadL1", "BadL2", "Shared", "Short"], &[15]),
    ] {
        wanted.extend(answers.iter().map(|answer| format!("{call} {answer}")));
        let numbers = ORDER.iter().chain(numbers);
        wanted.extend(numbers.map(|number| format!("{call} Refused({number})")));
    }
    wanted.extend(["lookup Some".into(), "lookup None".into()]);
    wanted.retain(|kind| !tally.contains_key(kind));
    wanted
}

/// Name of the call and kind of its answer, with the number of a refusal.
fn kind(request: &Request, answer: &impl std::fmt::Debug) -> String {
    let answer = format!("{answer:?}");
    let answer = answer.strip_prefix("Told(").unwrap_or(&answer);
    let refused = answer.starts_with("Refused") || answer.starts_with("Err");
    let end = if refused { answer.len() } else { answer.find(['(', ')']).unwrap_or(answer.len()) };
    format!("{} {}", request.name(), answer[..end].replace("Err", "Refused"))
}

/// Where the part lies in the image, and its length; None if it is empty.
fn part(image: &Guarded, part: &[u8]) -> Option<(usize, usize)> {
    let start = (part.as_ptr() as usize).wrapping_sub(image.lent().as_ptr() as usize);
    (!part.is_empty()).then_some((start, part.len()))
}
