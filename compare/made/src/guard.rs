//! A slice lent from the middle of a bigger buffer, whose other bytes must
//! never change; and the same for numbers and for the state of a check.

use answers::CheckBytes;

/// Odd, so that the lent bytes have no alignment.
const GUARD: usize = 61;

#[derive(Default)]
pub struct Guarded {
    buffer: Vec<u8>,
}

fn mark(k: usize) -> u8 {
    (k as u8).wrapping_mul(37) ^ 0xA5
}

impl Guarded {
    /// Holds a copy of `bytes`.
    pub fn set(&mut self, bytes: &[u8]) {
        self.buffer.resize(bytes.len() + 2 * GUARD, 0);
        let (head, rest) = self.buffer.split_at_mut(GUARD);
        let (middle, tail) = rest.split_at_mut(bytes.len());
        middle.copy_from_slice(bytes);
        for guard in [head, tail] {
            guard.iter_mut().enumerate().for_each(|(k, byte)| *byte = mark(k));
        }
    }

    pub fn of(bytes: &[u8]) -> Guarded {
        let mut guarded = Guarded::default();
        guarded.set(bytes);
        guarded
    }

    pub fn lent(&self) -> &[u8] {
        &self.buffer[GUARD..self.buffer.len() - GUARD]
    }

    pub fn lent_mut(&mut self) -> &mut [u8] {
        let end = self.buffer.len() - GUARD;
        &mut self.buffer[GUARD..end]
    }

    /// Are the bytes around the lent ones as they were?
    pub fn intact(&self) -> bool {
        let tail = self.buffer.len() - GUARD;
        [&self.buffer[..GUARD], &self.buffer[tail..]]
            .iter()
            .all(|guard| guard.iter().enumerate().all(|(k, &byte)| byte == mark(k)))
    }
}

/// Numbers before and after the lent ones.
const AROUND: usize = 5;

/// Lends `count` numbers that are all `held`, and sees that none around them
/// changes; the numbers afterwards, and the answer.
pub fn with_numbers<A>(
    count: usize,
    held: u64,
    call: impl FnOnce(&mut [u64]) -> A,
) -> (Vec<u64>, A) {
    let mut buffer = vec![!held; count + 2 * AROUND];
    let lent = AROUND..AROUND + count;
    buffer[lent.clone()].fill(held);
    let answer = call(&mut buffer[lent.clone()]);
    let around = buffer[..lent.start].iter().chain(&buffer[lent.end..]);
    assert!(around.copied().all(|number| number == !held), "numbers around changed");
    (buffer[lent].to_vec(), answer)
}

/// A state with bytes on both sides of it.
#[repr(C)]
struct Around {
    before: [u8; GUARD],
    state: CheckBytes,
    after: [u8; GUARD],
}

/// Lends a copy of the state, and sees that no byte around it changes; the state
/// afterwards, and the answer.
pub fn with_state<A>(
    state: CheckBytes,
    call: impl FnOnce(&mut CheckBytes) -> A,
) -> (CheckBytes, A) {
    let guard: [u8; GUARD] = std::array::from_fn(mark);
    let mut around = Around { before: guard, state, after: guard };
    let answer = call(&mut around.state);
    assert!(around.before == guard && around.after == guard, "bytes around the state changed");
    (around.state, answer)
}
