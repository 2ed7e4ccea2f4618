//! A line on a terminal for what takes longer than a second.

use std::io::{stderr, IsTerminal, Write};
use std::time::{Duration, Instant};

pub struct Progress {
    label: &'static str,
    total: u64,
    terminal: bool,
    /// When the line is due next.
    due: Instant,
    shown: bool,
}

impl Progress {
    pub fn new(label: &'static str, total: u64) -> Progress {
        let due = Instant::now() + Duration::from_secs(1);
        Progress { label, total, terminal: stderr().is_terminal(), due, shown: false }
    }

    /// Says how far the work is, if it is time to.
    pub fn at(&mut self, done: u64) {
        if !self.terminal || Instant::now() < self.due {
            return;
        }
        self.due = Instant::now() + Duration::from_millis(200);
        self.shown = true;
        let line = line(self.label, done, self.total);
        _ = write!(stderr(), "\r\x1b[K{line}");
    }
}

impl Progress {
    /// The same where the total is learned on the way.
    pub fn of(&mut self, done: u64, total: u64) {
        self.total = total;
        self.at(done);
    }
}

impl Drop for Progress {
    fn drop(&mut self) {
        if self.shown {
            _ = write!(stderr(), "\r\x1b[K");
        }
    }
}

fn line(label: &str, done: u64, total: u64) -> String {
    let percent = u128::from(done) * 100 / u128::from(total.max(1));
    format!("{label}: {percent} % ({done} of {total})")
}

#[cfg(test)]
mod tests {
    use super::line;

    #[test]
    fn lines() {
        assert_eq!(line("write", 3, 4), "write: 75 % (3 of 4)");
        assert_eq!(line("read", 0, 0), "read: 0 % (0 of 0)");
        assert!(line("read", u64::MAX, u64::MAX).starts_with("read: 100 %"));
    }
}
