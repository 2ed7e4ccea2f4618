//! How much memory there is to be had: the system may promise more and then end
//! programs, this one or others, when it is used.

use std::fs;

/// Bytes, if the system tells.
pub fn available() -> Option<u64> {
    told(&fs::read_to_string("/proc/meminfo").ok()?)
}

fn told(text: &str) -> Option<u64> {
    let line = text.lines().find_map(|line| line.strip_prefix("MemAvailable:"))?;
    let kilobytes: u64 = line.trim().strip_suffix("kB")?.trim_end().parse().ok()?;
    kilobytes.checked_mul(1024)
}

#[cfg(test)]
mod tests {
    use super::*;

    #[test]
    fn what_the_system_tells() {
        let text = "MemTotal:       24567890 kB\nMemFree:   1 kB\nMemAvailable:   21000000 kB\n";
        assert_eq!(told(text), Some(21_000_000 * 1024));
        for other in ["", "MemFree: 1 kB", "MemAvailable: 5", "MemAvailable: -1 kB"] {
            assert_eq!(told(other), None, "{other}");
        }
        assert_eq!(told(&format!("MemAvailable: {} kB", u64::MAX)), None);
        assert!(available().is_none_or(|bytes| bytes > 1 << 20));
    }
}
