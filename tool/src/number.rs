//! Offsets and lengths as people write them: `4096`, `0x1000`, `4k`, `1M`.

/// The number, or why it is none.
pub fn parse(text: &str) -> Result<u64, String> {
    let wrong =
        || format!("'{text}' is no number: write 4096, 0x1000, or 4k, 1M, 1G, 1T (powers of 1024)");
    if let Some(digits) = text.strip_prefix("0x").or_else(|| text.strip_prefix("0X")) {
        return digits_only(digits, 16).ok_or_else(wrong);
    }
    let (digits, shift) = match text.char_indices().next_back() {
        Some((at, 'k' | 'K')) => (&text[..at], 10),
        Some((at, 'M')) => (&text[..at], 20),
        Some((at, 'G')) => (&text[..at], 30),
        Some((at, 'T')) => (&text[..at], 40),
        _ => (text, 0),
    };
    let number = digits_only(digits, 10).ok_or_else(wrong)?;
    number.checked_mul(1 << shift).ok_or_else(|| format!("'{text}' is above 2^64 - 1"))
}

/// Digits alone: no sign, at least one.
fn digits_only(digits: &str, radix: u32) -> Option<u64> {
    let sign = digits.starts_with('+');
    (!sign).then(|| u64::from_str_radix(digits, radix).ok()).flatten()
}

#[cfg(test)]
mod tests {
    use super::parse;

    #[test]
    fn numbers() {
        assert_eq!(parse("0"), Ok(0));
        assert_eq!(parse("33285"), Ok(33_285));
        assert_eq!(parse("0x1f"), Ok(31));
        assert_eq!(parse("4k"), Ok(4096));
        assert_eq!(parse("4K"), Ok(4096));
        assert_eq!(parse("3M"), Ok(3 << 20));
        assert_eq!(parse("2G"), Ok(2 << 30));
        assert_eq!(parse("1T"), Ok(1 << 40));
        assert_eq!(parse("18446744073709551615"), Ok(u64::MAX));
        assert_eq!(parse("0xffffffffffffffff"), Ok(u64::MAX));
    }

    #[test]
    fn others() {
        for text in ["", "k", "-1", "+1", "0x", "0x+1", "1 ", "1kk", "4kB", "1.5M", "ten", "1é"] {
            assert!(parse(text).is_err(), "{text}");
        }
        for text in ["18446744073709551616", "16777216T", "0x10000000000000000"] {
            assert!(parse(text).is_err(), "{text}");
        }
    }
}
