//! Numbers, words and lines of the texts that are read.

use std::fmt::Display;

/// One to ten digits, for a number below 2^32.
pub fn decimal(digits: &[u8]) -> Option<u32> {
    if digits.is_empty() || digits.len() > 10 {
        return None;
    }
    let mut number: u64 = 0;
    for &digit in digits {
        if !digit.is_ascii_digit() {
            return None;
        }
        number = number * 10 + u64::from(digit - b'0');
    }
    u32::try_from(number).ok()
}

/// All of them as numbers, or nothing.
pub fn decimals(words: &[&[u8]]) -> Option<Vec<u32>> {
    words.iter().map(|word| decimal(word)).collect()
}

/// The words of a line without its line feed. A carriage return at the very
/// end does not count.
pub fn words(line: &[u8]) -> Vec<&[u8]> {
    line.strip_suffix(b"\r")
        .unwrap_or(line)
        .split(|byte| matches!(byte, b' ' | b'\t'))
        .filter(|word| !word.is_empty())
        .collect()
}

/// Whether a line of these words is empty or a comment.
pub fn is_idle(words: &[&[u8]]) -> bool {
    words.first().is_none_or(|word| word.starts_with(b"#"))
}

/// The items as text with something between them.
pub fn joined<T: Display>(items: impl IntoIterator<Item = T>, between: &str) -> String {
    let items: Vec<String> = items.into_iter().map(|item| item.to_string()).collect();
    items.join(between)
}

#[cfg(test)]
mod tests {
    use super::*;

    #[test]
    fn numbers() {
        assert_eq!(decimal(b"0000000012"), Some(12));
        assert_eq!(decimal(b"4294967295"), Some(u32::MAX));
        for bad in ["", "4294967296", "00000000001", "+1", "-1", "1a", "1 "] {
            assert_eq!(decimal(bad.as_bytes()), None, "{bad}");
        }
    }

    #[test]
    fn blanks_and_one_carriage_return_do_not_count() {
        assert_eq!(
            words(b" \tmark  1\t 2 \r"),
            [b"mark".as_slice(), b"1", b"2"]
        );
        assert_eq!(words(b"take\r\r"), [b"take\r"]);
        assert!(is_idle(&words(b" \t\r")));
        assert!(is_idle(&words(b"  #take")));
        assert!(!is_idle(&words(b"take #")));
    }
}
