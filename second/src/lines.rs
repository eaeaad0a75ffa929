//! Lines and numbers, the same for both kinds of text.

/// One line of a text, without its line feed.
#[derive(Clone, Copy, Debug, PartialEq, Eq)]
pub struct Line<'a> {
    /// Counted from 1.
    pub number: usize,
    /// Where the line starts in the text.
    pub start: usize,
    pub bytes: &'a [u8],
    /// Whether a line feed ends it; only the last line of a text can lack one.
    pub ended: bool,
}

/// All lines of a text. The empty text has none; what stands after the last line feed is a line if it has any byte.
pub fn lines(text: &[u8]) -> Vec<Line<'_>> {
    let mut all = Vec::new();
    let mut start = 0;
    while start < text.len() {
        let feed = text[start..].iter().position(|&b| b == b'\n');
        let end = feed.map_or(text.len(), |length| start + length);
        all.push(Line { number: all.len() + 1, start, bytes: &text[start..end], ended: feed.is_some() });
        start = end + 1;
    }
    all
}

/// A number: 1 to 7 digits without leading zero, or "0" itself.
pub fn number(digits: &[u8]) -> Option<usize> {
    let shaped = (1..=7).contains(&digits.len()) && digits.iter().all(u8::is_ascii_digit) && (digits[0] != b'0' || digits.len() == 1);
    shaped.then(|| digits.iter().fold(0, |value, digit| value * 10 + usize::from(digit - b'0')))
}

/// What stands between single spaces: "e 1 2" has three words, and two spaces in a row have an empty word between them.
pub fn words(bytes: &[u8]) -> Vec<&[u8]> {
    bytes.split(|&b| b == b' ').collect()
}

#[cfg(test)]
mod tests {
    use super::*;

    #[test]
    fn numbers() {
        for (digits, value) in [("0", 0), ("1", 1), ("64", 64), ("9999999", 9_999_999), ("1000000", 1_000_000)] {
            assert_eq!(number(digits.as_bytes()), Some(value), "{digits}");
        }
        for digits in ["", "00", "01", "+1", "-1", "1 ", " 1", "1a", "10000000", "00000000", "1.", "\u{661}", "/", ":"] {
            assert_eq!(number(digits.as_bytes()), None, "{digits}");
        }
    }

    #[test]
    fn lines_of_a_text() {
        assert!(lines(b"").is_empty());
        let feed = lines(b"\n");
        assert_eq!(feed, [Line { number: 1, start: 0, bytes: b"", ended: true }]);
        let two = lines(b"ab\nc");
        assert_eq!(two[0], Line { number: 1, start: 0, bytes: b"ab", ended: true });
        assert_eq!(two[1], Line { number: 2, start: 3, bytes: b"c", ended: false });
        assert_eq!(lines(b"a\n\nb\n").len(), 3);
        assert_eq!(lines(b"a\r\n")[0].bytes, b"a\r");
    }

    #[test]
    fn words_of_a_line() {
        assert_eq!(words(b"e 1 2"), [&b"e"[..], b"1", b"2"]);
        assert_eq!(words(b"e  2"), [&b"e"[..], b"", b"2"]);
        assert_eq!(words(b""), [b""]);
    }
}
