//! What a line of a clash text may be, and where one that is none of it goes bad.

use crate::lines::{number, words};
use crate::Refusal;

/// What a line of permitted shape says.
pub enum Shape {
    Comment,
    Problem { entries: usize, edges: usize },
    Edge { ends: [usize; 2] },
}

/// The permitted shapes: a line whose first byte is c, "p edge N M", "e U V".
pub fn shape(bytes: &[u8]) -> Option<Shape> {
    if bytes.starts_with(b"c") {
        return Some(Shape::Comment);
    }
    match words(bytes)[..] {
        [b"p", b"edge", n, m] => Some(Shape::Problem { entries: number(n)?, edges: number(m)? }),
        [b"e", u, v] => Some(Shape::Edge { ends: [number(u)?, number(v)?] }),
        _ => None,
    }
}

/// A permitted line of each shape, the shortest there is.
const SHORTEST: [&[u8]; 3] = [b"c", b"p edge 0 0", b"e 0 0"];

/// Whether some permitted line begins so. If one does, then also one that ends as one of the shortest does: a number that has begun may end at
/// once, and what has not begun may be as short as can be.
fn begins(bytes: &[u8]) -> bool {
    let mut ends = SHORTEST.iter().flat_map(|line| (0..=line.len()).map(|from| &line[from..]));
    ends.any(|end| shape(&[bytes, end].concat()).is_some())
}

/// Where a line that is of no permitted shape, or is not ended, went bad: "the first byte at which the line can no longer begin any permitted line, one
/// past its end if it merely stopped"; and the kind, "by what was expected there".
pub fn bad(bytes: &[u8]) -> (Refusal, usize) {
    if shape(bytes).is_some() {
        return (Refusal::Unended, bytes.len() + 1);
    }
    let good = (1..=bytes.len()).find(|&length| !begins(&bytes[..length])).map_or(bytes.len(), |length| length - 1);
    let (before, stands) = (&bytes[..good], bytes.get(good));
    let fits = |byte: u8| begins(&[before, &[byte]].concat());
    let after_digit = before.last().is_some_and(u8::is_ascii_digit);
    let kind = if (b'a'..=b'z').any(fits) {
        Refusal::Line
    } else if !after_digit && fits(b'0') {
        Refusal::Digit // no digit where a number must start
    } else if after_digit && stands.is_some_and(u8::is_ascii_digit) {
        Refusal::Digit // one too many, after a leading zero or a seventh digit
    } else {
        Refusal::Space
    };
    (kind, good + 1)
}

#[cfg(test)]
mod tests {
    use super::*;

    #[test]
    fn permitted() {
        for line in [
            "c",
            "c ",
            "c x",
            "c---",
            "cc",
            "comment",
            "c\r",
            "c\u{0}",
            "c  \r\u{fc}",
            "p edge 0 0",
            "p edge 9999999 1000000",
            "e 0 0",
            "e 64 1",
        ] {
            assert!(shape(line.as_bytes()).is_some(), "{line:?}");
            assert_eq!(bad(line.as_bytes()), (Refusal::Unended, line.len() + 1), "{line:?}");
        }
    }

    /// No line that has a fault is permitted, with and without its line feed; and what stands before the column begins a permitted line.
    fn goes_bad(kind: Refusal, faults: &[(&str, usize)]) {
        for &(line, column) in faults {
            assert!(shape(line.as_bytes()).is_none(), "{line:?}");
            assert_eq!(bad(line.as_bytes()), (kind, column), "{line:?}");
            assert!(begins(&line.as_bytes()[..column - 1]), "{line:?}");
        }
    }

    #[test]
    fn words_unknown() {
        let first =
            [("", 1), ("x", 1), (" ", 1), ("C x", 1), ("P edge 2 1", 1), ("E 1 2", 1), ("n 1 2", 1), (" e 1 2", 1), (" p edge 2 1", 1)];
        goes_bad(Refusal::Line, &first);
        goes_bad(Refusal::Line, &[("\u{0}", 1), ("\u{fc}", 1), ("1", 1), ("-", 1), ("dge", 1)]);
        goes_bad(
            Refusal::Line,
            &[("p ", 3), ("p x", 3), ("p col 2 1", 3), ("p  edge 2 1", 3), ("p 2 1", 3), ("p ed", 5), ("p edg", 6), ("p edg 2 1", 6)],
        );
        goes_bad(Refusal::Line, &[("p e dge", 4), ("p edGe 2 1", 5), ("p e", 4), ("p Edge 2 1", 3)]);
    }

    #[test]
    fn numbers_missing_or_too_long() {
        goes_bad(
            Refusal::Digit,
            &[("e ", 3), ("e  1 2", 3), ("e -1 2", 3), ("e x", 3), ("e 1 ", 5), ("e 1  2", 5), ("e 1 x", 5), ("e 1 -2", 5), ("e \r", 3)],
        );
        goes_bad(Refusal::Digit, &[("e 01 2", 4), ("e 1 00", 6), ("e 12345678 1", 10), ("e 1 12345678", 12), ("e 00000000 1", 4)]);
        goes_bad(
            Refusal::Digit,
            &[
                ("p edge ", 8),
                ("p edge  2 1", 8),
                ("p edge -2 1", 8),
                ("p edge x", 8),
                ("p edge 3 ", 10),
                ("p edge 2  1", 10),
                ("p edge 2 +1", 10),
            ],
        );
        goes_bad(
            Refusal::Digit,
            &[("p edge 03 2", 9), ("p edge 2 01", 11), ("p edge 12345678 0", 15), ("p edge 0 12345678", 17), ("p edge 1 99999999", 17)],
        );
    }

    #[test]
    fn spaces_missing_or_too_many() {
        goes_bad(
            Refusal::Space,
            &[("p", 2), ("pedge 2 1", 2), ("p\tedge 2 1", 2), ("p1", 2), ("p edge", 7), ("p edges 3 2", 7), ("p edge2 1", 7)],
        );
        goes_bad(
            Refusal::Space,
            &[
                ("p edge 2", 9),
                ("p edge 2,1", 9),
                ("p edge 2x", 9),
                ("p edge 2 1 ", 11),
                ("p edge 2 1 3", 11),
                ("p edge 2 1\r", 11),
                ("p edge 0 0x", 11),
            ],
        );
        goes_bad(
            Refusal::Space,
            &[
                ("e", 2),
                ("edge 1 2", 2),
                ("e1 2", 2),
                ("e\u{a0}1 2", 2),
                ("e\t1 2", 2),
                ("ee", 2),
                ("e 1", 4),
                ("e 1\t2", 4),
                ("e 1.5 2", 4),
            ],
        );
        goes_bad(
            Refusal::Space,
            &[
                ("e 1 2 ", 6),
                ("e 1 2\r", 6),
                ("e 1 2 3", 6),
                ("e 1 2x", 6),
                ("e 1234567", 10),
                ("e 1234567x", 10),
                ("e 0", 4),
                ("e 0 0.", 6),
            ],
        );
    }
}
