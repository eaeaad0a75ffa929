//! Clash texts: DIMACS colouring format, as documents 01 and 02 narrow it.

use crate::lines::{lines, Line};
use crate::shape::{bad, shape, Shape};
use crate::{matrix, Refusal, Refused, BYTES, ENTRIES};

/// What has been read so far.
struct State {
    /// Entries and stated number of e lines, once the p line stood.
    stated: Option<(usize, usize)>,
    /// The ends of each e line, the smaller first.
    edges: Vec<[usize; 2]>,
    /// Whether an edge may stand a second time.
    repeats: bool,
}

impl State {
    /// One line, by 10 and its kin, 11, 12, 13, 17, 14, 15, 20.
    fn take(&mut self, line: &Line, room: usize) -> Result<(), Refused> {
        let Some(shape) = shape(line.bytes).filter(|_| line.ended) else {
            let (kind, column) = bad(line.bytes);
            return Err(kind.spot(line.number, column));
        };
        self.say(shape, room).map_err(|why| why.at(line.number))
    }

    /// What an ended line of permitted shape says: 11, 12, 13, 17, 14, 15, 20.
    fn say(&mut self, shape: Shape, room: usize) -> Result<(), Refusal> {
        match (shape, self.stated) {
            (Shape::Comment, _) => {}
            (Shape::Edge { .. }, None) => return Err(Refusal::Headless),
            (Shape::Problem { .. }, Some(_)) => return Err(Refusal::Second),
            (Shape::Problem { entries, .. }, None) if entries > ENTRIES => return Err(Refusal::Size),
            (Shape::Problem { entries, .. }, None) if entries > room => return Err(Refusal::Room),
            (Shape::Problem { entries, edges }, None) => self.stated = Some((entries, edges)),
            (Shape::Edge { ends }, Some((n, _))) if ends.iter().any(|&end| end < 1 || end > n) => return Err(Refusal::Vertex),
            (Shape::Edge { ends: [u, v] }, Some(_)) if u == v => return Err(Refusal::Loop),
            (Shape::Edge { ends: [u, v] }, Some(_)) => {
                let edge = [u.min(v), u.max(v)];
                if !self.repeats && self.edges.contains(&edge) {
                    return Err(Refusal::Repeat);
                }
                self.edges.push(edge);
            }
        }
        Ok(())
    }
}

/// A reading of a clash text: writes the first n lent rows and returns n, or writes nothing.
pub type Reading = fn(&[u8], &mut [u64]) -> Result<usize, Refused>;

/// The plain reading, which refuses an edge that stands a second time, either way round.
pub fn read(text: &[u8], rows: &mut [u64]) -> Result<usize, Refused> {
    read_so(text, rows, false)
}

/// The old reading, which allows it.
pub fn read_repeats(text: &[u8], rows: &mut [u64]) -> Result<usize, Refused> {
    read_so(text, rows, true)
}

fn read_so(text: &[u8], rows: &mut [u64], repeats: bool) -> Result<usize, Refused> {
    if text.len() > BYTES {
        return Err(Refusal::Long.bare());
    }
    let all = lines(text);
    let mut state = State { stated: None, edges: Vec::new(), repeats };
    for line in &all {
        state.take(line, rows.len())?;
    }
    let past = all.len() + 1;
    let (n, stated) = state.stated.ok_or(Refusal::Headless.at(past))?;
    if state.edges.len() != stated {
        return Err(Refusal::Count.at(past));
    }
    let clashes: Vec<(usize, usize)> = state.edges.iter().map(|[u, v]| (u - 1, v - 1)).collect();
    rows[..n].copy_from_slice(&matrix::rows_of(n, &clashes));
    Ok(n)
}

/// The clash text of a valid list.
pub fn text_of(rows: &[u64]) -> String {
    let n = rows.len();
    let edges: Vec<(usize, usize)> =
        (0..n).flat_map(|u| (u + 1..n).map(move |v| (u, v))).filter(|&(u, v)| matrix::has(rows, u, v)).collect();
    let head = format!("p edge {n} {}\n", edges.len());
    edges.iter().fold(head, |text, (u, v)| text + &format!("e {} {}\n", u + 1, v + 1))
}

/// Writes a list's clash text and returns its length, or writes nothing: 1 to 4, then 19.
pub fn write(rows: &[u64], out: &mut [u8]) -> Result<usize, Refused> {
    matrix::judge(rows)?;
    put(&text_of(rows), out)
}

/// A whole text into the output buffer, or 19; bytes after it stay.
pub(crate) fn put(text: &str, out: &mut [u8]) -> Result<usize, Refused> {
    let room = out.get_mut(..text.len()).ok_or(Refusal::Full.bare())?;
    room.copy_from_slice(text.as_bytes());
    Ok(text.len())
}

#[cfg(test)]
mod tests {
    use super::*;
    use crate::matrix::rows_of;

    const FIVE_CYCLE: &str = "p edge 5 5\ne 1 2\ne 2 3\ne 3 4\ne 4 5\ne 1 5\n";

    /// Reads with 64 lent rows of a pattern that must stay where reading writes nothing.
    fn read_64_by(read: Reading, text: &[u8]) -> Result<Vec<u64>, [u64; 3]> {
        let mut rows = [0xA5A5_u64; 64];
        match read(text, &mut rows) {
            Ok(n) => {
                assert!(rows[n..].iter().all(|&row| row == 0xA5A5));
                Ok(rows[..n].to_vec())
            }
            Err(refused) => {
                assert_eq!(rows, [0xA5A5; 64], "nothing lent is written");
                Err([refused.why.number(), refused.place, refused.column])
            }
        }
    }

    /// By both readings, alike.
    fn read_64(text: &[u8]) -> Result<Vec<u64>, [u64; 3]> {
        let plain = read_64_by(read, text);
        assert_eq!(read_64_by(read_repeats, text), plain, "{:?}", String::from_utf8_lossy(text));
        plain
    }

    fn refused_at(text: &str, number: u64, line: u64, column: u64) {
        assert_eq!(read_64(text.as_bytes()), Err([number, line, column]), "{text:?}");
    }

    fn refused(text: &str, number: u64, line: u64) {
        refused_at(text, number, line, 0);
    }

    #[test]
    fn the_papers_texts() {
        let five = rows_of(5, &[(0, 1), (1, 2), (2, 3), (3, 4), (0, 4)]);
        assert_eq!(read_64(FIVE_CYCLE.as_bytes()), Ok(five));
        assert_eq!(read_64(b"p edge 0 0\n"), Ok(vec![]));
        refused("", 11, 1);
    }

    #[test]
    fn permitted() {
        let pair = Ok(vec![2, 1]);
        assert_eq!(read_64(b"c \np edge 2 1\nc \xff\x00 anything\ne 2 1\nc end\n"), pair);
        assert_eq!(read_64(b"p edge 2 1\ne 2 1\n"), pair);
        assert_eq!(read_64(b"p edge 64 0\n"), Ok(vec![0; 64]));
        assert_eq!(read_64(b"p edge 64 1\ne 64 1\n").unwrap()[0], 1 << 63);
        assert_eq!(read_64(b"c   \nc c\np edge 1 0\n"), Ok(vec![0]));
        assert_eq!(read_64(b"c\nc---\ncomment\np edge 1 0\nc\r\nc\0\nce 1 2\n"), Ok(vec![0]));
    }

    #[test]
    fn lines_of_no_shape() {
        for (line, number, column) in
            [("", 10, 1), ("p col 2 1", 10, 3), ("e 1 x", 21, 5), ("p edge 2 01", 21, 11), ("e 1 2 ", 22, 6), ("e1 2", 22, 2)]
        {
            refused_at(&format!("{line}\n"), number, 1, column);
            refused_at(&format!("p edge 2 1\nc x\n{line}\ne 1 2\n"), number, 3, column);
            refused_at(&format!("p edge 2 1\ne 1 2\n{line}\n"), number, 3, column);
        }
    }

    #[test]
    fn an_unended_line_that_is_whole_is_23_whatever_else() {
        refused_at("c", 23, 1, 2);
        refused_at("c x", 23, 1, 4);
        refused_at("p edge 2 1", 23, 1, 11);
        refused_at("p edge 65 1", 23, 1, 12);
        refused_at("e 1 2", 23, 1, 6);
        refused_at("p edge 2 1\ne 1 2", 23, 2, 6);
        refused_at("p edge 2 1\np edge 2 1", 23, 2, 11);
        refused_at("p edge 2 1\ne 3 3", 23, 2, 6);
    }

    #[test]
    fn an_unended_line_that_is_not_has_its_own() {
        refused_at("p ed", 10, 1, 5);
        refused_at("p edge 2 1\ne 1 ", 21, 2, 5);
        refused_at("p edge 2 1\ne 1", 22, 2, 4);
        refused_at("\n", 10, 1, 1);
    }

    #[test]
    fn head_and_size() {
        refused("c x\n", 11, 2);
        refused("c x\nc y\n", 11, 3);
        refused("c x\ne 1 2\n", 11, 2);
        refused("e 0 0\n", 11, 1);
        refused("e 1 2\np edge 2 1\n", 11, 1);
        refused("p edge 2 0\np edge 2 0\n", 12, 2);
        refused("p edge 2 0\np edge 9999999 0\n", 12, 2);
        refused("p edge 65 0\n", 13, 1);
        refused("p edge 9999999 9999999\n", 13, 1);
        refused("p edge 64 1\ne 64 65\n", 14, 2);
    }

    #[test]
    fn ends_and_counts() {
        refused("p edge 3 1\ne 0 1\n", 14, 2);
        refused("p edge 3 1\ne 1 4\n", 14, 2);
        refused("p edge 3 1\ne 4 4\n", 14, 2);
        refused("p edge 3 1\ne 0 0\n", 14, 2);
        refused("p edge 0 1\ne 1 1\n", 14, 2);
        refused("p edge 3 1\ne 3 3\n", 15, 2);
        refused("p edge 3 1\n", 16, 2);
        refused("p edge 3 0\ne 1 2\n", 16, 3);
        refused("p edge 3 1\ne 1 2\ne 1 3\nc x\n", 16, 5);
        refused("p edge 3 0\ne 1 2\ne 2 2\n", 15, 3);
        refused("p edge 3 9999999\ne 1 2\n", 16, 3);
    }

    /// The line of the second, after 15 of its line, before later lines and the count; allowed by the old reading, in which every e line counts.
    #[test]
    fn repeats() {
        let repeated = |text: &str, line: u64, allowed: Result<Vec<u64>, [u64; 3]>| {
            assert_eq!(read_64_by(read, text.as_bytes()), Err([20, line, 0]), "{text:?}");
            assert_eq!(read_64_by(read_repeats, text.as_bytes()), allowed, "{text:?}");
        };
        repeated("p edge 2 2\ne 1 2\ne 1 2\n", 3, Ok(vec![2, 1]));
        repeated("p edge 2 2\ne 1 2\ne 2 1\n", 3, Ok(vec![2, 1]));
        repeated("p edge 3 4\ne 1 2\nc x\ne 2 3\ne 3 2\ne 1 2\n", 5, Ok(vec![2, 5, 2]));
        repeated("p edge 2 1\ne 1 2\ne 2 1\n", 3, Err([16, 4, 0]));
        repeated("p edge 2 2\ne 2 1\ne 1 2\ne 3 3\n", 3, Err([14, 4, 0]));
        repeated("p edge 2 2\ne 2 1\ne 2 1\ne 1 2", 3, Err([23, 4, 6]));
        refused("p edge 2 2\ne 2 1\ne 1 1\ne 1 2\n", 15, 3);
        refused_at("p edge 2 2\ne 2 1\ne 1 2\r\n", 22, 3, 6);
    }

    #[test]
    fn room_for_the_rows() {
        let text = b"c x\np edge 3 1\ne 9 9\n";
        for room in 0..3 {
            let mut rows = vec![7; room];
            assert_eq!(read(text, &mut rows), Err(Refusal::Room.at(2)));
            assert_eq!(rows, vec![7; room]);
        }
        assert_eq!(read(text, &mut [7; 3]), Err(Refusal::Vertex.at(3)));
        assert_eq!(read(b"p edge 65 0\n", &mut []), Err(Refusal::Size.at(1)));
        assert_eq!(read(b"p edge 0 0\n", &mut []), Ok(0));
        let mut many = [7; 70];
        assert_eq!(read(b"p edge 2 1\ne 1 2\n", &mut many), Ok(2));
        assert_eq!((&many[..2], &many[2..]), (&[2, 1][..], &[7; 68][..]));
    }

    #[test]
    fn lengths() {
        let mut text = b"p edge 0 0\nc ".to_vec();
        text.resize(BYTES - 1, b'x');
        text.push(b'\n');
        assert_eq!(read_64(&text), Ok(vec![]));
        text.push(b'\n');
        assert_eq!(read_64(&text), Err([18, 0, 0]));
        assert_eq!(read_64(&[0xff; BYTES + 1]), Err([18, 0, 0]));
        assert_eq!(read_64(&[b'\n'; BYTES]), Err([10, 1, 1]));
    }

    #[test]
    fn writing() {
        let mut out = [b'?'; 50];
        let rows = rows_of(5, &[(0, 1), (1, 2), (2, 3), (3, 4), (0, 4)]);
        let text = "p edge 5 5\ne 1 2\ne 1 5\ne 2 3\ne 3 4\ne 4 5\n";
        assert_eq!(write(&rows, &mut out), Ok(text.len()));
        assert_eq!(&out[..text.len()], text.as_bytes());
        assert!(out[text.len()..].iter().all(|&b| b == b'?'));
        let mut small = vec![b'?'; text.len() - 1];
        assert_eq!(write(&rows, &mut small), Err(Refusal::Full.bare()));
        assert!(small.iter().all(|&b| b == b'?'));
        assert_eq!(write(&rows, &mut vec![0; text.len()]), Ok(text.len()));
        assert_eq!(write(&[], &mut [0; 11]), Ok(11));
        assert_eq!(write(&[1], &mut []), Err(Refusal::Itself.at(0)));
        assert_eq!(write(&[0; 65], &mut []), Err(Refusal::Many.bare()));
    }

    #[test]
    fn read_back() {
        let all: Vec<u64> = (0..64).map(|i| !(1u64 << i)).collect();
        for rows in [all, vec![0; 64], rows_of(11, &[(0, 10), (9, 10), (3, 7)])] {
            let mut out = vec![0; BYTES];
            let length = write(&rows, &mut out).unwrap();
            assert_eq!(read_64(&out[..length]), Ok(rows));
        }
    }
}
