//! A clash text read in one pass, as one would write it for speed: no list of lines, numbers taken as their digits come. Where a line goes bad is
//! looked for only in a line that does, once more from its start.

use second::{Refusal, Refused};

/// A text and how far it is read.
struct Cursor<'a> {
    text: &'a [u8],
    at: usize,
}

impl Cursor<'_> {
    fn takes(&mut self, word: &[u8]) -> bool {
        let stands = self.text[self.at..].starts_with(word);
        if stands {
            self.at += word.len();
        }
        stands
    }

    /// A number and the byte that must follow it.
    fn number(&mut self, after: u8) -> Option<usize> {
        let start = self.at;
        let mut value = 0;
        while let Some(digit) = self.text.get(self.at).map(|b| b.wrapping_sub(b'0')).filter(|&digit| digit < 10) {
            value = value * 10 + usize::from(digit);
            self.at += 1;
            if self.at - start > 7 {
                return None;
            }
        }
        let digits = self.at - start;
        let shaped = digits > 0 && (digits == 1 || self.text[start] != b'0') && self.text.get(self.at) == Some(&after);
        self.at += 1;
        shaped.then_some(value)
    }

    /// Two numbers up to the line's end.
    fn numbers(&mut self) -> Option<(usize, usize)> {
        Some((self.number(b' ')?, self.number(b'\n')?))
    }

    /// Past this line's line feed; none where it has none.
    fn skip(&mut self) -> Option<()> {
        self.at += self.text[self.at..].iter().position(|&b| b == b'\n')? + 1;
        Some(())
    }
}

/// A line that is of no permitted shape, or whose line feed is missing, gone through up to where it goes bad. An error has the kind of what stands at
/// the cursor, or of the stop there.
impl Cursor<'_> {
    fn stands(&self) -> Option<u8> {
        self.text.get(self.at).copied()
    }

    fn letters(&mut self, word: &[u8]) -> Result<(), Refusal> {
        for &letter in word {
            self.byte(letter, Refusal::Line)?;
        }
        Ok(())
    }

    fn byte(&mut self, byte: u8, otherwise: Refusal) -> Result<(), Refusal> {
        if self.stands() != Some(byte) {
            return Err(otherwise);
        }
        self.at += 1;
        Ok(())
    }

    fn digits(&mut self) -> Result<(), Refusal> {
        let digit = |byte: Option<u8>| byte.is_some_and(|b| b.is_ascii_digit());
        if !digit(self.stands()) {
            return Err(Refusal::Digit);
        }
        let most = if self.stands() == Some(b'0') { 1 } else { 7 };
        let start = self.at;
        while self.at - start < most && digit(self.stands()) {
            self.at += 1;
        }
        if digit(self.stands()) {
            return Err(Refusal::Digit);
        }
        Ok(())
    }

    /// A space and a number, twice, and no more.
    fn two(&mut self) -> Result<(), Refusal> {
        for _ in 0..2 {
            self.byte(b' ', Refusal::Space)?;
            self.digits()?;
        }
        if self.at < self.text.len() {
            return Err(Refusal::Space);
        }
        Ok(())
    }

    fn whole(&mut self) -> Result<(), Refusal> {
        let first = self.stands();
        if !matches!(first, Some(b'c' | b'e' | b'p')) {
            return Err(Refusal::Line);
        }
        self.at += 1;
        if first == Some(b'e') {
            return self.two();
        }
        if first == Some(b'p') {
            self.byte(b' ', Refusal::Space)?;
            self.letters(b"edge")?;
            return self.two();
        }
        self.at = self.text.len();
        Ok(())
    }
}

/// The line that starts here, as a refusal of this number.
fn bad(text: &[u8], line: usize) -> Refused {
    let end = text.iter().position(|&b| b == b'\n').unwrap_or(text.len());
    let mut cursor = Cursor { text: &text[..end], at: 0 };
    let kind = cursor.whole().err().unwrap_or(Refusal::Unended);
    kind.spot(line, cursor.at + 1)
}

/// What is read so far: the p line's numbers once it stood, and the edges.
struct Reading {
    stated: Option<(usize, usize)>,
    edges: usize,
    rows: [u64; 64],
    repeats: bool,
}

impl Reading {
    fn problem(&mut self, n: usize, m: usize, room: usize) -> Result<(), Refusal> {
        if self.stated.is_some() {
            return Err(Refusal::Second);
        }
        if n > 64 {
            return Err(Refusal::Size);
        }
        if n > room {
            return Err(Refusal::Room);
        }
        self.stated = Some((n, m));
        Ok(())
    }

    fn edge(&mut self, u: usize, v: usize) -> Result<(), Refusal> {
        let (n, _) = self.stated.ok_or(Refusal::Headless)?;
        if u < 1 || u > n || v < 1 || v > n {
            return Err(Refusal::Vertex);
        }
        if u == v {
            return Err(Refusal::Loop);
        }
        if !self.repeats && self.rows[u - 1] >> (v - 1) & 1 == 1 {
            return Err(Refusal::Repeat);
        }
        self.rows[u - 1] |= 1 << (v - 1);
        self.rows[v - 1] |= 1 << (u - 1);
        self.edges += 1;
        Ok(())
    }

    fn line(&mut self, cursor: &mut Cursor, room: usize) -> Result<(), Refusal> {
        if cursor.takes(b"e ") {
            let (u, v) = cursor.numbers().ok_or(Refusal::Line)?;
            self.edge(u, v)
        } else if cursor.takes(b"c") {
            cursor.skip().ok_or(Refusal::Line)
        } else if cursor.takes(b"p edge ") {
            let (n, m) = cursor.numbers().ok_or(Refusal::Line)?;
            self.problem(n, m, room)
        } else {
            Err(Refusal::Line)
        }
    }
}

/// Reads a clash text: writes the first n lent rows and returns n, or writes nothing. An edge that stands a second time is refused.
pub fn read(text: &[u8], rows: &mut [u64]) -> Result<usize, Refused> {
    read_so(text, rows, false)
}

/// The same, and an edge may stand a second time.
pub fn read_repeats(text: &[u8], rows: &mut [u64]) -> Result<usize, Refused> {
    read_so(text, rows, true)
}

fn read_so(text: &[u8], rows: &mut [u64], repeats: bool) -> Result<usize, Refused> {
    if text.len() > second::BYTES {
        return Err(Refusal::Long.bare());
    }
    let mut cursor = Cursor { text, at: 0 };
    let mut reading = Reading { stated: None, edges: 0, rows: [0; 64], repeats };
    let mut line = 1;
    while cursor.at < text.len() {
        let start = cursor.at;
        reading.line(&mut cursor, rows.len()).map_err(|why| match why {
            Refusal::Line => bad(&text[start..], line),
            _ => why.at(line),
        })?;
        line += 1;
    }
    let (n, m) = reading.stated.ok_or(Refusal::Headless.at(line))?;
    if reading.edges != m {
        return Err(Refusal::Count.at(line));
    }
    rows[..n].copy_from_slice(&reading.rows[..n]);
    Ok(n)
}
