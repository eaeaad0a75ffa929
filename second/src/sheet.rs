//! Sitting sheets: written from colours, checked against a list, and the part that the preview shows.

use crate::lines::{lines, number, words, Line};
use crate::list::{self, put, Reading};
use crate::{matrix, Refusal, Refused, BYTES, ENTRIES};

/// The sheet of colours numbered by first use, `k` groups.
pub(crate) fn text_of(colours: &[u8], k: usize) -> String {
    let mut text = format!("groups {k}\n");
    for group in 0..k {
        let members: Vec<usize> = (0..colours.len()).filter(|&i| usize::from(colours[i]) == group).collect();
        text += &format!("size {}\n", members.len());
        for member in members {
            text += &format!("{}\n", member + 1);
        }
    }
    text
}

/// Writes a sheet and returns its length, or writes nothing: 1, 38, 19.
pub fn write(colours: &[u8], out: &mut [u8]) -> Result<usize, Refused> {
    if colours.len() > ENTRIES {
        return Err(Refusal::Many.bare());
    }
    let k = matrix::groups(colours).map_err(|index| Refusal::Colours.at(index))?;
    put(&text_of(colours, k), out)
}

/// One of the two texts of a check.
#[derive(Clone, Copy, Debug, PartialEq, Eq)]
pub enum Text {
    List,
    Sheet,
}

/// A refused check, and which of the two texts is at fault.
#[derive(Clone, Copy, Debug, PartialEq, Eq)]
pub struct Fault {
    pub text: Text,
    pub refused: Refused,
}

/// Which line must come next.
enum Place {
    Groups,
    Size,
    Member,
    Past,
}

/// The lines of a sheet taken so far.
struct State<'a> {
    rows: &'a [u64],
    place: Place,
    /// Groups, and members of the group begun, that are still to come.
    groups_left: usize,
    members_left: usize,
    groups: Vec<Vec<usize>>,
}

impl State<'_> {
    /// One line, by 30 to 34; 37 past the last group.
    fn take(&mut self, line: &Line) -> Result<(), Refusal> {
        if !line.ended && !matches!(self.place, Place::Past) {
            return Err(Refusal::SheetLine);
        }
        match self.place {
            Place::Groups => {
                self.groups_left = counted(line, b"groups").ok_or(Refusal::SheetLine)?;
            }
            Place::Size => {
                self.members_left = counted(line, b"size").filter(|&size| size >= 1).ok_or(Refusal::SheetLine)?;
                self.groups_left -= 1;
                self.groups.push(Vec::new());
            }
            Place::Member => {
                let member = number(line.bytes).ok_or(Refusal::SheetLine)?;
                self.admit(member)?;
                self.members_left -= 1;
            }
            Place::Past => return Err(Refusal::Extra),
        }
        self.place = match (self.members_left, self.groups_left) {
            (0, 0) => Place::Past,
            (0, _) => Place::Size,
            _ => Place::Member,
        };
        Ok(())
    }

    /// A member, counted from 1, into the group begun: 31 to 34.
    fn admit(&mut self, member: usize) -> Result<(), Refusal> {
        if member < 1 || member > self.rows.len() {
            return Err(Refusal::Member);
        }
        let entry = member - 1;
        let (group, earlier) = self.groups.split_last_mut().expect("a member stands in a group");
        let above = match (group.last(), earlier.last()) {
            (Some(&before), _) => entry > before,
            (None, Some(previous)) => entry > previous[0],
            (None, None) => true,
        };
        if !above {
            return Err(Refusal::Order);
        }
        if earlier.iter().flatten().any(|&other| other == entry) {
            return Err(Refusal::Twice);
        }
        if group.iter().any(|&other| matrix::has(self.rows, entry, other)) {
            return Err(Refusal::Clash);
        }
        group.push(entry);
        Ok(())
    }
}

/// The count of a line "WORD COUNT".
pub(crate) fn counted(line: &Line, word: &[u8]) -> Option<usize> {
    match words(line.bytes)[..] {
        [first, count] if first == word => number(count),
        _ => None,
    }
}

/// The groups of a sheet of this list: 18, the first faulty line by 30 to 34 or 37, then 35, 36.
fn judge_sheet(rows: &[u64], sheet: &[u8]) -> Result<Vec<Vec<usize>>, Refused> {
    if sheet.len() > BYTES {
        return Err(Refusal::Long.bare());
    }
    let all = lines(sheet);
    let mut state = State { rows, place: Place::Groups, groups_left: 0, members_left: 0, groups: Vec::new() };
    for line in &all {
        state.take(line).map_err(|why| why.at(line.number))?;
    }
    let past = all.len() + 1;
    if !matches!(state.place, Place::Past) {
        return Err(Refusal::Ends.at(past));
    }
    if state.groups.iter().flatten().count() < rows.len() {
        return Err(Refusal::Missing.at(past));
    }
    Ok(state.groups)
}

/// Both texts: the list's own refusals, then 5, then the sheet's. Accepted: the groups, and n.
fn judge(read: Reading, list: &[u8], sheet: &[u8], room: usize) -> Result<(Vec<Vec<usize>>, usize), Fault> {
    let mut rows = [0; ENTRIES];
    let n = read(list, &mut rows).map_err(|refused| Fault { text: Text::List, refused })?;
    let fault = |refused| Fault { text: Text::Sheet, refused };
    if room < n {
        return Err(fault(Refusal::Short.bare()));
    }
    Ok((judge_sheet(&rows[..n], sheet).map_err(fault)?, n))
}

/// Checks a sheet against a list: returns k and writes each entry's group number to the lent colours, or writes nothing.
pub fn check(list: &[u8], sheet: &[u8], colours: &mut [u8]) -> Result<usize, Fault> {
    check_by(list::read, list, sheet, colours)
}

/// The same by either reading of the list.
pub fn check_by(read: Reading, list: &[u8], sheet: &[u8], colours: &mut [u8]) -> Result<usize, Fault> {
    let (groups, _) = judge(read, list, sheet, colours.len())?;
    for (number, group) in groups.iter().enumerate() {
        for &entry in group {
            colours[entry] = number as u8;
        }
    }
    Ok(groups.len())
}

/// A part of one of the two texts.
#[derive(Clone, Copy, Debug, PartialEq, Eq)]
pub struct Part {
    pub text: Text,
    pub offset: usize,
    pub length: usize,
}

/// The preview's part: the line at fault without its line feed, or the empty part that document 01 names.
pub fn preview(list: &[u8], sheet: &[u8], room: usize) -> Part {
    preview_by(list::read, list, sheet, room)
}

/// The same by either reading of the list.
pub fn preview_by(read: Reading, list: &[u8], sheet: &[u8], room: usize) -> Part {
    let Err(Fault { text, refused }) = judge(read, list, sheet, room) else {
        return Part { text: Text::Sheet, offset: 0, length: 0 };
    };
    let bytes = match text {
        Text::List => list,
        Text::Sheet => sheet,
    };
    if matches!(refused.why, Refusal::Long | Refusal::Short) {
        return Part { text, offset: 0, length: 0 };
    }
    match lines(bytes).iter().find(|line| line.number as u64 == refused.place) {
        Some(line) => Part { text, offset: line.start, length: line.bytes.len() },
        None => Part { text, offset: bytes.len(), length: 0 },
    }
}

#[cfg(test)]
mod tests {
    use super::*;

    const FIVE_CYCLE: &str = "p edge 5 5\ne 1 2\ne 2 3\ne 3 4\ne 4 5\ne 1 5\n";
    const FIVE_SHEET: &str = "groups 3\nsize 2\n1\n3\nsize 2\n2\n4\nsize 1\n5\n";

    /// Checks with 64 lent bytes of a pattern that must stay where a check writes nothing.
    fn check_64(list: &str, sheet: &str) -> Result<(usize, Vec<u8>), (Text, u64, u64)> {
        let mut colours = [0xA5; 64];
        match check(list.as_bytes(), sheet.as_bytes(), &mut colours) {
            Ok(k) => {
                let n = colours.iter().position(|&b| b == 0xA5).unwrap_or(64);
                assert!(colours[n..].iter().all(|&b| b == 0xA5));
                Ok((k, colours[..n].to_vec()))
            }
            Err(fault) => {
                assert_eq!(colours, [0xA5; 64], "nothing lent is written");
                Err((fault.text, fault.refused.why.number(), fault.refused.place))
            }
        }
    }

    /// A sheet of the list of four entries with the clashes 1-2 and 3-4.
    fn refused(sheet: &str, number: u64, line: u64) {
        let list = "p edge 4 2\ne 1 2\ne 3 4\n";
        assert_eq!(check_64(list, sheet), Err((Text::Sheet, number, line)), "{sheet:?}");
        let part = preview(list.as_bytes(), sheet.as_bytes(), 64);
        let text: Vec<&str> = sheet.split('\n').collect();
        let shown = &sheet[part.offset..part.offset + part.length];
        if line as usize > text.len() - usize::from(sheet.is_empty() || sheet.ends_with('\n')) {
            assert_eq!((part.offset, shown), (sheet.len(), ""), "{sheet:?}");
        } else {
            assert_eq!(shown, text[line as usize - 1], "{sheet:?}");
        }
    }

    #[test]
    fn the_papers_sheet() {
        let mut out = [b'?'; 50];
        assert_eq!(write(&[0, 1, 0, 1, 2], &mut out), Ok(FIVE_SHEET.len()));
        assert_eq!(&out[..FIVE_SHEET.len()], FIVE_SHEET.as_bytes());
        assert!(out[FIVE_SHEET.len()..].iter().all(|&b| b == b'?'));
        assert_eq!(check_64(FIVE_CYCLE, FIVE_SHEET), Ok((3, vec![0, 1, 0, 1, 2])));
    }

    #[test]
    fn writing_refused() {
        let mut small = vec![b'?'; FIVE_SHEET.len() - 1];
        assert_eq!(write(&[0, 1, 0, 1, 2], &mut small), Err(Refusal::Full.bare()));
        assert!(small.iter().all(|&b| b == b'?'));
        assert_eq!(write(&[0; 65], &mut small), Err(Refusal::Many.bare()));
        assert_eq!(write(&[1; 65], &mut small), Err(Refusal::Many.bare()));
        assert_eq!(write(&[0, 2, 1], &mut []), Err(Refusal::Colours.at(1)));
        assert_eq!(write(&[1], &mut small), Err(Refusal::Colours.at(0)));
        assert_eq!(write(&[], &mut small), Ok("groups 0\n".len()));
        assert_eq!(write(&[], &mut [0; 8]), Err(Refusal::Full.bare()));
    }

    #[test]
    fn no_entries() {
        let none = "p edge 0 0\n";
        assert_eq!(check_64(none, "groups 0\n"), Ok((0, vec![])));
        assert_eq!(check_64(none, ""), Err((Text::Sheet, 35, 1)));
        assert_eq!(check_64(none, "groups 1\n"), Err((Text::Sheet, 35, 2)));
        assert_eq!(check_64(none, "groups 1\nsize 1\n1\n"), Err((Text::Sheet, 31, 3)));
        assert_eq!(check_64(none, "groups 0\n\n"), Err((Text::Sheet, 37, 2)));
    }

    #[test]
    fn shapes_by_place() {
        for line in [
            "",
            "groups",
            "groups ",
            "groups  2",
            "groups 02",
            "groups 2 ",
            "groups 12345678",
            "size 2",
            "1",
            "c x",
            "Groups 2",
            " groups 2",
        ] {
            refused(&format!("{line}\n"), 30, 1);
            refused(line, if line.is_empty() { 35 } else { 30 }, 1);
        }
        for line in ["", "size", "size 0", "size 00", "size 01", "size -1", "size 1 ", "size  1", "1", "groups 2", "c x", "size 10000000"] {
            refused(&format!("groups 2\n{line}\n"), 30, 2);
        }
        for line in ["", "01", "1 ", " 1", "1 2", "a", "size 1", "groups 1", "c x", "-1", "10000000", "1\r"] {
            refused(&format!("groups 2\nsize 2\n{line}\n"), 30, 3);
        }
        refused("groups 2", 30, 1);
        refused("groups 2\nsize 2", 30, 2);
        refused("groups 2\nsize 2\n1", 30, 3);
        refused("groups 2\nsize 2\n9", 30, 3);
        refused("groups 2\nsize 2\n1\n1", 30, 4);
        refused("groups 2\nsize 2\n1\n3\nsize 2\n2\n4", 30, 7);
    }

    #[test]
    fn members() {
        refused("groups 2\nsize 2\n0\n", 31, 3);
        refused("groups 2\nsize 2\n5\n", 31, 3);
        refused("groups 2\nsize 2\n9999999\n", 31, 3);
        refused("groups 2\nsize 2\n1\n1\n", 32, 4);
        refused("groups 2\nsize 2\n3\n1\n", 32, 4);
        refused("groups 2\nsize 1\n2\nsize 1\n1\n", 32, 5);
        refused("groups 2\nsize 1\n2\nsize 1\n2\n", 32, 5);
        refused("groups 2\nsize 2\n1\n3\nsize 1\n3\n", 33, 6);
        refused("groups 2\nsize 2\n1\n3\nsize 2\n2\n3\n", 33, 7);
        refused("groups 2\nsize 2\n1\n2\n", 34, 4);
        refused("groups 3\nsize 1\n1\nsize 1\n2\nsize 2\n3\n4\n", 34, 8);
        // 32 comes before 33 and 34, 33 before 34.
        refused("groups 3\nsize 2\n1\n4\nsize 2\n3\n1\n", 32, 7);
        refused("groups 2\nsize 2\n1\n4\nsize 2\n3\n4\n", 33, 7);
    }

    #[test]
    fn ends() {
        refused("", 35, 1);
        refused("groups 1\n", 35, 2);
        refused("groups 9999999\n", 35, 2);
        refused("groups 1\nsize 4\n", 35, 3);
        refused("groups 1\nsize 9999999\n1\n3\n", 35, 5);
        refused("groups 2\nsize 2\n1\n3\n", 35, 5);
        refused("groups 3\nsize 2\n1\n3\nsize 2\n2\n4\n", 35, 8);
        refused("groups 0\n", 36, 2);
        refused("groups 1\nsize 2\n1\n3\n", 36, 5);
        refused("groups 0\nx", 37, 2);
        refused("groups 1\nsize 2\n1\n3\n\n", 37, 5);
        refused("groups 1\nsize 2\n1\n3\n4\n\n\n", 37, 5);
        refused("groups 2\nsize 2\n1\n3\nsize 2\n2\n4\nsize", 37, 8);
        refused("groups 2\nsize 2\n1\n3\nsize 2\n2\n4\n\n", 37, 8);
    }

    #[test]
    fn list_first_then_short() {
        let fault = |text, refused| Err(Fault { text, refused });
        let colours = &mut [9; 4];
        assert_eq!(check(b"p edge 65 0\n", b"x", colours), fault(Text::List, Refusal::Size.at(1)));
        assert_eq!(check(b"", b"", colours), fault(Text::List, Refusal::Headless.at(1)));
        assert_eq!(check(&[b'c'; 65_537], b"x", colours), fault(Text::List, Refusal::Long.bare()));
        assert_eq!(check(FIVE_CYCLE.as_bytes(), b"x", colours), fault(Text::Sheet, Refusal::Short.bare()));
        assert_eq!(check(FIVE_CYCLE.as_bytes(), &[b'x'; 65_537], colours), fault(Text::Sheet, Refusal::Short.bare()));
        assert_eq!(colours, &[9; 4]);
        assert_eq!(check(FIVE_CYCLE.as_bytes(), &[b'x'; 65_537], &mut [9; 5]), fault(Text::Sheet, Refusal::Long.bare()));
        assert_eq!(check(FIVE_CYCLE.as_bytes(), &[b'x'; 65_536], &mut [9; 5]), fault(Text::Sheet, Refusal::SheetLine.at(1)));
        let long = &mut [9; 70];
        assert_eq!(check(FIVE_CYCLE.as_bytes(), FIVE_SHEET.as_bytes(), long), Ok(3));
        assert_eq!(long[..6], [0, 1, 0, 1, 2, 9]);
    }

    #[test]
    fn by_either_reading() {
        let list = b"p edge 2 2\ne 1 2\ne 2 1\n";
        let sheet = b"groups 2\nsize 1\n1\nsize 1\n2\n";
        assert_eq!(check(list, sheet, &mut [9; 2]), Err(Fault { text: Text::List, refused: Refusal::Repeat.at(3) }));
        assert_eq!(preview(list, sheet, 2), Part { text: Text::List, offset: 17, length: 5 });
        assert_eq!(check_by(list::read_repeats, list, sheet, &mut [9; 2]), Ok(2));
        assert_eq!(preview_by(list::read_repeats, list, sheet, 2), Part { text: Text::Sheet, offset: 0, length: 0 });
    }

    #[test]
    fn previews() {
        let part = |text, offset, length| Part { text, offset, length };
        let shown = |list: &str, sheet: &str, room| preview(list.as_bytes(), sheet.as_bytes(), room);
        assert_eq!(shown(FIVE_CYCLE, FIVE_SHEET, 5), part(Text::Sheet, 0, 0));
        assert_eq!(shown(FIVE_CYCLE, FIVE_SHEET, 4), part(Text::Sheet, 0, 0));
        assert_eq!(shown("", "", 0), part(Text::List, 0, 0));
        assert_eq!(shown("c x\n", "", 0), part(Text::List, 4, 0));
        assert_eq!(shown("c x\ne 1 2\n", "", 0), part(Text::List, 4, 5));
        assert_eq!(shown("c x\ne 1", "", 0), part(Text::List, 4, 3));
        assert_eq!(shown("\n", "", 0), part(Text::List, 0, 0));
        assert_eq!(shown("p edge 1 1\n", "", 0), part(Text::List, 11, 0));
        assert_eq!(shown("p edge 1 0\n", "", 1), part(Text::Sheet, 0, 0));
        assert_eq!(shown("p edge 1 0\n", "groups 1\n", 1), part(Text::Sheet, 9, 0));
        assert_eq!(shown("p edge 1 0\n", "groups 1\nsize 1\n2\n", 1), part(Text::Sheet, 16, 1));
        assert_eq!(shown("p edge 1 0\n", "groups 1\nsize 1\n1\nno", 1), part(Text::Sheet, 18, 2));
        assert_eq!(preview(&[b'x'; 65_537], b"x", 0), part(Text::List, 0, 0));
        assert_eq!(preview(b"p edge 0 0\n", &[b'x'; 65_537], 0), part(Text::Sheet, 0, 0));
        assert_eq!(preview(b"p edge 0 0\n", &[b'x'; 65_536], 0), part(Text::Sheet, 0, 65_536));
    }
}
