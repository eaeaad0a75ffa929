//! Document 02's mending of a hand-edited sheet (Ask 9), straight from its words, over lists of members that count from 1.

use crate::lines::{lines, number, Line};
use crate::list::{self, put, Reading};
use crate::matrix::has;
use crate::sheet::{counted, text_of, Fault, Text};
use crate::{Refusal, Refused, BYTES, ENTRIES};

/// A member as it was typed, with its line.
type Typed = (usize, usize);

/// The groups of a sheet as they were typed, by the shape of its lines alone: 18, then the first of 30 (by line), 35, 37.
fn typed(sheet: &[u8]) -> Result<Vec<Vec<Typed>>, Refused> {
    if sheet.len() > BYTES {
        return Err(Refusal::Long.bare());
    }
    let all = lines(sheet);
    let mut rest = all.iter();
    let mut next = |shape: &dyn Fn(&Line) -> Option<usize>| {
        let line = rest.next().ok_or(Refusal::Ends.at(all.len() + 1))?;
        let value = Some(line).filter(|line| line.ended).and_then(shape);
        value.map(|value| (line.number, value)).ok_or(Refusal::SheetLine.at(line.number))
    };
    let mut groups = Vec::new();
    let (_, many) = next(&|line| counted(line, b"groups"))?;
    for _ in 0..many {
        let (_, size) = next(&|line| counted(line, b"size").filter(|&size| size >= 1))?;
        let mut members = Vec::new();
        for _ in 0..size {
            members.push(next(&|line| number(line.bytes))?);
        }
        groups.push(members);
    }
    match rest.next() {
        Some(line) => Err(Refusal::Extra.at(line.number)),
        None => Ok(groups),
    }
}

/// What mending makes of a sheet.
#[derive(Clone, Debug, PartialEq, Eq)]
pub struct Mended {
    /// The lines of dropped members, rising.
    pub dropped: Vec<usize>,
    /// The entries lifted out or absent, rising.
    pub put: Vec<usize>,
    /// The groups, by smallest member, each rising.
    pub groups: Vec<Vec<usize>>,
}

impl Mended {
    /// A list's entries count from 1 here.
    fn of(rows: &[u64], sheet: &[Vec<Typed>]) -> Mended {
        let n = rows.len();
        let clash = |i: usize, j: usize| has(rows, i - 1, j - 1);
        let (mut dropped, mut seen, mut lifted, mut groups) = (Vec::new(), Vec::new(), Vec::new(), Vec::new());
        // "goes through the members in the sheet's order"
        for typed in sheet {
            let mut kept = Vec::new();
            for &(line, member) in typed {
                // "drops one that is no entry or was seen before"
                if !(1..=n).contains(&member) || seen.contains(&member) {
                    dropped.push(line);
                    continue;
                }
                seen.push(member);
                // "and lifts out one that clashes with a member kept before it in its group"
                if kept.iter().any(|&other| clash(member, other)) {
                    lifted.push(member);
                } else {
                    kept.push(member);
                }
            }
            // "Groups emptied by drops vanish before that"
            if !kept.is_empty() {
                groups.push(kept);
            }
        }
        // "Lifted entries and absent ones, by rising number, go to the first group that admits them, else to a new group at the end."
        let put: Vec<usize> = (1..=n).filter(|entry| lifted.contains(entry) || !seen.contains(entry)).collect();
        for &entry in &put {
            match groups.iter_mut().find(|group| group.iter().all(|&other| !clash(entry, other))) {
                Some(group) => group.push(entry),
                None => groups.push(vec![entry]),
            }
        }
        // "the order is put right at the end"
        groups.iter_mut().for_each(|group| group.sort_unstable());
        groups.sort();
        Mended { dropped, put, groups }
    }

    /// "It prints "dropped L" for each dropped line by its number, then "put E group G" for each lifted or added entry by rising number, G counted from 1 in
    /// the mended sheet, which follows in the same output."
    pub fn text(&self) -> String {
        let group_of = |entry: usize| self.groups.iter().position(|group| group.contains(&entry)).expect("every entry stands in a group");
        let mut colours = vec![0; self.groups.iter().map(Vec::len).sum()];
        for (number, group) in self.groups.iter().enumerate() {
            group.iter().for_each(|entry| colours[entry - 1] = number as u8);
        }
        let mut text = String::new();
        self.dropped.iter().for_each(|line| text += &format!("dropped {line}\n"));
        self.put.iter().for_each(|&entry| text += &format!("put {entry} group {}\n", group_of(entry) + 1));
        text + &text_of(&colours, self.groups.len())
    }
}

/// What mending makes of a sheet, by either reading of the list: the list's own refusals, then the sheet's 18, 30, 35, 37.
pub fn mended_by(read: Reading, list: &[u8], sheet: &[u8]) -> Result<Mended, Fault> {
    let mut rows = [0; ENTRIES];
    let n = read(list, &mut rows).map_err(|refused| Fault { text: Text::List, refused })?;
    let groups = typed(sheet).map_err(|refused| Fault { text: Text::Sheet, refused })?;
    Ok(Mended::of(&rows[..n], &groups))
}

/// Writes report and mended sheet and returns the length of both, or writes nothing: the refusals above, then 19, which is told with the sheet.
pub fn mend(list: &[u8], sheet: &[u8], out: &mut [u8]) -> Result<usize, Fault> {
    mend_by(list::read, list, sheet, out)
}

/// The same by either reading of the list.
pub fn mend_by(read: Reading, list: &[u8], sheet: &[u8], out: &mut [u8]) -> Result<usize, Fault> {
    let mended = mended_by(read, list, sheet)?;
    put(&mended.text(), out).map_err(|refused| Fault { text: Text::Sheet, refused })
}

#[cfg(test)]
mod tests {
    use super::*;
    use crate::sheet::check;

    /// Entries 1 and 2 clash, 2 and 3, 3 and 4, 4 and 5, 5 and 1.
    const FIVE: &str = "p edge 5 5\ne 1 2\ne 2 3\ne 3 4\ne 4 5\ne 1 5\n";

    fn mended(list: &str, sheet: &str) -> String {
        let mut out = [0; 1024];
        let length = mend(list.as_bytes(), sheet.as_bytes(), &mut out).expect("a sheet that can be mended");
        String::from_utf8(out[..length].to_vec()).expect("letters")
    }

    fn refused(sheet: &str, number: u64, line: u64) {
        let mut out = [9; 64];
        let fault = mend(FIVE.as_bytes(), sheet.as_bytes(), &mut out).expect_err(sheet);
        assert_eq!((fault.text, fault.refused.why.number(), fault.refused.place), (Text::Sheet, number, line), "{sheet:?}");
        assert_eq!(out, [9; 64]);
    }

    const SHEET: &str = "groups 3\nsize 2\n1\n3\nsize 2\n2\n4\nsize 1\n5\n";

    #[test]
    fn a_passing_sheet_comes_back() {
        assert_eq!(mended(FIVE, SHEET), SHEET);
        assert_eq!(mended("p edge 0 0\n", "groups 0\n"), "groups 0\n");
    }

    #[test]
    fn volunteers_slips() {
        // A name twice; the first stands.
        assert_eq!(mended(FIVE, "groups 3\nsize 2\n1\n3\nsize 3\n2\n3\n4\nsize 1\n5\n"), format!("dropped 7\n{SHEET}"));
        // Lines swapped, within a group and between groups: no line of a report.
        assert_eq!(mended(FIVE, "groups 3\nsize 2\n4\n2\nsize 1\n5\nsize 2\n3\n1\n"), SHEET);
        // A name missing.
        assert_eq!(mended(FIVE, "groups 2\nsize 2\n1\n3\nsize 2\n2\n4\n"), format!("put 5 group 3\n{SHEET}"));
        assert_eq!(mended(FIVE, "groups 3\nsize 2\n1\n3\nsize 1\n2\nsize 1\n5\n"), format!("put 4 group 2\n{SHEET}"));
        // A clash typed in: 2 goes out of 1's group, and to the first that admits it, which is that of 4.
        assert_eq!(mended(FIVE, "groups 3\nsize 3\n1\n2\n3\nsize 1\n4\nsize 1\n5\n"), format!("put 2 group 2\n{SHEET}"));
        // No entries.
        assert_eq!(mended(FIVE, "groups 3\nsize 4\n0\n1\n3\n6\nsize 2\n2\n4\nsize 1\n5\n"), format!("dropped 3\ndropped 6\n{SHEET}"));
    }

    #[test]
    fn seen_before_as_kept_or_lifted() {
        // 2 is lifted at line 4, and dropped where it stands again, though it would be admitted there.
        assert_eq!(mended(FIVE, "groups 3\nsize 3\n1\n2\n3\nsize 2\n4\n2\nsize 1\n5\n"), format!("dropped 8\nput 2 group 2\n{SHEET}"));
        // A clash with one that was lifted is none: 3 stays, as 2 is not kept.
        let report = "put 2 group 2\nput 4 group 2\nput 5 group 3\n";
        assert_eq!(mended(FIVE, "groups 1\nsize 3\n1\n2\n3\n"), format!("{report}{SHEET}"));
    }

    #[test]
    fn emptied_groups_and_new_ones() {
        // The second group is emptied by a drop. 1 clashes with 5 and opens a group behind 5's; 2 goes to 5, the first that admits it, 3 to 1, and 4 to none.
        let sheet = "groups 3\nsize 2\n1\n3\nsize 2\n2\n5\nsize 1\n4\n";
        let report = "dropped 5\nput 1 group 1\nput 2 group 2\nput 3 group 1\nput 4 group 3\n";
        assert_eq!(mended(FIVE, "groups 2\nsize 1\n5\nsize 1\n5\n"), format!("{report}{sheet}"));
        assert_eq!(
            mended(FIVE, "groups 0\n"),
            format!("put 1 group 1\nput 2 group 2\nput 3 group 1\nput 4 group 2\nput 5 group 3\n{SHEET}")
        );
    }

    #[test]
    fn refusals_in_their_order() {
        refused("", 35, 1);
        refused("groups 1\n", 35, 2);
        refused("groups 2\nsize 2\n9\n9\n", 35, 5);
        refused("groups 9999999\nsize 9999999\n1\n", 35, 4);
        refused("group 1\n", 30, 1);
        refused("groups 1\nsize 0\n", 30, 2);
        refused("groups 1\nsize 1\n1", 30, 3);
        refused("groups 1\nsize 1\n01\n", 30, 3);
        refused("groups 1\nsize 2\n1\nx\ny\n", 30, 4);
        refused("groups 0\n1\n", 37, 2);
        refused("groups 1\nsize 1\n1\nx", 37, 4);
        refused(&"x".repeat(65_537), 18, 0);
        refused(&"x".repeat(65_536), 30, 1);
        let fault = |list: &str, sheet: &str, out: &mut [u8]| mend(list.as_bytes(), sheet.as_bytes(), out).expect_err("refused");
        assert_eq!(fault("p edge 2 1\ne 1\n", "x", &mut []), Fault { text: Text::List, refused: Refusal::Space.spot(2, 4) });
        assert_eq!(fault(FIVE, "x", &mut []), Fault { text: Text::Sheet, refused: Refusal::SheetLine.at(1) });
        assert_eq!(fault(FIVE, SHEET, &mut [9; 39]), Fault { text: Text::Sheet, refused: Refusal::Full.bare() });
        assert_eq!(mend(FIVE.as_bytes(), SHEET.as_bytes(), &mut [9; 40]), Ok(40));
        let twice = "p edge 2 2\ne 1 2\ne 2 1\n";
        assert_eq!(fault(twice, "groups 0\n", &mut [9; 99]), Fault { text: Text::List, refused: Refusal::Repeat.at(3) });
        assert!(mend_by(list::read_repeats, twice.as_bytes(), b"groups 0\n", &mut [9; 99]).is_ok());
    }

    /// The longest output that there is: as many lines as a sheet can have, all dropped, and 64 entries, each put into a group of its own.
    #[test]
    fn the_longest_output() {
        let rows: Vec<u64> = (0..64).map(|i| !(1u64 << i)).collect();
        let list = list::text_of(&rows);
        let sheet = format!("groups 1\nsize 32758\n{}", "0\n".repeat(32_758));
        assert_eq!(sheet.len(), BYTES);
        let mut out = vec![9; 500_000];
        assert_eq!(mend(list.as_bytes(), sheet.as_bytes(), &mut out), Ok(449_161));
        assert!(out.starts_with(b"dropped 3\ndropped 4\n") && out[..449_161].ends_with(b"size 1\n64\n"));
    }

    #[test]
    fn mended_passes_and_stays() {
        for sheet in [SHEET, "groups 0\n", "groups 1\nsize 5\n1\n2\n3\n4\n5\n", "groups 3\nsize 1\n7\nsize 2\n3\n3\nsize 2\n2\n1\n"] {
            let text = mended(FIVE, sheet);
            let again = &text[text.find("groups").expect("a sheet")..];
            assert!(check(FIVE.as_bytes(), again.as_bytes(), &mut [0; 5]).is_ok(), "{text}");
            assert_eq!(mended(FIVE, again), again);
        }
    }
}
