//! Fewest sittings from a clash list: the proved library's calls over slices.
//!
//! A list of n entries (0 to 64) is n rows; bit j of row i says that entries i and j clash. Groups are numbered from 0 by smallest member. A
//! refused call writes nothing; an accepted one writes what its own words say, and nothing beside it.
//!
//! A clash text names each edge once: the plain calls refuse one that stands a second time, either way round, as 20. Those whose names end in
//! `_repeats` allow it, for lists whose exporter names each clash both ways; they are the same in everything else.
//!
//! ```
//! let text = b"p edge 3 2\ne 1 2\ne 2 3\n";
//! let mut rows = [0; slotsheet::ENTRIES];
//! let n = slotsheet::read_list(text, &mut rows).unwrap();
//! let mut colours = [0; slotsheet::ENTRIES];
//! let walked = slotsheet::fewest(&rows[..n], &mut colours, 1_000_000).unwrap();
//! assert_eq!((walked.k, walked.nodes), (2, 3));
//! assert_eq!(walked.clique, 0b011); // entries 1 and 2 clash: one sitting won't do
//! let mut out = [0; slotsheet::SHEET_BYTES];
//! let length = slotsheet::write_sheet(&colours[..n], &mut out).unwrap();
//! assert_eq!(&out[..length], b"groups 2\nsize 2\n1\n3\nsize 1\n2\n");
//! ```

use std::fmt;

/// The C interface itself.
pub mod raw;
mod refusal;
mod table;

pub use refusal::Beside;
pub use table::{Refusal, BYTES, ENTRIES, LIST_BYTES, MEND_BYTES, NODES, SHEET_BYTES, STACK_BYTES, VERSION};

/// A refusal with what is "also returned" beside it: row, line, index or nodes; 0 where there is nothing.
#[derive(Clone, Copy, Debug, PartialEq, Eq)]
pub struct Refused {
    pub why: Refusal,
    pub place: u64,
    /// Of a line of a list that is of no permitted shape (10, 21, 22, 23), in bytes from 1: where it can no longer begin any permitted line, one past
    /// its end where it merely stops. 0 of every other refusal.
    pub column: usize,
}

/// An accepted walk.
#[derive(Clone, Copy, Debug, PartialEq, Eq)]
pub struct Walked {
    pub k: usize,
    pub nodes: u64,
    /// The plain walk's number of complete graphs; else 0.
    pub leaves: u64,
    /// The members of the list's clique, as [`clique_bound`] has them: they say why it can't be fewer than their number, which may be below k.
    pub clique: u64,
}

/// Entries that all clash with one another, so that no two of them can be in one group.
#[derive(Clone, Copy, Debug, PartialEq, Eq)]
pub struct Clique {
    /// How many there are: no division has fewer groups.
    pub size: usize,
    /// As a set: bit i says that entry i is one.
    pub members: u64,
}

/// One of the two texts of a check or of mending.
#[derive(Clone, Copy, Debug, PartialEq, Eq)]
pub enum Text {
    List,
    Sheet,
}

/// A refused check or mending, and which of the two texts is at fault.
#[derive(Clone, Copy, Debug, PartialEq, Eq)]
pub struct Fault {
    pub text: Text,
    pub refused: Refused,
}

/// The refusal's sentence for people.
///
/// ```
/// let refused = slotsheet::read_list(b"p edge 2 1\ne 1 1\n", &mut [0; 64]).unwrap_err();
/// assert_eq!(refused.to_string(), "line 2: here an entry clashes with itself");
/// let refused = slotsheet::read_list(b"p edge 2 1\ne 1 2", &mut [0; 64]).unwrap_err();
/// assert_eq!(refused.to_string(), "line 2, column 6: the last line stops here without its line end");
/// ```
impl fmt::Display for Refused {
    fn fmt(&self, f: &mut fmt::Formatter) -> fmt::Result {
        f.write_str(&self.why.sentence(self.place, self.column, b""))
    }
}

impl fmt::Display for Text {
    fn fmt(&self, f: &mut fmt::Formatter) -> fmt::Result {
        f.write_str(if *self == Text::List { "list" } else { "sheet" })
    }
}

impl Fault {
    /// The text at fault and the refusal's sentence, with the entry's number where `shown` is the line that [`fault_line`] gives.
    ///
    /// ```
    /// let (list, sheet) = (b"p edge 2 1\ne 1 2\n", b"groups 1\nsize 2\n1\n2\n");
    /// let fault = slotsheet::check_sheet(list, sheet, &mut [0; 2]).unwrap_err();
    /// let shown = slotsheet::fault_line(list, sheet, 2);
    /// assert_eq!(fault.sentence(shown), "sheet: line 4: entry 2 clashes with an earlier entry of its group");
    /// ```
    pub fn sentence(&self, shown: &[u8]) -> String {
        let Refused { why, place, column } = self.refused;
        format!("{}: {}", self.text, why.sentence(place, column, shown))
    }
}

/// The text at fault and the refusal's sentence for people, which says "the entry on this line" for the entry.
impl fmt::Display for Fault {
    fn fmt(&self, f: &mut fmt::Formatter) -> fmt::Result {
        f.write_str(&self.sentence(b""))
    }
}

impl std::error::Error for Refused {}
impl std::error::Error for Fault {}

/// The answer, or the refusal of this number at this line and column.
fn told_at<T>(refusal: usize, place: u64, column: usize, accepted: T) -> Result<T, Refused> {
    if refusal == 0 {
        return Ok(accepted);
    }
    Err(Refused { why: Refusal::of(refusal), place, column })
}

/// The answer, or the refusal of this number at this place, which has no column.
fn told<T>(refusal: usize, place: u64, accepted: T) -> Result<T, Refused> {
    told_at(refusal, place, 0, accepted)
}

/// Whether rows are a list: 1 to 4.
pub fn validity(rows: &[u64]) -> Result<(), Refused> {
    // SAFETY: in this and every call below, each slice is passed whole, and what is written is borrowed by this call alone.
    let said = unsafe { raw::slotsheet_validity(rows.as_ptr(), rows.len()) };
    told(said.refusal, said.row as u64, ())
}

/// The clique bound, with the clique: 1 to 4.
///
/// ```
/// let clique = slotsheet::clique_bound(&[0b110, 0b101, 0b011, 0]).unwrap();
/// assert_eq!(clique, slotsheet::Clique { size: 3, members: 0b111 });
/// ```
pub fn clique_bound(rows: &[u64]) -> Result<Clique, Refused> {
    // SAFETY: as in `validity`.
    let said = unsafe { raw::slotsheet_clique_bound(rows.as_ptr(), rows.len()) };
    told(said.refusal, said.row as u64, Clique { size: said.bound, members: said.members })
}

/// The Mycielskian bound: 1 to 4.
pub fn mycielskian_bound(rows: &[u64]) -> Result<usize, Refused> {
    // SAFETY: as in `validity`.
    let said = unsafe { raw::slotsheet_mycielskian_bound(rows.as_ptr(), rows.len()) };
    told(said.refusal, said.row as u64, said.bound)
}

fn walked(said: raw::Walk) -> Result<Walked, Refused> {
    let place = if said.refusal == Refusal::Budget as usize { said.nodes } else { said.row as u64 };
    told(said.refusal, place, Walked { k: said.k, nodes: said.nodes, leaves: said.leaves, clique: said.clique })
}

/// The fewest groups: 1 to 4, 5, 6. Writes the group number of each of the n entries.
pub fn fewest(rows: &[u64], colours: &mut [u8], budget: u64) -> Result<Walked, Refused> {
    // SAFETY: as in `validity`.
    walked(unsafe { raw::slotsheet_fewest(rows.as_ptr(), rows.len(), colours.as_mut_ptr(), colours.len(), budget) })
}

/// The same without bounds, with the number of complete graphs. For small lists.
pub fn plain(rows: &[u64], colours: &mut [u8], budget: u64) -> Result<Walked, Refused> {
    // SAFETY: as in `validity`.
    walked(unsafe { raw::slotsheet_plain(rows.as_ptr(), rows.len(), colours.as_mut_ptr(), colours.len(), budget) })
}

/// The same k by a second engine that owes nothing to the first, for testers: a search that never merges and has no bounds. 1 to 5, then 6; nodes
/// and budget are its own, and its colours may be others than the walk's.
///
/// ```
/// let (rows, mut colours) = ([2, 5, 2], [0; 3]);
/// let placed = slotsheet::fewest_by_placing(&rows, &mut colours, 1_000_000).unwrap();
/// assert_eq!((placed.k, placed.nodes, placed.clique), (2, 5, 0b011));
/// assert_eq!(colours, [0, 1, 0]);
/// ```
pub fn fewest_by_placing(rows: &[u64], colours: &mut [u8], budget: u64) -> Result<Walked, Refused> {
    // SAFETY: as in `validity`.
    walked(unsafe { raw::slotsheet_fewest_by_placing(rows.as_ptr(), rows.len(), colours.as_mut_ptr(), colours.len(), budget) })
}

/// The same k by the walk over a shrunk list, for long lists of which many entries have few clashes: before the walk an entry goes whose clashes are all
/// clashes of another, or which has fewer than the list's [`mycielskian_bound`]; after it those that went are put back. 1 to 4, 5, 6; nodes and budget
/// are of the walk over what is left, and the colours may be others than those of [`fewest`]. The clique is the whole list's.
///
/// ```
/// let (rows, mut colours) = ([0b10000, 0b01100, 0b01010, 0b00110, 0b00001], [0; 5]);
/// let walked = slotsheet::fewest_shrunk(&rows, &mut colours, 1_000_000).unwrap();
/// assert_eq!((walked.k, walked.nodes, walked.clique), (3, 1, 0b01110));
/// assert_eq!(colours, [0, 1, 2, 0, 1]);
/// ```
pub fn fewest_shrunk(rows: &[u64], colours: &mut [u8], budget: u64) -> Result<Walked, Refused> {
    // SAFETY: as in `validity`.
    walked(unsafe { raw::slotsheet_fewest_shrunk(rows.as_ptr(), rows.len(), colours.as_mut_ptr(), colours.len(), budget) })
}

fn read(said: raw::Reading) -> Result<usize, Refused> {
    told_at(said.refusal, said.line as u64, said.column, said.entries)
}

/// Reads a clash text: 18, then 10 to 17 and 20 to 23, each with its line, and 10, 21, 22 and 23 with their column. Writes the first n rows and
/// returns n.
pub fn read_list(text: &[u8], rows: &mut [u64]) -> Result<usize, Refused> {
    // SAFETY: as in `validity`.
    read(unsafe { raw::slotsheet_read_list(text.as_ptr(), text.len(), rows.as_mut_ptr(), rows.len()) })
}

/// The same, and an edge may stand a second time.
///
/// ```
/// let text = b"p edge 2 2\ne 1 2\ne 2 1\n";
/// let mut rows = [0; 2];
/// assert_eq!(slotsheet::read_list(text, &mut rows).unwrap_err().why, slotsheet::Refusal::Repeat);
/// assert_eq!(slotsheet::read_list_repeats(text, &mut rows), Ok(2));
/// assert_eq!(rows, [2, 1]);
/// ```
pub fn read_list_repeats(text: &[u8], rows: &mut [u64]) -> Result<usize, Refused> {
    // SAFETY: as in `validity`.
    read(unsafe { raw::slotsheet_read_list_repeats(text.as_ptr(), text.len(), rows.as_mut_ptr(), rows.len()) })
}

/// Writes a list's clash text and returns its length: 1 to 4, 19.
pub fn write_list(rows: &[u64], out: &mut [u8]) -> Result<usize, Refused> {
    // SAFETY: as in `validity`.
    let said = unsafe { raw::slotsheet_write_list(rows.as_ptr(), rows.len(), out.as_mut_ptr(), out.len()) };
    told(said.refusal, said.place as u64, said.length)
}

/// Writes a sheet and returns its length: 1, 38, 19.
pub fn write_sheet(colours: &[u8], out: &mut [u8]) -> Result<usize, Refused> {
    // SAFETY: as in `validity`.
    let said = unsafe { raw::slotsheet_write_sheet(colours.as_ptr(), colours.len(), out.as_mut_ptr(), out.len()) };
    told(said.refusal, said.place as u64, said.length)
}

/// Writes the very bytes that the program `slotsheet` prints for a clash text, and returns their number: the sheet of its fewest groups, by a walk of
/// at most [`NODES`] nodes, or "refused R line L" (of 10, 21, 22 and 23 "refused R line L column C") and a line feed. 19 where they do not all fit;
/// [`SHEET_BYTES`] are enough.
///
/// ```
/// let mut out = [0; slotsheet::SHEET_BYTES];
/// let length = slotsheet::answer(b"p edge 2 1\ne 1 3\n", &mut out).unwrap();
/// assert_eq!(&out[..length], b"refused 14 line 2\n");
/// let length = slotsheet::answer(b"p edge 2 1\ne 1\n", &mut out).unwrap();
/// assert_eq!(&out[..length], b"refused 22 line 2 column 4\n");
/// ```
pub fn answer(text: &[u8], out: &mut [u8]) -> Result<usize, Refused> {
    // SAFETY: as in `validity`.
    let said = unsafe { raw::slotsheet_answer(text.as_ptr(), text.len(), out.as_mut_ptr(), out.len()) };
    told(said.refusal, said.place as u64, said.length)
}

/// The same for `slotsheet --repeats`: an edge may stand a second time.
pub fn answer_repeats(text: &[u8], out: &mut [u8]) -> Result<usize, Refused> {
    // SAFETY: as in `validity`.
    let said = unsafe { raw::slotsheet_answer_repeats(text.as_ptr(), text.len(), out.as_mut_ptr(), out.len()) };
    told(said.refusal, said.place as u64, said.length)
}

fn checked(said: raw::Checking) -> Result<usize, Fault> {
    let text = if said.text == 1 { Text::List } else { Text::Sheet };
    told_at(said.refusal, said.line as u64, said.column, said.groups).map_err(|refused| Fault { text, refused })
}

/// Checks a sheet against a list: the list's refusals, 5, then the sheet's. Writes each entry's group number and returns k.
pub fn check_sheet(list: &[u8], sheet: &[u8], colours: &mut [u8]) -> Result<usize, Fault> {
    let (room, lent) = (colours.len(), colours.as_mut_ptr());
    // SAFETY: as in `validity`.
    checked(unsafe { raw::slotsheet_check_sheet(list.as_ptr(), list.len(), sheet.as_ptr(), sheet.len(), lent, room) })
}

/// The same, and an edge of the list may stand a second time.
pub fn check_sheet_repeats(list: &[u8], sheet: &[u8], colours: &mut [u8]) -> Result<usize, Fault> {
    let (room, lent) = (colours.len(), colours.as_mut_ptr());
    // SAFETY: as in `validity`.
    checked(unsafe { raw::slotsheet_check_sheet_repeats(list.as_ptr(), list.len(), sheet.as_ptr(), sheet.len(), lent, room) })
}

fn mended(said: raw::Mending) -> Result<usize, Fault> {
    let text = if said.text == 1 { Text::List } else { Text::Sheet };
    told_at(said.refusal, said.line as u64, said.column, said.length).map_err(|refused| Fault { text, refused })
}

/// Puts a hand-edited sheet right: the list's refusals, then the sheet's 18, the first of 30 (by line), 35, 37, and last 19. Drops members that are no entry
/// or stood before, lifts out those that clash with one kept before in their group, and puts lifted and absent entries into the first group that admits
/// them. Writes a line "dropped L" for each dropped line, a line "put E group G" for each entry that was put, and the mended sheet, which [`check_sheet`]
/// accepts; returns the length of all. [`MEND_BYTES`] are enough.
///
/// ```
/// let (list, sheet) = (b"p edge 3 1\ne 1 2\n", b"groups 1\nsize 3\n1\n2\n1\n");
/// let mut out = [0; 256];
/// let length = slotsheet::mend_sheet(list, sheet, &mut out).unwrap();
/// assert_eq!(&out[..length], b"dropped 5\nput 2 group 2\nput 3 group 1\ngroups 2\nsize 2\n1\n3\nsize 1\n2\n");
/// let fault = slotsheet::mend_sheet(list, b"groups 1\nsize 3\n1\n", &mut out).unwrap_err();
/// assert_eq!(fault.to_string(), "sheet: line 4: the sheet ends here, before all the groups and entries that it states");
/// ```
pub fn mend_sheet(list: &[u8], sheet: &[u8], out: &mut [u8]) -> Result<usize, Fault> {
    let (room, lent) = (out.len(), out.as_mut_ptr());
    // SAFETY: as in `validity`.
    mended(unsafe { raw::slotsheet_mend_sheet(list.as_ptr(), list.len(), sheet.as_ptr(), sheet.len(), lent, room) })
}

/// The same, and an edge of the list may stand a second time.
pub fn mend_sheet_repeats(list: &[u8], sheet: &[u8], out: &mut [u8]) -> Result<usize, Fault> {
    let (room, lent) = (out.len(), out.as_mut_ptr());
    // SAFETY: as in `validity`.
    mended(unsafe { raw::slotsheet_mend_sheet_repeats(list.as_ptr(), list.len(), sheet.as_ptr(), sheet.len(), lent, room) })
}

/// What a part is of its text.
fn shown<'a>(said: raw::Part, list: &'a [u8], sheet: &'a [u8]) -> &'a [u8] {
    let text = if said.text == 1 { list } else { sheet };
    &text[said.start..said.start + said.length]
}

/// The line at fault in a check with so many colour bytes, without its line feed, as a part of the text that holds it: empty at that text's end
/// for a fault at an end, empty at its start for 18; empty at the sheet's start for 5 or where the check accepts.
///
/// ```
/// let list = b"p edge 2 1\ne 1 2\n";
/// assert_eq!(slotsheet::fault_line(list, b"groups 1\nsize 2\n1\n2\n", 2), b"2");
/// assert_eq!(slotsheet::fault_line(b"p edge 2 1\ne 1 3\n", b"", 2), b"e 1 3");
/// ```
pub fn fault_line<'a>(list: &'a [u8], sheet: &'a [u8], room: usize) -> &'a [u8] {
    // SAFETY: as in `validity`.
    let said = unsafe { raw::slotsheet_fault_line(list.as_ptr(), list.len(), sheet.as_ptr(), sheet.len(), room) };
    shown(said, list, sheet)
}

/// The same for [`check_sheet_repeats`].
pub fn fault_line_repeats<'a>(list: &'a [u8], sheet: &'a [u8], room: usize) -> &'a [u8] {
    // SAFETY: as in `validity`.
    let said = unsafe { raw::slotsheet_fault_line_repeats(list.as_ptr(), list.len(), sheet.as_ptr(), sheet.len(), room) };
    shown(said, list, sheet)
}
