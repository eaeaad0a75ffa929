//! Written by tools/bindings from bindings/interface.txt: version, limits, and each refusal with its number, name and sentence.

use crate::refusal::Beside;

/// The version of the interface.
pub const VERSION: &str = "5.2.0";
/// The most entries of a list.
pub const ENTRIES: usize = 64;
/// The most bytes of a text that is read.
pub const BYTES: usize = 65_536;
/// No sheet is longer.
pub const SHEET_BYTES: usize = 641;
/// No written list is longer.
pub const LIST_BYTES: usize = 15_576;
/// No mended sheet with its report is longer.
pub const MEND_BYTES: usize = 449_161;
/// The nodes that the walk of the program slotsheet may enter.
pub const NODES: usize = 1_000_000;
/// The stack that a thread needs to make any call, with room to spare.
pub const STACK_BYTES: usize = 262_144;

/// Each refusal by its name (`Itself` for SELF); its value is its number.
#[derive(Clone, Copy, Debug, PartialEq, Eq, PartialOrd, Ord, Hash)]
pub enum Refusal {
    /// Over 64 rows, or colour bytes when writing a sheet.
    Many = 1,
    /// A bit at n or above: lowest such row.
    Stray = 2,
    /// Row i has bit i: lowest such row.
    Itself = 3,
    /// Row i has bit j, row j lacks bit i: lowest such i.
    OneSided = 4,
    /// Colour buffer under n bytes.
    Short = 5,
    /// The walk has more nodes than the budget: nodes = budget.
    Budget = 6,
    /// A word unknown, or an empty line.
    Line = 10,
    /// An e line before any p line, or no p line at all.
    Headless = 11,
    /// A second p line.
    Second = 12,
    /// P line with over 64 entries.
    Size = 13,
    /// An end outside 1 to n.
    Vertex = 14,
    /// Both ends equal.
    Loop = 15,
    /// Number of e lines is not the stated one.
    Count = 16,
    /// Fewer lent rows than n: line of p.
    Room = 17,
    /// A text over 65,536 bytes.
    Long = 18,
    /// Output buffer too small for the whole text.
    Full = 19,
    /// An edge that stands a second time, either way round, where repeats are not allowed: line of the second.
    Repeat = 20,
    /// Where a number must start and no digit stands, or a digit after a leading zero or a seventh digit.
    Digit = 21,
    /// Another byte, or a stop, where a space or the line's end could have followed a word or a number.
    Space = 22,
    /// Last line unended though otherwise whole: line, and column one past its end.
    Unended = 23,
    /// Wrong shape for this place, or last line unended.
    SheetLine = 30,
    /// Member outside 1 to n.
    Member = 31,
    /// Not above the member before it in its group, or a group's first not above the previous group's first.
    Order = 32,
    /// Member stands in an earlier group.
    Twice = 33,
    /// Member clashes with an earlier one of its group.
    Clash = 34,
    /// Sheet empty, or ends before its counts are met.
    Ends = 35,
    /// All counts met, an entry absent.
    Missing = 36,
    /// A line after the last group.
    Extra = 37,
    /// Colour bytes not numbered by first use from 0: lowest index.
    Colours = 38,
}

pub(crate) struct Row {
    pub refusal: Refusal,
    pub name: &'static str,
    pub beside: Beside,
    pub sentence: &'static str,
}

#[rustfmt::skip]
pub(crate) const TABLE: [Row; 29] = [
    Row { refusal: Refusal::Many, name: "MANY", beside: Beside::Nothing, sentence: "there are more than 64 entries" },
    Row { refusal: Refusal::Stray, name: "STRAY", beside: Beside::Row, sentence: "entry {next} is marked as clashing with an entry that the list does not have (row {place})" },
    Row { refusal: Refusal::Itself, name: "SELF", beside: Beside::Row, sentence: "entry {next} is marked as clashing with itself (row {place})" },
    Row { refusal: Refusal::OneSided, name: "ONE-SIDED", beside: Beside::Row, sentence: "entry {next} is marked as clashing with an entry that is not marked as clashing with it (row {place})" },
    Row { refusal: Refusal::Short, name: "SHORT", beside: Beside::Nothing, sentence: "there is less room for group numbers than the list has entries" },
    Row { refusal: Refusal::Budget, name: "BUDGET", beside: Beside::Nodes, sentence: "the search for the fewest sittings was given up after {place} steps, as many as it was allowed" },
    Row { refusal: Refusal::Line, name: "LINE", beside: Beside::Spot, sentence: "line {place}, column {column}: this line is empty, or its word is none of \"c\", \"p edge\" and \"e\"" },
    Row { refusal: Refusal::Headless, name: "HEADLESS", beside: Beside::Line, sentence: "line {place}: no line \"p edge N M\" has come before this clash, or before the list's end" },
    Row { refusal: Refusal::Second, name: "SECOND", beside: Beside::Line, sentence: "line {place}: this is a second line \"p edge N M\"" },
    Row { refusal: Refusal::Size, name: "SIZE", beside: Beside::Line, sentence: "line {place}: this line states more than 64 entries" },
    Row { refusal: Refusal::Vertex, name: "VERTEX", beside: Beside::Line, sentence: "line {place}: this clash names an entry that the list does not have" },
    Row { refusal: Refusal::Loop, name: "LOOP", beside: Beside::Line, sentence: "line {place}: here an entry clashes with itself" },
    Row { refusal: Refusal::Count, name: "COUNT", beside: Beside::Line, sentence: "line {place}: the list ends here, and the number of its clashes is not the one that its p line states" },
    Row { refusal: Refusal::Room, name: "ROOM", beside: Beside::Line, sentence: "line {place}: this line states more entries than there is room for" },
    Row { refusal: Refusal::Long, name: "LONG", beside: Beside::Nothing, sentence: "the text is longer than 65,536 bytes" },
    Row { refusal: Refusal::Full, name: "FULL", beside: Beside::Nothing, sentence: "there is too little room to write the whole text" },
    Row { refusal: Refusal::Repeat, name: "REPEAT", beside: Beside::Line, sentence: "line {place}: this clash stands in an earlier line already, the same or the other way round" },
    Row { refusal: Refusal::Digit, name: "DIGIT", beside: Beside::Spot, sentence: "line {place}, column {column}: here a number must start, and there is none; or a number goes on here after a leading 0 or its seventh digit" },
    Row { refusal: Refusal::Space, name: "SPACE", beside: Beside::Spot, sentence: "line {place}, column {column}: here, after a word or a number, one space or the line's end must come, and there is something else (it may not be visible), or the line stops" },
    Row { refusal: Refusal::Unended, name: "UNENDED", beside: Beside::Spot, sentence: "line {place}, column {column}: the last line stops here without its line end" },
    Row { refusal: Refusal::SheetLine, name: "SHEET LINE", beside: Beside::Line, sentence: "line {place}: this is not the kind of line that belongs here, or it is the last line and its line end is missing" },
    Row { refusal: Refusal::Member, name: "MEMBER", beside: Beside::Line, sentence: "line {place}: {entry} is not in the list" },
    Row { refusal: Refusal::Order, name: "ORDER", beside: Beside::Line, sentence: "line {place}: {entry} is out of order: entries rise within a group, and groups by their first entries" },
    Row { refusal: Refusal::Twice, name: "TWICE", beside: Beside::Line, sentence: "line {place}: {entry} stands in an earlier group" },
    Row { refusal: Refusal::Clash, name: "CLASH", beside: Beside::Line, sentence: "line {place}: {entry} clashes with an earlier entry of its group" },
    Row { refusal: Refusal::Ends, name: "ENDS", beside: Beside::Line, sentence: "line {place}: the sheet ends here, before all the groups and entries that it states" },
    Row { refusal: Refusal::Missing, name: "MISSING", beside: Beside::Line, sentence: "line {place}: the sheet ends here, and an entry of the list stands in no group" },
    Row { refusal: Refusal::Extra, name: "EXTRA", beside: Beside::Line, sentence: "line {place}: the last group is complete, and this line is one too many" },
    Row { refusal: Refusal::Colours, name: "COLOURS", beside: Beside::Index, sentence: "the group number of entry {next} is not one used before it, nor the next new one (index {place})" },
];
