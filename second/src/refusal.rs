//! Document 01's table of refusals, with those of document 02 that have come.

/// Each refusal by its name (`Itself` for SELF); its value is its number.
#[derive(Clone, Copy, Debug, PartialEq, Eq, PartialOrd, Ord, Hash)]
pub enum Refusal {
    Many = 1,
    Stray = 2,
    Itself = 3,
    OneSided = 4,
    Short = 5,
    Budget = 6,
    Line = 10,
    Headless = 11,
    Second = 12,
    Size = 13,
    Vertex = 14,
    Loop = 15,
    Count = 16,
    Room = 17,
    Long = 18,
    Full = 19,
    Repeat = 20,
    Digit = 21,
    Space = 22,
    Unended = 23,
    SheetLine = 30,
    Member = 31,
    Order = 32,
    Twice = 33,
    Clash = 34,
    Ends = 35,
    Missing = 36,
    Extra = 37,
    Colours = 38,
}

impl Refusal {
    /// Its number in the papers.
    pub fn number(self) -> u64 {
        self as u64
    }

    /// A refusal that names a row, a line, an index or a count of nodes.
    pub fn at(self, place: usize) -> Refused {
        self.spot(place, 0)
    }

    /// A refusal that names a line and a column.
    pub fn spot(self, line: usize, column: usize) -> Refused {
        Refused { why: self, place: line as u64, column: column as u64 }
    }

    /// A refusal that names no place.
    pub fn bare(self) -> Refused {
        self.at(0)
    }
}

/// A refusal with what is "also returned" beside it: row, line, index or nodes, by the table; 0 where the table names nothing.
#[derive(Clone, Copy, Debug, PartialEq, Eq)]
pub struct Refused {
    pub why: Refusal,
    pub place: u64,
    /// Of 10, 21, 22 and 23, counted from 1; else 0.
    pub column: u64,
}

impl Refused {
    /// A clash text's refusal as the program `slotsheet` prints it, but for the line feed.
    pub fn printed(&self) -> String {
        let line = format!("refused {} line {}", self.why.number(), self.place);
        match self.column {
            0 => line,
            column => format!("{line} column {column}"),
        }
    }
}
