//! A refusal's number, name, what is returned beside it, and its sentence for people: over the table that `tools/bindings` writes.

use crate::table::{Refusal, Row, TABLE};

/// What is returned beside a refusal.
#[derive(Clone, Copy, Debug, PartialEq, Eq, Hash)]
pub enum Beside {
    Nothing,
    /// A row, counted from 0.
    Row,
    /// A line, counted from 1; the number of lines plus one for a fault at a text's end.
    Line,
    /// A line, counted from 1, and a column, in bytes from 1: where the line can no longer begin any permitted line.
    Spot,
    /// The index of a colour byte, counted from 0.
    Index,
    /// The nodes that the walk entered.
    Nodes,
}

impl Refusal {
    /// Every refusal, by rising number.
    pub fn all() -> impl Iterator<Item = Refusal> {
        TABLE.iter().map(|row| row.refusal)
    }

    /// Its number in the table of refusals.
    pub fn number(self) -> usize {
        self as usize
    }

    /// Its name, as "ONE-SIDED".
    pub fn name(self) -> &'static str {
        self.row().name
    }

    /// What is returned beside it.
    pub fn beside(self) -> Beside {
        self.row().beside
    }

    /// In words for people. `place` is what was returned beside it, and `column` the column, 0 where none was; `shown` is the line at fault, or
    /// empty where it is not at hand.
    ///
    /// ```
    /// let said = slotsheet::Refusal::Twice.sentence(7, 0, b"12");
    /// assert_eq!(said, "line 7: entry 12 stands in an earlier group");
    /// let said = slotsheet::Refusal::Unended.sentence(7, 6, b"");
    /// assert_eq!(said, "line 7, column 6: the last line stops here without its line end");
    /// ```
    pub fn sentence(self, place: u64, column: usize, shown: &[u8]) -> String {
        let entry = match std::str::from_utf8(shown) {
            Ok(number) if (1..=7).contains(&shown.len()) && shown.iter().all(u8::is_ascii_digit) => format!("entry {number}"),
            _ => "the entry on this line".to_string(),
        };
        let next = place.wrapping_add(1).to_string();
        let said = self.row().sentence.replace("{place}", &place.to_string()).replace("{column}", &column.to_string());
        said.replace("{next}", &next).replace("{entry}", &entry)
    }

    fn row(self) -> &'static Row {
        TABLE.iter().find(|row| row.refusal == self).expect("the table has every refusal")
    }

    /// The refusal of a number that the library answered; it answers no other.
    pub(crate) fn of(number: usize) -> Refusal {
        Self::all().find(|refusal| refusal.number() == number).expect("a number of the table")
    }
}
