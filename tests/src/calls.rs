//! The proved library's calls through its C interface: every number of an answer, in the order of include/slotsheet.h, and every byte around
//! what is lent.

use slotsheet::raw;

/// The fill of lent memory, and how much of it stands unlent on either side.
pub const FILL: u8 = 0xA5;
const AROUND: usize = 24;

/// Memory of which the middle is lent.
#[derive(Clone, Debug, PartialEq, Eq)]
pub struct Lent<T>(Vec<T>);

impl<T: Copy + PartialEq> Lent<T> {
    pub fn new(length: usize, fill: T) -> Lent<T> {
        Lent(vec![fill; length + 2 * AROUND])
    }

    pub fn part(&mut self) -> &mut [T] {
        let end = self.0.len() - AROUND;
        &mut self.0[AROUND..end]
    }
}

pub fn validity(rows: &[u64]) -> [usize; 2] {
    // SAFETY: in this and every call below, each slice is passed whole, and what is written is borrowed by this call alone.
    let said = unsafe { raw::slotsheet_validity(rows.as_ptr(), rows.len()) };
    [said.refusal, said.row]
}

pub fn bounds(rows: &[u64]) -> [[u64; 4]; 2] {
    // SAFETY: as in `validity`.
    let said =
        unsafe { [raw::slotsheet_clique_bound(rows.as_ptr(), rows.len()), raw::slotsheet_mycielskian_bound(rows.as_ptr(), rows.len())] };
    said.map(|said| [said.refusal as u64, said.row as u64, said.bound as u64, said.members])
}

fn walk(said: raw::Walk) -> [u64; 6] {
    [said.refusal as u64, said.row as u64, said.k as u64, said.nodes, said.leaves, said.clique]
}

pub fn fewest(rows: &[u64], colours: &mut [u8], budget: u64) -> [u64; 6] {
    // SAFETY: as in `validity`.
    walk(unsafe { raw::slotsheet_fewest(rows.as_ptr(), rows.len(), colours.as_mut_ptr(), colours.len(), budget) })
}

pub fn plain(rows: &[u64], colours: &mut [u8], budget: u64) -> [u64; 6] {
    // SAFETY: as in `validity`.
    walk(unsafe { raw::slotsheet_plain(rows.as_ptr(), rows.len(), colours.as_mut_ptr(), colours.len(), budget) })
}

pub fn fewest_by_placing(rows: &[u64], colours: &mut [u8], budget: u64) -> [u64; 6] {
    // SAFETY: as in `validity`.
    walk(unsafe { raw::slotsheet_fewest_by_placing(rows.as_ptr(), rows.len(), colours.as_mut_ptr(), colours.len(), budget) })
}

pub fn fewest_shrunk(rows: &[u64], colours: &mut [u8], budget: u64) -> [u64; 6] {
    // SAFETY: as in `validity`.
    walk(unsafe { raw::slotsheet_fewest_shrunk(rows.as_ptr(), rows.len(), colours.as_mut_ptr(), colours.len(), budget) })
}

fn read(said: raw::Reading) -> [usize; 4] {
    [said.refusal, said.line, said.column, said.entries]
}

pub fn read_list(text: &[u8], rows: &mut [u64]) -> [usize; 4] {
    // SAFETY: as in `validity`.
    read(unsafe { raw::slotsheet_read_list(text.as_ptr(), text.len(), rows.as_mut_ptr(), rows.len()) })
}

pub fn read_list_repeats(text: &[u8], rows: &mut [u64]) -> [usize; 4] {
    // SAFETY: as in `validity`.
    read(unsafe { raw::slotsheet_read_list_repeats(text.as_ptr(), text.len(), rows.as_mut_ptr(), rows.len()) })
}

pub fn write_list(rows: &[u64], out: &mut [u8]) -> [usize; 3] {
    // SAFETY: as in `validity`.
    let said = unsafe { raw::slotsheet_write_list(rows.as_ptr(), rows.len(), out.as_mut_ptr(), out.len()) };
    [said.refusal, said.place, said.length]
}

pub fn write_sheet(colours: &[u8], out: &mut [u8]) -> [usize; 3] {
    // SAFETY: as in `validity`.
    let said = unsafe { raw::slotsheet_write_sheet(colours.as_ptr(), colours.len(), out.as_mut_ptr(), out.len()) };
    [said.refusal, said.place, said.length]
}

pub fn answer(text: &[u8], out: &mut [u8]) -> [usize; 3] {
    // SAFETY: as in `validity`.
    let said = unsafe { raw::slotsheet_answer(text.as_ptr(), text.len(), out.as_mut_ptr(), out.len()) };
    [said.refusal, said.place, said.length]
}

pub fn answer_repeats(text: &[u8], out: &mut [u8]) -> [usize; 3] {
    // SAFETY: as in `validity`.
    let said = unsafe { raw::slotsheet_answer_repeats(text.as_ptr(), text.len(), out.as_mut_ptr(), out.len()) };
    [said.refusal, said.place, said.length]
}

fn checked(said: raw::Checking) -> [usize; 5] {
    [said.refusal, said.line, said.column, said.groups, said.text]
}

pub fn check_sheet(list: &[u8], sheet: &[u8], colours: &mut [u8]) -> [usize; 5] {
    let (room, lent) = (colours.len(), colours.as_mut_ptr());
    // SAFETY: as in `validity`.
    checked(unsafe { raw::slotsheet_check_sheet(list.as_ptr(), list.len(), sheet.as_ptr(), sheet.len(), lent, room) })
}

pub fn check_sheet_repeats(list: &[u8], sheet: &[u8], colours: &mut [u8]) -> [usize; 5] {
    let (room, lent) = (colours.len(), colours.as_mut_ptr());
    // SAFETY: as in `validity`.
    checked(unsafe { raw::slotsheet_check_sheet_repeats(list.as_ptr(), list.len(), sheet.as_ptr(), sheet.len(), lent, room) })
}

pub fn fault_line(list: &[u8], sheet: &[u8], room: usize) -> [usize; 3] {
    // SAFETY: as in `validity`.
    let said = unsafe { raw::slotsheet_fault_line(list.as_ptr(), list.len(), sheet.as_ptr(), sheet.len(), room) };
    [said.text, said.start, said.length]
}

pub fn fault_line_repeats(list: &[u8], sheet: &[u8], room: usize) -> [usize; 3] {
    // SAFETY: as in `validity`.
    let said = unsafe { raw::slotsheet_fault_line_repeats(list.as_ptr(), list.len(), sheet.as_ptr(), sheet.len(), room) };
    [said.text, said.start, said.length]
}

fn mended(said: raw::Mending) -> [usize; 5] {
    [said.refusal, said.line, said.column, said.length, said.text]
}

pub fn mend_sheet(list: &[u8], sheet: &[u8], out: &mut [u8]) -> [usize; 5] {
    let (room, lent) = (out.len(), out.as_mut_ptr());
    // SAFETY: as in `validity`.
    mended(unsafe { raw::slotsheet_mend_sheet(list.as_ptr(), list.len(), sheet.as_ptr(), sheet.len(), lent, room) })
}

pub fn mend_sheet_repeats(list: &[u8], sheet: &[u8], out: &mut [u8]) -> [usize; 5] {
    let (room, lent) = (out.len(), out.as_mut_ptr());
    // SAFETY: as in `validity`.
    mended(unsafe { raw::slotsheet_mend_sheet_repeats(list.as_ptr(), list.len(), sheet.as_ptr(), sheet.len(), lent, room) })
}

/// The calls that read a clash text, by one reading.
pub struct Calls {
    pub read_list: fn(&[u8], &mut [u64]) -> [usize; 4],
    pub check_sheet: fn(&[u8], &[u8], &mut [u8]) -> [usize; 5],
    pub fault_line: fn(&[u8], &[u8], usize) -> [usize; 3],
    pub answer: fn(&[u8], &mut [u8]) -> [usize; 3],
    pub mend_sheet: fn(&[u8], &[u8], &mut [u8]) -> [usize; 5],
}

pub const PLAIN: Calls = Calls { read_list, check_sheet, fault_line, answer, mend_sheet };
pub const REPEATS: Calls = Calls {
    read_list: read_list_repeats,
    check_sheet: check_sheet_repeats,
    fault_line: fault_line_repeats,
    answer: answer_repeats,
    mend_sheet: mend_sheet_repeats,
};
