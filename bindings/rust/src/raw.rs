//! The C interface as it stands in include/slotsheet.h.

#[repr(C)]
pub struct Verdict {
    pub refusal: usize,
    pub row: usize,
}

#[repr(C)]
pub struct Bound {
    pub refusal: usize,
    pub row: usize,
    pub bound: usize,
    pub members: u64,
}

#[repr(C)]
pub struct Walk {
    pub refusal: usize,
    pub row: usize,
    pub k: usize,
    pub nodes: u64,
    pub leaves: u64,
    pub clique: u64,
}

#[repr(C)]
pub struct Reading {
    pub refusal: usize,
    pub line: usize,
    pub column: usize,
    pub entries: usize,
}

#[repr(C)]
pub struct Writing {
    pub refusal: usize,
    pub place: usize,
    pub length: usize,
}

#[repr(C)]
pub struct Checking {
    pub refusal: usize,
    pub line: usize,
    pub column: usize,
    pub groups: usize,
    pub text: usize,
}

#[repr(C)]
pub struct Mending {
    pub refusal: usize,
    pub line: usize,
    pub column: usize,
    pub length: usize,
    pub text: usize,
}

#[repr(C)]
pub struct Part {
    pub text: usize,
    pub start: usize,
    pub length: usize,
}

extern "C" {
    pub fn slotsheet_validity(rows: *const u64, rows_length: usize) -> Verdict;
    pub fn slotsheet_clique_bound(rows: *const u64, rows_length: usize) -> Bound;
    pub fn slotsheet_mycielskian_bound(rows: *const u64, rows_length: usize) -> Bound;
    pub fn slotsheet_fewest(rows: *const u64, rows_length: usize, colours: *mut u8, colours_length: usize, budget: u64) -> Walk;
    pub fn slotsheet_plain(rows: *const u64, rows_length: usize, colours: *mut u8, colours_length: usize, budget: u64) -> Walk;
    pub fn slotsheet_fewest_by_placing(rows: *const u64, rows_length: usize, colours: *mut u8, colours_length: usize, budget: u64) -> Walk;
    pub fn slotsheet_fewest_shrunk(rows: *const u64, rows_length: usize, colours: *mut u8, colours_length: usize, budget: u64) -> Walk;
    pub fn slotsheet_read_list(text: *const u8, text_length: usize, rows: *mut u64, rows_length: usize) -> Reading;
    pub fn slotsheet_read_list_repeats(text: *const u8, text_length: usize, rows: *mut u64, rows_length: usize) -> Reading;
    pub fn slotsheet_write_list(rows: *const u64, rows_length: usize, out: *mut u8, out_length: usize) -> Writing;
    pub fn slotsheet_write_sheet(colours: *const u8, colours_length: usize, out: *mut u8, out_length: usize) -> Writing;
    pub fn slotsheet_check_sheet(
        list: *const u8,
        list_length: usize,
        sheet: *const u8,
        sheet_length: usize,
        colours: *mut u8,
        colours_length: usize,
    ) -> Checking;
    pub fn slotsheet_check_sheet_repeats(
        list: *const u8,
        list_length: usize,
        sheet: *const u8,
        sheet_length: usize,
        colours: *mut u8,
        colours_length: usize,
    ) -> Checking;
    pub fn slotsheet_fault_line(list: *const u8, list_length: usize, sheet: *const u8, sheet_length: usize, room: usize) -> Part;
    pub fn slotsheet_fault_line_repeats(list: *const u8, list_length: usize, sheet: *const u8, sheet_length: usize, room: usize) -> Part;
    pub fn slotsheet_mend_sheet(
        list: *const u8,
        list_length: usize,
        sheet: *const u8,
        sheet_length: usize,
        out: *mut u8,
        out_length: usize,
    ) -> Mending;
    pub fn slotsheet_mend_sheet_repeats(
        list: *const u8,
        list_length: usize,
        sheet: *const u8,
        sheet_length: usize,
        out: *mut u8,
        out_length: usize,
    ) -> Mending;
    pub fn slotsheet_answer(text: *const u8, text_length: usize, out: *mut u8, out_length: usize) -> Writing;
    pub fn slotsheet_answer_repeats(text: *const u8, text_length: usize, out: *mut u8, out_length: usize) -> Writing;
}
