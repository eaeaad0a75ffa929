//! The proved library's calls in the shapes of the hand-written ones.

use bench::Walked;
use second::{Refusal, Refused};

/// The benches lend valid lists and texts: the budget is the only refusal they meet.
fn refused(said: slotsheet::Refused) -> Refused {
    assert_eq!(said.why, slotsheet::Refusal::Budget, "{said}");
    Refused { place: said.place, ..Refusal::Budget.bare() }
}

fn answered(said: Result<slotsheet::Walked, slotsheet::Refused>) -> Result<Walked, Refused> {
    let walked = said.map_err(refused)?;
    Ok(Walked { k: walked.k as u64, nodes: walked.nodes, complete: walked.leaves, clique: walked.clique })
}

pub fn fewest(rows: &[u64], colours: &mut [u8], budget: u64) -> Result<Walked, Refused> {
    answered(slotsheet::fewest(rows, colours, budget))
}

pub fn fewest_by_placing(rows: &[u64], colours: &mut [u8], budget: u64) -> Result<Walked, Refused> {
    answered(slotsheet::fewest_by_placing(rows, colours, budget))
}

pub fn fewest_shrunk(rows: &[u64], colours: &mut [u8], budget: u64) -> Result<Walked, Refused> {
    answered(slotsheet::fewest_shrunk(rows, colours, budget))
}

pub fn bounds(rows: &[u64]) -> Result<(u64, u32), Refused> {
    let clique = slotsheet::clique_bound(rows).map_err(refused)?;
    let mycielskian = slotsheet::mycielskian_bound(rows).map_err(refused)?;
    Ok((clique.members, mycielskian as u32))
}

pub fn read(text: &[u8], rows: &mut [u64]) -> Result<usize, Refused> {
    slotsheet::read_list(text, rows).map_err(refused)
}

pub fn read_repeats(text: &[u8], rows: &mut [u64]) -> Result<usize, Refused> {
    slotsheet::read_list_repeats(text, rows).map_err(refused)
}

pub fn check(list: &[u8], sheet: &[u8], colours: &mut [u8]) -> Option<usize> {
    slotsheet::check_sheet(list, sheet, colours).ok()
}

pub fn check_repeats(list: &[u8], sheet: &[u8], colours: &mut [u8]) -> Option<usize> {
    slotsheet::check_sheet_repeats(list, sheet, colours).ok()
}

/// The pair choice, which the library does not export: bench/native shows it to the linker under its own name. It has the shape that it is compiled to:
/// how many words a row has is left out, since all rows of the library have one.
#[cfg(feature = "pair_choice")]
pub fn pair(live: u64, rows: &[u64; 64]) -> Option<(usize, usize)> {
    #[repr(C)]
    struct Choice {
        split: u8,
        u: usize,
        v: usize,
    }
    #[repr(C)]
    struct Lent {
        start: *const u64,
        length: usize,
    }
    extern "C" {
        #[link_name = "seam::choose_among"]
        fn choose_among(choice: *mut Choice, live: *const [u64; 4], rows: *const Lent);
    }
    let mut choice = std::mem::MaybeUninit::<Choice>::uninit();
    // SAFETY: these are the parameters that it is compiled with; of a choice it writes what is read here, the vertices only where there is a split.
    unsafe {
        choose_among(choice.as_mut_ptr(), &[live, 0, 0, 0], &Lent { start: rows.as_ptr(), length: rows.len() });
        let choice = choice.as_ptr();
        ((*choice).split == 1).then(|| ((*choice).u, (*choice).v))
    }
}
