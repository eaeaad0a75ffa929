//! Hand-written walks with document 01's counts, for comparison with the proved ones.
//!
//! - `described`: the bounded and the plain walk, straight from document 01's words;
//! - `tuned`: the bounded walk made as fast as we could, with the same answers;
//! - `reading`: a clash text in one pass;
//! - `placed`: the second program's search by placing, in a walk's shape;
//! - `shrunk`: the second program's shrinking, around the walk in document 01's words;
//! - `lists`: lists to walk, random ones and those of a folder.

pub mod described;
pub mod lists;
pub mod reading;
pub mod sets;
pub mod tuned;

use second::{clique, placing, shrink, Refusal, Refused};
use sets::{below, bit, Members};

/// What an accepted walk returns.
#[derive(Clone, Copy, Debug, PartialEq, Eq)]
pub struct Walked {
    pub k: u64,
    pub nodes: u64,
    /// The plain walk's number of complete graphs; 0 for the bounded walk.
    pub complete: u64,
    /// The starting graph's clique, as a set.
    pub clique: u64,
}

/// A walk: lent rows, lent colours, budget.
pub type Walk = fn(&[u64], &mut [u8], u64) -> Result<Walked, Refused>;

/// Document 01's refusals of a matrix: 1 to 4, each over all rows before the next.
fn judge(rows: &[u64]) -> Result<(), Refused> {
    let n = rows.len();
    if n > 64 {
        return Err(Refusal::Many.bare());
    }
    if let Some(i) = (0..n).find(|&i| rows[i] & !below(n) != 0) {
        return Err(Refusal::Stray.at(i));
    }
    if let Some(i) = (0..n).find(|&i| rows[i] & bit(i) != 0) {
        return Err(Refusal::Itself.at(i));
    }
    if let Some(i) = (0..n).find(|&i| Members(rows[i]).any(|j| rows[j] & bit(i) == 0)) {
        return Err(Refusal::OneSided.at(i));
    }
    Ok(())
}

/// Document 01's refusals before a walk: 1 to 4, then 5. (7 cannot arise with 64 entries.)
fn admit(rows: &[u64], colours: &[u8]) -> Result<(), Refused> {
    judge(rows)?;
    if colours.len() < rows.len() {
        return Err(Refusal::Short.bare());
    }
    Ok(())
}

/// The second program's search by placing as a walk, with the list's clique beside k.
pub fn placed(rows: &[u64], colours: &mut [u8], budget: u64) -> Result<Walked, Refused> {
    let found = placing::fewest(rows, colours.len(), budget)?;
    colours[..rows.len()].copy_from_slice(&found.colours);
    Ok(Walked { k: found.k as u64, nodes: found.nodes, complete: 0, clique: clique::set(rows) })
}

/// The second program's shrinking and putting back around the walk in document 01's words, of which the count is; L and the clique are the full list's.
pub fn shrunk(rows: &[u64], colours: &mut [u8], budget: u64) -> Result<Walked, Refused> {
    admit(rows, colours)?;
    let (clique, bound) = described::bounds(rows)?;
    let left = shrink::shrink(rows, bound as usize);
    let mut division = vec![0; left.left.len()];
    let walked = described::fewest(&left.rows(rows), &mut division, budget)?;
    colours[..rows.len()].copy_from_slice(&left.put_back(rows, &division));
    Ok(Walked { k: left.answer(bound as usize, walked.k as usize) as u64, clique, ..walked })
}
