//! Lists to walk.

use std::fs;
use std::io;
use std::path::Path;

/// A fixed sequence of numbers (splitmix64), so that every run has the same lists.
pub struct Numbers(pub u64);

impl Numbers {
    pub fn draw(&mut self) -> u64 {
        self.0 = self.0.wrapping_add(0x9E37_79B9_7F4A_7C15);
        let mut z = self.0;
        z = (z ^ (z >> 30)).wrapping_mul(0xBF58_476D_1CE4_E5B9);
        z = (z ^ (z >> 27)).wrapping_mul(0x94D0_49BB_1331_11EB);
        z ^ (z >> 31)
    }

    /// A number below `limit`; no list is long enough for the small lean of the remainder to matter.
    pub fn below(&mut self, limit: u64) -> u64 {
        self.draw() % limit
    }
}

/// A list of n entries in which each pair clashes with a chance of `percent` in a hundred.
pub fn random(numbers: &mut Numbers, n: usize, percent: u64) -> Vec<u64> {
    let mut rows = vec![0; n];
    for i in 0..n {
        for j in i + 1..n {
            if numbers.below(100) < percent {
                rows[i] |= 1 << j;
                rows[j] |= 1 << i;
            }
        }
    }
    rows
}

/// The list of a clash text in a file, in which an edge may stand a second time: the published queen graphs have each both ways.
pub fn load(path: &Path) -> io::Result<Vec<u64>> {
    let mut rows = vec![0; 64];
    let text = fs::read(path)?;
    let refused = |r: second::Refused| io::Error::other(format!("{}: {}", path.display(), r.printed()));
    let n = second::list::read_repeats(&text, &mut rows).map_err(refused)?;
    rows.truncate(n);
    Ok(rows)
}
