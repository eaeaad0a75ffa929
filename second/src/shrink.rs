//! Document 02's shrinking before a walk (Ask 8), straight from its words, over lists of entries. The walk over what is left, and the bound L, are given.

use crate::matrix::{has, rows_of};

/// The rule by which an entry went.
#[derive(Clone, Copy, Debug, PartialEq, Eq)]
pub enum Rule {
    /// All its clashes are clashes of this other entry, the lowest such.
    First(usize),
    /// It has fewer clashes than L.
    Second,
}

/// What shrinking leaves of a list.
#[derive(Clone, Debug, PartialEq, Eq)]
pub struct Shrunk {
    /// The entries that are left, rising.
    pub left: Vec<usize>,
    /// Those that went, in the order of removal.
    pub gone: Vec<(usize, Rule)>,
}

/// "Only entries still present and clashes among them count."
fn clashes(rows: &[u64], present: &[usize], entry: usize) -> Vec<usize> {
    present.iter().copied().filter(|&other| has(rows, entry, other)).collect()
}

/// "an entry whose clashes are all clashes of another entry (the lowest such other is noted)"
fn first(rows: &[u64], present: &[usize], entry: usize) -> Option<(usize, Rule)> {
    let own = clashes(rows, present, entry);
    let covers = |other: usize| other != entry && own.iter().all(|&clash| has(rows, other, clash));
    present.iter().find(|&&other| covers(other)).map(|&other| (entry, Rule::First(other)))
}

/// "or one with fewer clashes than the root's Mycielskian bound L"
fn second(rows: &[u64], present: &[usize], entry: usize, bound: usize) -> Option<(usize, Rule)> {
    (clashes(rows, present, entry).len() < bound).then_some((entry, Rule::Second))
}

/// "Each time the lowest entry that meets the first rule goes; where none does, the lowest that meets the second; until neither applies, with L kept from
/// the unshrunk list."
pub fn shrink(rows: &[u64], bound: usize) -> Shrunk {
    let mut present: Vec<usize> = (0..rows.len()).collect();
    let mut gone = Vec::new();
    loop {
        let by_first = present.iter().find_map(|&entry| first(rows, &present, entry));
        let next = by_first.or_else(|| present.iter().find_map(|&entry| second(rows, &present, entry, bound)));
        let Some(removal) = next else {
            return Shrunk { left: present, gone };
        };
        present.retain(|&other| other != removal.0);
        gone.push(removal);
    }
}

impl Shrunk {
    /// The list that is left, its entries renumbered by rising number.
    pub fn rows(&self, rows: &[u64]) -> Vec<u64> {
        let n = self.left.len();
        let pairs = (0..n).flat_map(|i| (i + 1..n).map(move |j| (i, j)));
        let clashes: Vec<(usize, usize)> = pairs.filter(|&(i, j)| has(rows, self.left[i], self.left[j])).collect();
        rows_of(n, &clashes)
    }

    /// "The answer is the larger of L and the shrunk k where the second rule was used, else the shrunk k."
    pub fn answer(&self, bound: usize, shrunk: usize) -> usize {
        let used = self.gone.iter().any(|&(_, rule)| rule == Rule::Second);
        if used {
            shrunk.max(bound)
        } else {
            shrunk
        }
    }

    /// "Put removed entries back in reverse order: by the first rule, into the other entry's group; by the second, into the lowest group that admits it,
    /// a new last one if none does. Groups are then numbered as always." The colours given are those of what is left.
    pub fn put_back(&self, rows: &[u64], colours: &[u8]) -> Vec<u8> {
        let many = colours.iter().map(|&colour| usize::from(colour) + 1).max().unwrap_or(0);
        let mut groups: Vec<Vec<usize>> = vec![Vec::new(); many];
        for (&entry, &colour) in self.left.iter().zip(colours) {
            groups[usize::from(colour)].push(entry);
        }
        for &(entry, rule) in self.gone.iter().rev() {
            let takes = |group: &Vec<usize>| match rule {
                Rule::First(other) => group.contains(&other),
                Rule::Second => group.iter().all(|&member| !has(rows, entry, member)),
            };
            match groups.iter().position(takes) {
                Some(place) => groups[place].push(entry),
                None => groups.push(vec![entry]),
            }
        }
        groups.iter_mut().for_each(|group| group.sort_unstable());
        groups.sort();
        let mut numbers = vec![0; rows.len()];
        for (number, group) in groups.iter().enumerate() {
            for &entry in group {
                numbers[entry] = number as u8;
            }
        }
        numbers
    }
}

#[cfg(test)]
mod tests {
    use super::*;
    use crate::colouring;
    use crate::matrix::{groups, is_clash_free};
    use Rule::{First, Second};

    fn gone(rows: &[u64], bound: usize) -> Vec<(usize, Rule)> {
        shrink(rows, bound).gone
    }

    #[test]
    fn by_hand() {
        assert_eq!(gone(&[], 0), []);
        assert_eq!(gone(&[0], 1), [(0, Second)]);
        // No clashes: each is covered by the lowest other, and the last has none to cover it.
        assert_eq!(gone(&[0; 3], 1), [(0, First(1)), (1, First(2)), (2, Second)]);
        assert_eq!(gone(&[2, 1], 2), [(0, Second), (1, Second)]);
        // A path of three: 0 is covered by 2, and then the two that are left go by the second rule.
        assert_eq!(gone(&rows_of(3, &[(0, 1), (1, 2)]), 2), [(0, First(2)), (1, Second), (2, Second)]);
        // A ring of five with L = 3: nobody is covered at first. Without 0 its neighbours clash with one each, and 1 is covered by 3.
        let five_cycle = rows_of(5, &[(0, 1), (1, 2), (2, 3), (3, 4), (0, 4)]);
        assert_eq!(gone(&five_cycle, 3), [(0, Second), (1, First(3)), (2, First(4)), (3, Second), (4, Second)]);
        // With L = 2 neither rule applies.
        assert_eq!(shrink(&five_cycle, 2), Shrunk { left: vec![0, 1, 2, 3, 4], gone: vec![] });
    }

    #[test]
    fn the_lowest_other() {
        // 0 is covered by 2 and by 3; 1 clashes with all three.
        assert_eq!(gone(&rows_of(4, &[(0, 1), (1, 2), (1, 3)]), 2)[0], (0, First(2)));
        // A path of four: without 0, which 2 covers, all clashes of 1 are clashes of 3. Its clash with 0 counts no more.
        assert_eq!(gone(&rows_of(4, &[(0, 1), (1, 2), (2, 3)]), 0), [(0, First(2)), (1, First(3))]);
    }

    #[test]
    fn put_back_in_reverse() {
        let rows = rows_of(5, &[(0, 4), (1, 2), (1, 3), (2, 3)]);
        let shrunk = shrink(&rows, 3);
        assert_eq!(shrunk.gone, [(0, Second), (4, First(1)), (1, Second), (2, Second), (3, Second)]);
        assert_eq!(shrunk.put_back(&rows, &[]), [0, 1, 2, 0, 1]);
        assert_eq!((shrunk.answer(3, 0), shrunk.answer(3, 4)), (3, 4));
        // Where only the first rule was used, L is not asked.
        let path = rows_of(3, &[(0, 1), (1, 2)]);
        let shrunk = shrink(&path, 0);
        assert_eq!((shrunk.left.clone(), shrunk.gone.clone()), (vec![1, 2], vec![(0, First(2))]));
        assert_eq!(shrunk.rows(&path), [2, 1]);
        assert_eq!(shrunk.put_back(&path, &[0, 1]), [0, 1, 0]);
        assert_eq!((shrunk.answer(9, 2), shrunk.left.len()), (2, 2));
    }

    /// Every list of up to five entries, by every L up to its k: what is left, divided into its fewest groups and put back, has the list's fewest.
    #[test]
    fn every_small_list() {
        for n in 0..=5 {
            let pairs: Vec<(usize, usize)> = (0..n).flat_map(|i| (i + 1..n).map(move |j| (i, j))).collect();
            for set in 0..1u32 << pairs.len() {
                let clashes: Vec<(usize, usize)> = (0..pairs.len()).filter(|&p| set >> p & 1 == 1).map(|p| pairs[p]).collect();
                let rows = rows_of(n, &clashes);
                let k = colouring::fewest(&rows).k;
                for bound in 0..=k {
                    let shrunk = shrink(&rows, bound);
                    let division = colouring::fewest(&shrunk.rows(&rows));
                    let colours = shrunk.put_back(&rows, &division.colours);
                    assert_eq!(shrunk.answer(bound, division.k), k, "{rows:?} {bound}");
                    assert_eq!(groups(&colours), Ok(k), "{rows:?} {bound}");
                    assert!(is_clash_free(&rows, &colours), "{rows:?} {bound}");
                }
            }
        }
    }
}
