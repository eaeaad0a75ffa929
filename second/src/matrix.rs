//! The lent matrix: row i is a 64-bit number whose bit j says that i and j clash.

use crate::{Refusal, Refused, ENTRIES};

/// Whether row `i` has bit `j`.
pub fn has(rows: &[u64], i: usize, j: usize) -> bool {
    rows[i] >> j & 1 == 1
}

/// The list of `n` entries with these clashes, counted from 0.
pub fn rows_of(n: usize, clashes: &[(usize, usize)]) -> Vec<u64> {
    let mut rows = vec![0; n];
    for &(i, j) in clashes {
        rows[i] |= 1 << j;
        rows[j] |= 1 << i;
    }
    rows
}

/// 1 to 4 in their order, each over all rows before the next.
pub fn judge(rows: &[u64]) -> Result<(), Refused> {
    let n = rows.len();
    if n > ENTRIES {
        return Err(Refusal::Many.bare());
    }
    let lowest = |why: Refusal, at_fault: &dyn Fn(usize) -> bool| match (0..n).find(|&i| at_fault(i)) {
        Some(i) => Err(why.at(i)),
        None => Ok(()),
    };
    lowest(Refusal::Stray, &|i| (n..64).any(|j| has(rows, i, j)))?;
    lowest(Refusal::Itself, &|i| has(rows, i, i))?;
    lowest(Refusal::OneSided, &|i| (0..n).any(|j| has(rows, i, j) && !has(rows, j, i)))
}

/// Whether these colour bytes divide the list without a clash inside a group.
pub fn is_clash_free(rows: &[u64], colours: &[u8]) -> bool {
    (0..rows.len()).all(|i| (0..i).all(|j| !has(rows, i, j) || colours[i] != colours[j]))
}

/// The number of groups where colour bytes are numbered by first use from 0; otherwise the lowest index that is not.
pub fn groups(colours: &[u8]) -> Result<usize, usize> {
    let mut used = 0;
    for (i, &colour) in colours.iter().enumerate() {
        match usize::from(colour) {
            group if group > used => return Err(i),
            group if group == used => used += 1,
            _ => {}
        }
    }
    Ok(used)
}

/// P and the fewest groups, by listing every clash-free division: for small lists only.
pub fn all_divisions(rows: &[u64]) -> (u64, usize) {
    fn place(rows: &[u64], colours: &mut Vec<usize>, used: usize, count: &mut u64, fewest: &mut usize) {
        let i = colours.len();
        if i == rows.len() {
            *count += 1;
            *fewest = used.min(*fewest);
            return;
        }
        for group in 0..=used {
            if (0..i).all(|j| colours[j] != group || !has(rows, i, j)) {
                colours.push(group);
                place(rows, colours, used.max(group + 1), count, fewest);
                colours.pop();
            }
        }
    }
    let (mut count, mut fewest) = (0, rows.len());
    place(rows, &mut Vec::new(), 0, &mut count, &mut fewest);
    (count, fewest)
}

#[cfg(test)]
mod tests {
    use super::*;

    #[test]
    fn the_papers_refusals() {
        assert_eq!(judge(&[2]), Err(Refusal::Stray.at(0)));
        assert_eq!(judge(&[1]), Err(Refusal::Itself.at(0)));
        assert_eq!(judge(&[2, 0]), Err(Refusal::OneSided.at(0)));
        assert_eq!(judge(&[0, 1]), Err(Refusal::OneSided.at(1)));
        assert_eq!(judge(&[0; 65]), Err(Refusal::Many.bare()));
    }

    #[test]
    fn each_over_all_rows_before_the_next() {
        assert_eq!(judge(&[1, 4]), Err(Refusal::Stray.at(1)));
        assert_eq!(judge(&[2, 2]), Err(Refusal::Itself.at(1)));
        assert_eq!(judge(&[u64::MAX; 65]), Err(Refusal::Many.bare()));
        assert_eq!(judge(&[u64::MAX; 64]), Err(Refusal::Itself.at(0)));
        assert_eq!(judge(&[]), Ok(()));
        let all: Vec<u64> = (0..64).map(|i| !(1u64 << i)).collect();
        assert_eq!(judge(&all), Ok(()));
        let mut one_sided = all.clone();
        one_sided[63] = 0;
        assert_eq!(judge(&one_sided), Err(Refusal::OneSided.at(0)));
    }

    #[test]
    fn numbered_by_first_use() {
        assert_eq!(groups(&[]), Ok(0));
        assert_eq!(groups(&[0, 1, 0, 1, 2]), Ok(3));
        assert_eq!(groups(&[1]), Err(0));
        assert_eq!(groups(&[0, 0, 2, 9]), Err(2));
        assert_eq!(groups(&[0, 255]), Err(1));
    }

    #[test]
    fn divisions_listed() {
        let five_cycle = rows_of(5, &[(0, 1), (1, 2), (2, 3), (3, 4), (0, 4)]);
        assert_eq!(all_divisions(&five_cycle), (11, 3));
        let bell: Vec<u64> = (0..8).map(|n| all_divisions(&vec![0; n]).0).collect();
        assert_eq!(bell, [1, 1, 2, 5, 15, 52, 203, 877]);
        assert_eq!(all_divisions(&[]), (1, 0));
    }
}
