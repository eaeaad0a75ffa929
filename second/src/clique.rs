//! The clique of a list by document 01's rule, over lists of members.

use crate::matrix::has;

/// "Take vertices by rising number. Add each to every clique on hand that admits it; if none does, open a new one. Take all vertices once more in the same
/// order and add each to every clique that admits it. The largest counts, the earliest opened on a tie." By rising number; the empty list has none.
pub fn members(rows: &[u64]) -> Vec<usize> {
    let mut cliques: Vec<Vec<usize>> = Vec::new();
    for pass in [1, 2] {
        for v in 0..rows.len() {
            let mut admitted = false;
            for clique in &mut cliques {
                if clique.iter().all(|&member| member != v && has(rows, member, v)) {
                    clique.push(v);
                    admitted = true;
                }
            }
            if pass == 1 && !admitted {
                cliques.push(vec![v]);
            }
        }
    }
    let most = cliques.iter().map(Vec::len).max().unwrap_or(0);
    let mut largest = cliques.into_iter().find(|clique| clique.len() == most).unwrap_or_default();
    largest.sort_unstable();
    largest
}

/// The same as a 64-bit set.
pub fn set(rows: &[u64]) -> u64 {
    members(rows).iter().map(|&member| 1 << member).sum()
}

#[cfg(test)]
mod tests {
    use super::*;
    use crate::matrix::rows_of;

    #[test]
    fn by_the_rule() {
        assert_eq!(members(&[]), []);
        assert_eq!(members(&[0]), [0]);
        assert_eq!(members(&[0, 0]), [0]);
        assert_eq!(members(&rows_of(5, &[(0, 1), (1, 2), (2, 3), (3, 4), (0, 4)])), [0, 1]);
        let all: Vec<u64> = (0..64).map(|i| !(1u64 << i)).collect();
        assert_eq!(set(&all), u64::MAX);
    }

    #[test]
    fn both_passes_and_ties() {
        // 2 enters the cliques of 0 and of 1, and 3 that of 1.
        assert_eq!(members(&rows_of(4, &[(0, 2), (1, 2), (1, 3), (2, 3)])), [1, 2, 3]);
        // 2 opens a clique, which 3 enters; the second pass takes 1 into it.
        assert_eq!(members(&rows_of(4, &[(0, 1), (1, 2), (1, 3), (2, 3)])), [1, 2, 3]);
        // Two triangles: the one opened first.
        assert_eq!(members(&rows_of(6, &[(3, 4), (4, 5), (3, 5), (0, 1), (1, 2), (0, 2)])), [0, 1, 2]);
        // A pair that is opened first, and a triangle.
        assert_eq!(members(&rows_of(5, &[(0, 1), (2, 3), (3, 4), (2, 4)])), [2, 3, 4]);
        // The rule misses the triangle 3, 4, 5, whose members each enter the clique of another.
        assert_eq!(members(&rows_of(6, &[(0, 3), (1, 4), (2, 5), (3, 4), (4, 5), (3, 5)])), [0, 3]);
    }
}
