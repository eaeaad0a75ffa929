//! Document 02's search that never merges (Ask 6), straight from its words: no bit sets, no recursion. What is still to be entered waits on a pile of
//! placings, the next on top; a placing that is entered and not gone back from puts the next entry's placings there.

use crate::matrix::{has, judge};
use crate::{Refusal, Refused};

/// An accepted answer: k, the nodes entered, and colours numbered by first use.
#[derive(Clone, Debug, PartialEq, Eq)]
pub struct Placed {
    pub k: usize,
    pub nodes: u64,
    pub colours: Vec<u8>,
}

/// The groups of a placing, each a list of its entries, in the order of their first ones.
type Groups = Vec<Vec<usize>>;

/// "put each into every group that admits it, in group order, and last into a new one"
fn placings(rows: &[u64], entry: usize, groups: &Groups) -> Vec<Groups> {
    let admits = |group: &Vec<usize>| group.iter().all(|&other| !has(rows, entry, other));
    let into = |g: usize| {
        let mut placed = groups.clone();
        placed[g].push(entry);
        placed
    };
    let mut found: Vec<Groups> = (0..groups.len()).filter(|&g| admits(&groups[g])).map(into).collect();
    let mut last = groups.clone();
    last.push(vec![entry]);
    found.push(last);
    found
}

/// The fewest groups, for a buffer of `room` colour bytes and a budget of nodes. Refusals: 1 to 5 and then 6.
pub fn fewest(rows: &[u64], room: usize, budget: u64) -> Result<Placed, Refused> {
    judge(rows)?;
    let n = rows.len();
    if room < n {
        return Err(Refusal::Short.bare());
    }
    // "Start from n groups as the walk does."
    let mut best: Groups = (0..n).map(|i| vec![i]).collect();
    let mut nodes = 0;
    let mut waiting: Vec<Groups> = vec![vec![]];
    while let Some(groups) = waiting.pop() {
        if nodes == budget {
            return Err(Refusal::Budget.at(budget as usize));
        }
        // "one node for the empty start and one for each placing, those that go back at once included"
        nodes += 1;
        // "On entering a node, and only then, go back if the groups reach the best size known"
        if groups.len() >= best.len() {
            continue;
        }
        // "take entries in number order"
        let entry: usize = groups.iter().map(Vec::len).sum();
        if entry == n {
            // "a full placing below it becomes the best"
            best = groups;
        } else {
            waiting.extend(placings(rows, entry, &groups).into_iter().rev());
        }
    }
    let mut colours = vec![0; n];
    for (number, group) in best.iter().enumerate() {
        for &entry in group {
            colours[entry] = number as u8;
        }
    }
    Ok(Placed { k: best.len(), nodes, colours })
}

#[cfg(test)]
mod tests {
    use super::*;
    use crate::matrix::{all_divisions, groups, is_clash_free, rows_of};
    use crate::{colouring, ENTRIES};

    fn found(rows: &[u64]) -> (usize, u64, Vec<u8>) {
        let placed = fewest(rows, ENTRIES, u64::MAX).expect("a list");
        (placed.k, placed.nodes, placed.colours)
    }

    #[test]
    fn counted_by_hand() {
        assert_eq!(found(&[]), (0, 1, vec![]));
        assert_eq!(found(&[0]), (1, 2, vec![0]));
        // the start; 0; 0 0 (best); 0 1 (goes back)
        assert_eq!(found(&[0, 0]), (1, 4, vec![0, 0]));
        // the start; 0; 0 1 (goes back: two groups reach two)
        assert_eq!(found(&[2, 1]), (2, 3, vec![0, 1]));
        // the start; 0; 0 0; 0 0 0 (best); 0 0 1 (goes back, entered by the node above all the same); 0 1 (goes back)
        assert_eq!(found(&[0; 3]), (1, 6, vec![0; 3]));
        // the start; 0; 0 1; 0 1 0 (best); 0 1 2 (goes back)
        assert_eq!(found(&rows_of(3, &[(0, 1), (1, 2)])), (2, 5, vec![0, 1, 0]));
        // the start; 0; 0 0; 0 0 1; 0 0 1 2 (best, three groups); 0 1; 0 1 1; 0 1 1 0 (best, two groups); 0 1 1 2 and 0 1 2 (go back)
        assert_eq!(found(&rows_of(4, &[(0, 2), (2, 3), (1, 3)])), (2, 10, vec![0, 1, 1, 0]));
        let five_cycle = rows_of(5, &[(0, 1), (1, 2), (2, 3), (3, 4), (0, 4)]);
        assert_eq!(found(&five_cycle), (3, 8, vec![0, 1, 0, 1, 2]));
    }

    fn queens(side: usize) -> Vec<u64> {
        let squares: Vec<(usize, usize)> = (0..side * side).map(|i| (i / side, i % side)).collect();
        let meet = |(a, b): (usize, usize), (c, d): (usize, usize)| a == c || b == d || a.abs_diff(c) == b.abs_diff(d);
        let pairs = (0..squares.len()).flat_map(|i| (i + 1..squares.len()).map(move |j| (i, j)));
        rows_of(squares.len(), &pairs.filter(|&(i, j)| meet(squares[i], squares[j])).collect::<Vec<_>>())
    }

    #[test]
    fn queens_of_seven() {
        let (k, nodes, colours) = found(&queens(7));
        assert_eq!((k, nodes), (7, 239_329));
        assert_eq!(groups(&colours), Ok(7));
    }

    #[test]
    fn refusals_in_their_order() {
        assert_eq!(fewest(&[0; 65], 0, 0), Err(Refusal::Many.bare()));
        assert_eq!(fewest(&[0, 4], 0, 0), Err(Refusal::Stray.at(1)));
        assert_eq!(fewest(&[0, 2], 0, 0), Err(Refusal::Itself.at(1)));
        assert_eq!(fewest(&[2, 0], 0, 0), Err(Refusal::OneSided.at(0)));
        assert_eq!(fewest(&[2, 1], 1, 0), Err(Refusal::Short.bare()));
        assert_eq!(fewest(&[], 0, 0), Err(Refusal::Budget.at(0)));
        assert_eq!(fewest(&[2, 1], 2, 2), Err(Refusal::Budget.at(2)));
        assert!(fewest(&[2, 1], 2, 3).is_ok());
    }

    #[test]
    fn small_lists_against_the_other_ways() {
        // every list of up to five entries
        for n in 0..=5 {
            let pairs: Vec<(usize, usize)> = (0..n).flat_map(|i| (i + 1..n).map(move |j| (i, j))).collect();
            for set in 0..1u32 << pairs.len() {
                let clashes: Vec<(usize, usize)> = (0..pairs.len()).filter(|&p| set >> p & 1 == 1).map(|p| pairs[p]).collect();
                let rows = rows_of(n, &clashes);
                let (k, nodes, colours) = found(&rows);
                assert_eq!((k, k), (all_divisions(&rows).1, colouring::fewest(&rows).k), "{rows:?}");
                assert_eq!(groups(&colours), Ok(k));
                assert!(is_clash_free(&rows, &colours), "{rows:?}");
                assert_eq!(fewest(&rows, n, nodes - 1), Err(Refusal::Budget.at(nodes as usize - 1)));
            }
        }
    }
}
