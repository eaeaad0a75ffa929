//! Shrinking before the walk: the proved library, through its C interface, against the second program's shrinking around the walk that is written straight
//! from document 01.

use bench::lists::{random, Numbers};
use bench::{described, shrunk};
use second::colouring;
use second::matrix::{all_divisions, groups, is_clash_free, rows_of};
use second::shrink::{shrink, Rule};

use crate::calls;
use crate::inputs::list_of;
use crate::proved::same;
use crate::stored::{lines, stored};
use crate::{cases, BUDGET};

fn compared(rows: &[u64], room: usize, budget: u64) -> [u64; 6] {
    same(calls::fewest_shrunk, shrunk, rows, room, budget)
}

/// Every list of up to six entries: the fewest of all divisions, at most 2P - 1 nodes, and a budget that is exact to one node.
#[test]
fn every_list_of_up_to_six_entries() {
    let mut walked = 0;
    for n in 0..=6 {
        let pairs: Vec<(usize, usize)> = (0..n).flat_map(|i| (i + 1..n).map(move |j| (i, j))).collect();
        for chosen in 0..1u32 << pairs.len() {
            let clashes: Vec<(usize, usize)> = pairs.iter().enumerate().filter(|(b, _)| chosen >> b & 1 == 1).map(|(_, &p)| p).collect();
            let rows = rows_of(n, &clashes);
            let said = compared(&rows, n, BUDGET);
            let (p, fewest) = all_divisions(&rows);
            assert_eq!(said[..3], [0, 0, fewest as u64], "{rows:?}");
            assert!(said[3] < 2 * p, "{rows:?}");
            if said[3] > 1 {
                assert_eq!(compared(&rows, n, said[3] - 1)[0], 6, "{rows:?}");
                assert_eq!(compared(&rows, n + 1, said[3])[0], 0, "{rows:?}");
                walked += 1;
            }
        }
    }
    // Few lists that are so short have anything left to split: in the octahedron's kin, and rings of five and six.
    assert_eq!(walked, 200);
}

/// A random list of up to `most` entries: mostly one of any density; or a sparse one, of which much goes.
fn listed(drawn: &mut Numbers, most: usize) -> Vec<u64> {
    if drawn.below(3) > 0 {
        return list_of(drawn, most);
    }
    let (n, percent) = (drawn.below(most as u64 + 1) as usize, drawn.below(20));
    random(drawn, n, percent)
}

/// Random lists, of which the walk over what is left is long or short, or the budget ends it: k, nodes, colours; k is the second program's and the walk's.
#[test]
fn random_lists() {
    let mut drawn = Numbers(51);
    let (mut both, mut split, mut above, mut other, mut spent) = (0, 0, 0, 0, 0);
    for _ in 0..cases(6_000) {
        let most = [9, 16, 30, 40][drawn.below(4) as usize];
        let rows = listed(&mut drawn, most);
        let n = rows.len();
        let said = compared(&rows, n + drawn.below(3) as usize, 300);
        if said[0] == 6 {
            spent += 1;
            continue;
        }
        assert_eq!(said[..3], [0, 0, colouring::fewest(&rows).k as u64], "{rows:?}");
        let bound = described::bounds(&rows).expect("a list").1;
        let left = shrink(&rows, bound as usize);
        let firsts = left.gone.iter().filter(|(_, rule)| *rule != Rule::Second).count();
        let (mut colours, mut walked) = (vec![0; n], vec![0; n]);
        calls::fewest_shrunk(&rows, &mut colours, BUDGET);
        assert!(is_clash_free(&rows, &colours), "{rows:?}");
        assert_eq!(groups(&colours), Ok(said[2] as usize), "{rows:?}");
        if calls::fewest(&rows, &mut walked, 1_000)[0] == 0 {
            other += usize::from(colours != walked);
        }
        both += usize::from(firsts > 0 && firsts < left.gone.len());
        above += usize::from(said[2] > u64::from(bound));
        if said[3] > 1 {
            split += usize::from(!left.gone.is_empty());
            assert_eq!(compared(&rows, n, said[3] - 1)[0], 6);
            compared(&rows, n, drawn.below(said[3]));
        }
    }
    assert!(
        both > cases(2_000) && split > cases(500) && above > cases(300) && other > cases(1_000) && spent > cases(50),
        "{both} {split} {above} {other} {spent}"
    );
}

/// Long lists of every density, up to 300 nodes of each.
#[test]
fn long_lists() {
    let mut drawn = Numbers(52);
    for n in [40, 55, 63, 64] {
        for percent in [0, 1, 3, 6, 10, 50, 90, 95, 97, 99, 100] {
            compared(&random(&mut drawn, n, percent), 64, 300);
        }
    }
}

/// The stored lists, of which the file `shrunk` has those whose walk over what is left ends within the budget. The slowest, of which nothing went, are left to
/// the bench.
#[test]
fn stored_lists() {
    let figures = lines("shrunk");
    let walked = lines("expected");
    let mut fewer = 0;
    for (name, k, nodes) in &figures {
        let rows = stored(name);
        let before = walked.iter().find(|(known, _, _)| known == name);
        assert!(before.map_or(true, |(_, known, _)| known == k), "{name}");
        if *nodes < 10_000 || *nodes < 100_000 && before.map_or(true, |(_, _, before)| before != nodes) {
            let said = compared(&rows, rows.len(), BUDGET);
            assert_eq!(said[..4], [0, 0, *k, *nodes], "{name}");
            fewer += usize::from(before.map_or(true, |(_, _, before)| before > nodes));
        }
    }
    assert!(figures.len() > walked.len() && fewer > 20, "{fewer}");
}

/// Where shrinking decides: the walk spends its budget on each of these.
#[test]
fn where_it_decides() {
    let refused = lines("refused");
    for (name, k, nodes) in [("myciel5", 6, 82_763), ("2-FullIns_3", 5, 1)] {
        assert!(refused.iter().any(|(known, _, _)| known == name), "{name}");
        let rows = stored(name);
        let mut colours = vec![0; rows.len()];
        assert_eq!(calls::fewest_shrunk(&rows, &mut colours, nodes)[..5], [0, 0, k, nodes, 0], "{name}");
        assert_eq!((is_clash_free(&rows, &colours), groups(&colours)), (true, Ok(k as usize)), "{name}");
        assert_eq!(calls::fewest_shrunk(&rows, &mut colours, nodes - 1), [6, 0, 0, nodes - 1, 0, 0], "{name}");
    }
}
