//! The two hand-written walks against document 01's table, each other, the second program and the listing of all divisions.

use bench::lists::{random, Numbers};
use bench::{described, tuned, Walk, Walked};
use second::matrix::{all_divisions, groups, is_clash_free, rows_of};
use second::{clique, colouring, Refusal, Refused};

use crate::cases;
use crate::inputs::list_of;

const BOUNDED: [Walk; 2] = [described::fewest, tuned::fewest];

fn complete(n: usize) -> Vec<u64> {
    (0..n).map(|i| (u64::MAX >> (64 - n)) & !(1 << i)).collect()
}

fn five_cycle() -> Vec<u64> {
    rows_of(5, &[(0, 1), (1, 2), (2, 3), (3, 4), (0, 4)])
}

fn spent(nodes: u64) -> Result<Walked, Refused> {
    Err(Refused { place: nodes, ..Refusal::Budget.bare() })
}

#[test]
fn the_papers_table() {
    let every: Vec<u8> = (0..64).collect();
    type Row<'a> = (Vec<u64>, u64, u64, Option<u64>, &'a [u8], u64);
    // Behind the paper's figures the clique, as a set.
    let table: [Row; 10] = [
        (vec![], 0, 1, Some(1), &[], 0),
        (vec![0], 1, 1, Some(1), &[0], 1),
        (vec![0, 0], 1, 3, Some(3), &[0, 0], 1),
        (vec![2, 1], 2, 1, Some(1), &[0, 1], 3),
        (vec![0; 3], 1, 5, Some(9), &[0, 0, 0], 1),
        (rows_of(3, &[(0, 1), (1, 2)]), 2, 3, Some(3), &[0, 1, 0], 3),
        (rows_of(4, &[(0, 1), (1, 2), (2, 3), (0, 3)]), 2, 5, Some(7), &[0, 1, 0, 1], 3),
        (five_cycle(), 3, 5, Some(21), &[0, 1, 0, 1, 2], 3),
        (complete(64), 64, 1, Some(1), &every, u64::MAX),
        (vec![0; 64], 1, 127, None, &[0; 64], 1),
    ];
    for (rows, k, nodes, twice_p_less_one, expected, clique) in table {
        for walk in BOUNDED {
            let mut colours = vec![0xA5; rows.len() + 2];
            assert_eq!(walk(&rows, &mut colours, u64::MAX), Ok(Walked { k, nodes, complete: 0, clique }));
            assert_eq!(&colours[..rows.len()], expected);
            assert_eq!(colours[rows.len()..], [0xA5; 2]);
        }
        if let Some(count) = twice_p_less_one {
            let walked = described::plain(&rows, &mut vec![0; rows.len()], u64::MAX);
            assert_eq!(walked, Ok(Walked { k, nodes: count, complete: count.div_ceil(2), clique }));
        }
    }
}

#[test]
fn the_papers_refusals() {
    for walk in [described::fewest, tuned::fewest, described::plain] {
        let mut colours = [0xA5; 70];
        assert_eq!(walk(&[], &mut colours, 0), spent(0));
        assert_eq!(walk(&[2], &mut colours, 9), Err(Refusal::Stray.at(0)));
        assert_eq!(walk(&[1], &mut colours, 9), Err(Refusal::Itself.at(0)));
        assert_eq!(walk(&[2, 0], &mut colours, 9), Err(Refusal::OneSided.at(0)));
        assert_eq!(walk(&[0; 65], &mut colours, 9), Err(Refusal::Many.bare()));
        assert_eq!(walk(&[0; 2], &mut colours[..1], 0), Err(Refusal::Short.bare()));
        assert_eq!(walk(&[0, 1], &mut [], 0), Err(Refusal::OneSided.at(1)));
        assert_eq!(colours, [0xA5; 70]);
    }
    for walk in BOUNDED {
        let mut colours = [0xA5; 5];
        assert_eq!(walk(&five_cycle(), &mut colours, 4), spent(4));
        assert_eq!(colours, [0xA5; 5]);
        assert!(walk(&five_cycle(), &mut colours, 5).is_ok());
    }
    let walked = described::plain(&five_cycle(), &mut [0; 5], 21);
    assert_eq!(walked, Ok(Walked { k: 3, nodes: 21, complete: 11, clique: 3 }));
    assert_eq!(described::plain(&five_cycle(), &mut [0; 5], 20), spent(20));
}

/// Both walks on one list: equal answers and colours, a clash-free division numbered by first use, and the budget exact to one node.
fn compared(rows: &[u64], budget: u64) -> Option<Walked> {
    let n = rows.len();
    let mut colours = vec![0xA5; n + 1];
    let mut again = colours.clone();
    let walked = described::fewest(rows, &mut colours, budget);
    assert_eq!(walked, tuned::fewest(rows, &mut again, budget), "{rows:?}");
    assert_eq!(colours, again, "{rows:?}");
    let Ok(walked) = walked else {
        assert!(colours.iter().all(|&b| b == 0xA5));
        return None;
    };
    assert!(is_clash_free(rows, &colours));
    assert_eq!(groups(&colours[..n]), Ok(walked.k as usize));
    assert_eq!(colours[n], 0xA5);
    assert_eq!(described::bounds(rows), tuned::bounds(rows));
    assert_eq!(tuned::fewest(rows, &mut again, walked.nodes), Ok(walked));
    assert_eq!(tuned::fewest(rows, &mut again, walked.nodes - 1), spent(walked.nodes - 1));
    Some(walked)
}

#[test]
fn every_list_of_up_to_six_entries() {
    for n in 0..=6 {
        let pairs: Vec<(usize, usize)> = (0..n).flat_map(|i| (i + 1..n).map(move |j| (i, j))).collect();
        for chosen in 0..1u32 << pairs.len() {
            let clashes: Vec<(usize, usize)> = pairs.iter().enumerate().filter(|(b, _)| chosen >> b & 1 == 1).map(|(_, &p)| p).collect();
            against_all_divisions(&rows_of(n, &clashes));
        }
    }
}

#[test]
fn small_lists_against_all_divisions() {
    let mut numbers = Numbers(21);
    for _ in 0..cases(1_500) {
        against_all_divisions(&list_of(&mut numbers, 9));
    }
}

/// k is the fewest of all divisions; the bounded walk has at most 2P - 1 nodes, the plain walk 2P - 1 and P complete graphs; no bound is above k.
fn against_all_divisions(rows: &[u64]) {
    let (p, fewest) = all_divisions(rows);
    let walked = compared(rows, 2 * p - 1).expect("2P - 1 is enough");
    assert_eq!(walked.k as usize, fewest);
    assert!(walked.nodes < 2 * p);
    let mut colours = vec![0; rows.len()];
    let plain = described::plain(rows, &mut colours, 2 * p - 1);
    assert_eq!(plain, Ok(Walked { k: walked.k, nodes: 2 * p - 1, complete: p, clique: clique::set(rows) }));
    assert!(is_clash_free(rows, &colours));
    assert_eq!(groups(&colours), Ok(fewest));
    let (clique, mycielskian) = described::bounds(rows).expect("a list");
    assert_eq!((clique, walked.clique), (clique::set(rows), clique));
    assert!(clique.count_ones() <= mycielskian && mycielskian as usize <= fewest);
}

#[test]
fn random_lists_against_the_second_program() {
    let mut numbers = Numbers(22);
    let mut ended = 0;
    for _ in 0..cases(4_000) {
        let rows = list_of(&mut numbers, 30);
        if let Some(walked) = compared(&rows, 3_000) {
            assert_eq!(walked.k as usize, colouring::fewest(&rows).k, "{rows:?}");
            ended += 1;
        }
    }
    assert!(ended > cases(3_500), "{ended}");
}

#[test]
fn long_lists_against_the_second_program() {
    let mut numbers = Numbers(23);
    let mut ended = 0;
    for percent in (0..=100).step_by(100 / cases(25)) {
        for n in [45, 55, 63, 64] {
            let rows = random(&mut numbers, n, percent);
            if let Some(walked) = compared(&rows, 4_000) {
                assert_eq!(walked.k as usize, colouring::fewest(&rows).k, "{rows:?}");
                ended += 1;
            }
        }
    }
    assert!(ended >= cases(20), "{ended}");
    assert_eq!(described::bounds(&complete(64)), Ok((u64::MAX, 64)));
}
