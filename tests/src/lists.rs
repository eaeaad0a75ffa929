//! The lists of tests/walks: random ones, and some of plain shape.

use bench::lists::{random, Numbers};
use second::matrix;

/// Random lists: entries, and the chance of a clash in a hundred. Each has its own seed, made of the two.
const RANDOM: [(usize, &[u64]); 6] = [
    (10, &[30, 70]),
    (20, &[10, 30, 50, 70, 90]),
    (30, &[10, 30, 50, 70, 90]),
    (40, &[10, 30, 50, 70, 90]),
    (50, &[10, 30, 50, 70, 90]),
    (64, &[3, 6, 10, 30, 50, 70, 90, 97]),
];

fn shaped() -> Vec<(&'static str, Vec<u64>)> {
    let pairs = |n: usize, clash: &dyn Fn(usize, usize) -> bool| {
        let all: Vec<(usize, usize)> = (0..n).flat_map(|i| (i + 1..n).map(move |j| (i, j))).filter(|&(i, j)| clash(i, j)).collect();
        matrix::rows_of(n, &all)
    };
    vec![
        // An odd and an even ring, and a ring around a hub.
        ("cycle31", pairs(31, &|i, j| j == i + 1 || (i, j) == (0, 30))),
        ("cycle64", pairs(64, &|i, j| j == i + 1 || (i, j) == (0, 63))),
        ("wheel30", pairs(30, &|i, j| i == 0 || j == i + 1 || (i, j) == (1, 29))),
        // Eight groups of eight: entries clash within their group only; or with all but their group.
        ("rooms64", pairs(64, &|i, j| i / 8 == j / 8)),
        ("teams64", pairs(64, &|i, j| i % 8 != j % 8)),
        // Two sides, each entry clashing with all but its partner on the other.
        ("partners64", pairs(64, &|i, j| i % 2 != j % 2 && i / 2 != j / 2)),
        // Entries that last five turns each, one beginning every turn.
        ("turns64", pairs(64, &|i, j| j - i < 5)),
        // Ten pairs of five helpers; two clash where they share a helper, or where they share none (Petersen).
        ("shared-helper10", helpers(|common| common > 0)),
        ("petersen10", helpers(|common| common == 0)),
    ]
}

fn helpers(clash: impl Fn(u32) -> bool) -> Vec<u64> {
    let pairs: Vec<u32> = (0..32).filter(|set: &u32| set.count_ones() == 2).collect();
    let all: Vec<(usize, usize)> =
        (0..10).flat_map(|i| (i + 1..10).map(move |j| (i, j))).filter(|&(i, j)| clash((pairs[i] & pairs[j]).count_ones())).collect();
    matrix::rows_of(10, &all)
}

/// Every list of tests/walks by its name.
pub fn all() -> Vec<(String, Vec<u64>)> {
    let mut lists: Vec<(String, Vec<u64>)> = shaped().into_iter().map(|(name, rows)| (name.to_string(), rows)).collect();
    for (n, chances) in RANDOM {
        for &percent in chances {
            let rows = random(&mut Numbers(n as u64 * 1000 + percent), n, percent);
            lists.push((format!("random{n}_{percent}"), rows));
        }
    }
    lists
}
