//! What is stored under tests/walks of the lists there, of tests/graphs and of examples.

use std::fs;
use std::path::{Path, PathBuf};

use bench::lists::{load, Numbers};
use bench::{described, tuned};
use second::matrix::{has, rows_of};
use second::{colouring, list, sheet};

use crate::{lists, BUDGET};

fn folder(name: &str) -> PathBuf {
    Path::new(env!("CARGO_MANIFEST_DIR")).join(name)
}

/// The file of a stored list by its name.
fn path(name: &str) -> PathBuf {
    let path = ["graphs", "walks", "../examples"].iter().map(|place| folder(place).join(format!("{name}.col"))).find(|path| path.exists());
    path.unwrap_or_else(|| panic!("no list {name}"))
}

/// A stored list by its name.
pub fn stored(name: &str) -> Vec<u64> {
    load(&path(name)).expect("a list")
}

/// The stored lists that list an edge twice, and the line of the first that stands a second time.
pub fn repeated() -> Vec<(String, usize)> {
    lines("repeats").into_iter().map(|(name, _, line)| (name, line as usize)).collect()
}

/// The text of a stored list by its name.
pub fn text(name: &str) -> Vec<u8> {
    fs::read(path(name)).expect("stored")
}

/// What `slotsheet` prints for a stored list.
pub fn printed(name: &str) -> Vec<u8> {
    fs::read(folder("walks/sheets").join(name)).expect("stored")
}

/// Lines "NAME NUMBER NUMBER".
pub fn lines(file: &str) -> Vec<(String, u64, u64)> {
    let text = fs::read_to_string(folder("walks").join(file)).expect("stored");
    let line = |line: &str| match line.split(' ').collect::<Vec<_>>()[..] {
        [name, first, second] => (name.to_string(), first.parse().unwrap(), second.parse().unwrap()),
        _ => panic!("{line}"),
    };
    text.lines().map(line).collect()
}

/// k as it is known: of Mycielski's graphs, their kin and the queens' as published; of Kneser's (petersen10, johnson8-2-4) by Lovasz; of the
/// complement of a cube (hamming6-2) by a perfect matching.
#[rustfmt::skip]
const KNOWN: [(&str, usize); 20] = [
    ("myciel3", 4), ("myciel4", 5), ("myciel4-comments", 5), ("johnson8-2-4-comments", 6), ("myciel5", 6), ("queen5_5", 5), ("queen5_5-once", 5), ("queen6_6", 7), ("queen7_7", 7),
    ("queen8_8", 9), ("1-FullIns_3", 4), ("2-FullIns_3", 5), ("1-Insertions_3", 4), ("2-Insertions_3", 4), ("3-Insertions_3", 4),
    ("johnson8-2-4", 6), ("hamming6-2", 32), ("edgeless64", 1), ("complete64", 64), ("petersen10", 3),
];

#[test]
fn public_graphs() {
    for (name, k) in KNOWN {
        assert_eq!(colouring::fewest(&stored(name)).k, k, "{name}");
    }
}

/// The same list with its entries numbered in another order.
fn renumbered(rows: &[u64], numbers: &mut Numbers) -> Vec<u64> {
    let mut order: Vec<usize> = (0..rows.len()).collect();
    for i in (1..order.len()).rev() {
        order.swap(i, numbers.below(i as u64 + 1) as usize);
    }
    let clashes: Vec<(usize, usize)> = (0..rows.len())
        .flat_map(|i| (0..i).map(move |j| (i, j)))
        .filter(|&(i, j)| has(rows, i, j))
        .map(|(i, j)| (order[i], order[j]))
        .collect();
    rows_of(rows.len(), &clashes)
}

/// Renumbering the entries leaves k, whatever the second program's choices then are.
#[test]
fn renumbered_graphs() {
    let mut numbers = Numbers(31);
    let slow = ["myciel5", "queen8_8", "3-Insertions_3"];
    let known = KNOWN.into_iter().filter(|(name, _)| !slow.contains(name));
    for (name, k) in known.chain([("hamming6-4", 7)]) {
        let rows = stored(name);
        for _ in 0..8 {
            assert_eq!(colouring::fewest(&renumbered(&rows, &mut numbers)).k, k, "{name}");
        }
    }
}

/// On Mycielski's graphs the Mycielskian bound is k from a clique of two.
#[test]
fn bounds_of_public_graphs() {
    for (name, clique, mycielskian) in [
        ("myciel3", 2, 4),
        ("myciel4", 2, 5),
        ("myciel5", 2, 6),
        ("queen5_5", 5, 5),
        ("queen6_6", 6, 6),
        ("edgeless64", 1, 1),
        ("complete64", 64, 64),
    ] {
        let rows = stored(name);
        let members = second::clique::set(&rows);
        assert_eq!(members.count_ones(), clique, "{name}");
        assert_eq!(described::bounds(&rows), Ok((members, mycielskian)), "{name}");
        assert_eq!(tuned::bounds(&rows), Ok((members, mycielskian)), "{name}");
    }
}

#[test]
fn lists_are_those_made() {
    for (name, rows) in lists::all() {
        let text = fs::read_to_string(folder("walks").join(format!("{name}.col"))).expect("stored");
        assert_eq!(text, list::text_of(&rows), "{name}");
    }
}

/// Which lists list an edge twice, and where: by the text alone, word for word. The queens' and two camps list each edge both ways.
#[test]
fn repeats_are_those_listed() {
    let mut found = Vec::new();
    for (name, _, _) in lines("expected").into_iter().chain(lines("refused")) {
        let text = String::from_utf8_lossy(&text(&name)).into_owned();
        let mut edges = Vec::new();
        let line = text.lines().position(|line| {
            let words: Vec<&str> = line.split(' ').collect();
            let [_, u, v] = words[..] else { return false };
            let edge = [u.min(v).to_string(), u.max(v).to_string()];
            let again = line.starts_with("e ") && edges.contains(&edge);
            edges.push(edge);
            again
        });
        found.extend(line.map(|before| (name, before + 1)));
    }
    found.sort();
    assert_eq!(found, repeated());
    let names: Vec<&str> = found.iter().map(|(name, _)| name.as_str()).collect();
    assert_eq!(names, ["queen5_5", "queen6_6", "queen7_7", "queen8_8", "riding-camp", "sailing-camp"]);
    for name in names {
        let text = String::from_utf8(text(name)).expect("letters");
        let edges: Vec<Vec<&str>> = text.lines().filter(|line| line.starts_with("e ")).map(|line| line[2..].split(' ').collect()).collect();
        assert!(edges.iter().all(|edge| edges.contains(&vec![edge[1], edge[0]])), "{name}");
    }
}

#[test]
fn walks_that_end() {
    let expected = lines("expected");
    assert!(expected.len() >= 24);
    for (name, k, nodes) in expected {
        let rows = stored(&name);
        let mut colours = vec![0; rows.len()];
        let walked = described::fewest(&rows, &mut colours, BUDGET).unwrap_or_else(|refused| panic!("{name}: {refused:?}"));
        assert_eq!((walked.k, walked.nodes), (k, nodes), "{name}");
        let mut out = [0; 1024];
        let length = sheet::write(&colours, &mut out).expect("a division");
        assert_eq!(printed(&name), &out[..length], "{name}");
        let mut checked = vec![0; rows.len()];
        assert_eq!(sheet::check(list::text_of(&rows).as_bytes(), &out[..length], &mut checked), Ok(k as usize), "{name}");
        assert_eq!(checked, colours, "{name}");
    }
}

#[test]
fn walks_that_do_not_end() {
    for (name, number, nodes) in lines("refused") {
        let rows = stored(&name);
        let refused = tuned::fewest(&rows, &mut vec![0; rows.len()], BUDGET).expect_err(&name);
        assert_eq!((refused.why.number(), refused.place), (number, nodes), "{name}");
        assert_eq!(printed(&name), b"refused 6 line 0\n", "{name}");
    }
}
