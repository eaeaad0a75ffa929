//! `bench`: speed of the walks, the bounds and the reader on lists from sparse to dense.
//!
//!     bench TESTS
//!
//! TESTS is the folder with `graphs` and `walks`. All walks are run in turns, for processor time, with slotsheet's budget; their answers are
//! compared, and a difference ends the run. A word after TESTS, as in `bench TESTS queen`, leaves only the lists whose names have it.
//! With the feature `proved` the proved library stands beside the hand-written walks, called through its C interface; with `pair_choice` its pair
//! choice is called alone too.
//!
//!     bench TESTS once LIST WALK BUDGET
//!
//! walks one list once and prints the nodes entered, for a program that counts instructions.

mod clock;
#[cfg(feature = "proved")]
mod proved;

use std::path::{Path, PathBuf};
use std::process::ExitCode;

use bench::lists::load;
use bench::{described, placed, reading, shrunk, tuned, Walk};
use clock::seconds;
use second::{colouring, list, sheet, Refused};

/// The walks side by side. Each is measured against those before it.
const WALKS: &[(&str, Walk)] = &[
    ("plain", described::fewest),
    ("tuned", tuned::fewest),
    #[cfg(feature = "proved")]
    ("proved", proved::fewest),
];

/// The searches by placing, which have counts of their own: the second program's, and the proved one.
const PLACINGS: &[(&str, Walk)] = &[
    ("second", placed),
    #[cfg(feature = "proved")]
    ("placing", proved::fewest_by_placing),
];

/// The walks over a shrunk list, which have counts of their own: the second program's shrinking around the plain walk, and the proved one.
const SHRUNK: &[(&str, Walk)] = &[
    ("second", shrunk),
    #[cfg(feature = "proved")]
    ("shrunk", proved::fewest_shrunk),
];

type Bounds = fn(&[u64]) -> Result<(u64, u32), Refused>;

/// The clique of a list and its Mycielskian bound, by whom.
const BOUNDS: &[(&str, Bounds)] = &[
    ("plain", described::bounds),
    ("tuned", tuned::bounds),
    #[cfg(feature = "proved")]
    ("proved", proved::bounds),
];

type Reader = fn(&[u8], &mut [u64]) -> Result<usize, Refused>;

/// Readers of a clash text: by lines and words, in one pass, and the proved one; each with its plain reading and the one of repeats.
const READERS: &[(&str, [Reader; 2])] = &[
    ("read, words", [list::read, list::read_repeats]),
    ("read, 1 pass", [reading::read, reading::read_repeats]),
    #[cfg(feature = "proved")]
    ("read, proved", [proved::read, proved::read_repeats]),
];

type Checker = fn(&[u8], &[u8], &mut [u8]) -> Option<usize>;

/// Checks of a sheet against its list, by both readings: k of an accepted one.
const CHECKERS: &[(&str, [Checker; 2])] = &[
    (
        "check, words",
        [
            |list, sheet, colours| sheet::check(list, sheet, colours).ok(),
            |list, sheet, colours| sheet::check_by(list::read_repeats, list, sheet, colours).ok(),
        ],
    ),
    #[cfg(feature = "proved")]
    ("check, proved", [proved::check, proved::check_repeats]),
];

/// The budget of `slotsheet`.
const BUDGET: u64 = 1_000_000;

/// Lists from sparse to dense, 20 to 64 entries.
#[rustfmt::skip]
const LISTS: [&str; 32] = [
    "1-FullIns_3", "2-Insertions_3", "3-Insertions_3", "myciel4", "myciel5", "queen5_5", "queen6_6", "queen7_7", "queen8_8", "johnson8-2-4",
    "hamming6-4", "random20_10", "random20_50", "random20_90", "random30_10", "random30_30", "random30_50", "random30_70", "random30_90",
    "random40_10", "random40_30", "random40_50", "random40_70", "random40_90", "random50_30", "random50_70", "random64_6", "random64_30",
    "random64_50", "random64_70", "random64_90", "complete64",
];

/// Sparse, middle and dense lists with long walks: bench/functions has the same.
#[cfg(feature = "pair_choice")]
#[rustfmt::skip]
const SPREAD: [&str; 9] = [
    "random64_6", "random40_10", "3-Insertions_3", "random40_30", "queen8_8", "random64_50", "random40_70", "random64_70", "random64_90",
];

/// A list of the tests by its name.
fn named(tests: &Path, name: &str) -> Vec<u64> {
    let path = ["graphs", "walks"].iter().map(|place| tests.join(place).join(format!("{name}.col"))).find(|path| path.exists());
    load(&path.unwrap_or_else(|| panic!("no list {name}"))).unwrap_or_else(|error| panic!("{error}"))
}

/// The share of pairs that clash, in a hundred.
fn density(rows: &[u64]) -> u32 {
    let ones: u32 = rows.iter().map(|row| row.count_ones()).sum();
    let pairs = (rows.len() * rows.len().saturating_sub(1)).max(1) as u32;
    (100 * ones + pairs / 2) / pairs
}

fn geometric_mean(ratios: &[f64]) -> f64 {
    (ratios.iter().map(|ratio| ratio.ln()).sum::<f64>() / ratios.len() as f64).exp()
}

/// Keeps the compiler from leaving a call out.
fn discard<T>(answer: T) {
    std::hint::black_box(answer);
}

/// One line of a table, the first column wide.
fn row(cells: &[String]) {
    let rest: String = cells[1..].iter().map(|cell| format!(" {cell:>12}")).collect();
    println!("{:<16}{rest}", cells[0]);
}

/// What all these walks answer on a list: k or "over", and nodes; none where they differ.
fn answered(walks: &[(&str, Walk)], rows: &[u64]) -> Option<(String, u64)> {
    let answer = |walk: Walk| {
        let mut colours = vec![0; rows.len()];
        (walk(rows, &mut colours, BUDGET), colours)
    };
    let first = answer(walks[0].1);
    if walks[1..].iter().any(|(_, walk)| answer(*walk) != first) {
        return None;
    }
    Some(match first.0 {
        Ok(walked) => (walked.k.to_string(), walked.nodes),
        Err(refused) => ("over".into(), refused.place),
    })
}

/// Seconds of each of these walks on a list.
fn walked(walks: &[(&str, Walk)], rows: &[u64]) -> Vec<f64> {
    let call = |(_, walk): &(&str, Walk)| {
        let walk = *walk;
        let mut colours = vec![0; rows.len()];
        move || discard(walk(rows, &mut colours, BUDGET))
    };
    let mut calls: Vec<_> = walks.iter().map(call).collect();
    let mut calls: Vec<&mut dyn FnMut()> = calls.iter_mut().map(|call| call as &mut dyn FnMut()).collect();
    seconds(&mut calls, 0.3)
}

/// Pairs of walks, the later measured against the earlier.
fn pairs() -> Vec<(usize, usize)> {
    (0..WALKS.len()).flat_map(|later| (0..later).map(move |earlier| (later, earlier))).collect()
}

fn ratio_name((later, earlier): (usize, usize)) -> String {
    format!("{}/{}", WALKS[later].0, WALKS[earlier].0)
}

/// Nodes per second of every walk on every list that `word` names. False where answers differ.
fn walks(tests: &Path, word: &str) -> bool {
    println!("Walks: thousand nodes per second of processor time, budget {BUDGET}; k is 'over' where the budget is spent");
    let mut head: Vec<String> = ["list", "entries", "density %", "k", "nodes"].map(String::from).to_vec();
    head.extend(WALKS.iter().map(|(name, _)| name.to_string()));
    head.extend(pairs().into_iter().map(ratio_name));
    head.push("second ms".into());
    row(&head);
    let mut ratios = vec![Vec::new(); pairs().len()];
    for name in LISTS.iter().filter(|name| name.contains(word)) {
        let rows = named(tests, name);
        let Some((k, nodes)) = answered(WALKS, &rows) else {
            println!("{name}: the walks differ");
            return false;
        };
        let rates: Vec<f64> = walked(WALKS, &rows).iter().map(|taken| nodes as f64 / taken / 1e3).collect();
        let start = clock::now();
        discard(colouring::fewest(&rows));
        let second = (clock::now() - start) * 1e3;
        let mut cells = vec![name.to_string(), rows.len().to_string(), density(&rows).to_string(), k, nodes.to_string()];
        cells.extend(rates.iter().map(|rate| format!("{rate:.0}")));
        for (ratios, (later, earlier)) in ratios.iter_mut().zip(pairs()) {
            ratios.push(rates[later] / rates[earlier]);
            cells.push(format!("{:.2}", rates[later] / rates[earlier]));
        }
        cells.push(format!("{second:.2}"));
        row(&cells);
    }
    for (ratios, pair) in ratios.iter().zip(pairs()) {
        let least = ratios.iter().copied().fold(f64::INFINITY, f64::min);
        println!("{}: geometric mean {:.2}, least {least:.2}", ratio_name(pair), geometric_mean(ratios));
    }
    true
}

/// Nodes per second of searches that have counts of their own, and of the last of the walks beside them, all in turns. False where answers differ.
fn beside(tests: &Path, word: &str, title: &str, searches: &[(&'static str, Walk)]) -> bool {
    println!(
        "\n{title}: thousand nodes per second of processor time, budget {BUDGET}; a walk beside them, by its own nodes; and milliseconds"
    );
    let walk = &WALKS[WALKS.len() - 1..];
    let all = [searches, walk].concat();
    let mut head: Vec<String> = ["list", "k", "nodes", "walk's k", "its nodes"].map(String::from).to_vec();
    head.extend(all.iter().map(|(name, _)| name.to_string()));
    head.extend(all.iter().map(|(name, _)| format!("{name} ms")));
    row(&head);
    for name in LISTS.iter().filter(|name| name.contains(word)) {
        let rows = named(tests, name);
        let (Some((k, nodes)), Some((walk_k, walk_nodes))) = (answered(searches, &rows), answered(walk, &rows)) else {
            println!("{name}: the answers differ");
            return false;
        };
        let taken = walked(&all, &rows);
        let mut cells = vec![name.to_string(), k, nodes.to_string(), walk_k, walk_nodes.to_string()];
        let entered = |i: usize| if i < searches.len() { nodes } else { walk_nodes };
        cells.extend(taken.iter().enumerate().map(|(i, taken)| format!("{:.0}", entered(i) as f64 / taken / 1e3)));
        cells.extend(taken.iter().map(|taken| format!("{:.3}", taken * 1e3)));
        row(&cells);
    }
    true
}

/// The pair choice alone, per call, over graphs of the walk's first nodes, and its part of the proved walk. False where choices differ.
#[cfg(feature = "pair_choice")]
fn choices(tests: &Path, word: &str) -> bool {
    const NODES: u64 = 20_000;
    const GRAPHS: usize = 1_000;
    println!("\nThe pair choice alone: nanoseconds per call, over at most {GRAPHS} graphs, spread over the first {NODES} nodes; beside it nanoseconds");
    println!("of a node of the proved walk, all in all, how many of its nodes choose a pair, and the share of the choice in them");
    let head = ["list", "entries", "density %", "plain", "tuned", "proved", "plain/proved", "tuned/proved", "node", "choosing", "share"];
    row(&head.map(String::from));
    for name in SPREAD.iter().filter(|name| name.contains(word)) {
        let rows = named(tests, name);
        let mut colours = vec![0; rows.len()];
        let nodes = proved::fewest(&rows, &mut colours, NODES).map_or(NODES, |walked| walked.nodes);
        let all = tuned::choices(&rows, NODES);
        let choosing = all.len() as f64 / nodes as f64;
        let step = all.len().div_ceil(GRAPHS).max(1);
        let met: Vec<_> = all.into_iter().step_by(step).collect();
        let graphs: Vec<_> = met.iter().map(|met| described::Graph::held(met.live, &met.rows)).collect();
        let same = |(met, graph): (&tuned::Choice, &described::Graph)| {
            graph.pair() == met.pair() && met.pair() == proved::pair(met.live, &met.rows)
        };
        if !met.iter().zip(&graphs).all(same) {
            println!("{name}: the choices differ");
            return false;
        }
        let taken = seconds(
            &mut [
                &mut || graphs.iter().for_each(|graph| discard(graph.pair())),
                &mut || met.iter().for_each(|met| discard(met.pair())),
                &mut || met.iter().for_each(|met| discard(proved::pair(met.live, &met.rows))),
                &mut || discard(proved::fewest(&rows, &mut colours, NODES)),
            ],
            3.0,
        );
        let [plain, tuned, proved] = [0, 1, 2].map(|i| taken[i] * 1e9 / met.len() as f64);
        let node = taken[3] * 1e9 / nodes as f64;
        let mut cells = vec![name.to_string(), rows.len().to_string(), density(&rows).to_string()];
        cells.extend([plain, tuned, proved].map(|taken| format!("{taken:.0}")));
        cells.extend([plain / proved, tuned / proved].map(|ratio| format!("{ratio:.2}")));
        cells.extend([format!("{node:.0}"), format!("{choosing:.2}"), format!("{:.2}", choosing * proved / node)]);
        row(&cells);
    }
    true
}

#[cfg(not(feature = "pair_choice"))]
fn choices(_: &Path, _: &str) -> bool {
    true
}

/// Both bounds of a list's first node, per call. False where they differ.
fn bounds(tests: &Path, word: &str) -> bool {
    println!("\nBoth bounds of a list: nanoseconds, with the test of the matrix; proved: two calls, each with its own clique");
    let mut head: Vec<String> = ["list", "clique", "mycielskian"].map(String::from).to_vec();
    head.extend(BOUNDS.iter().map(|(name, _)| name.to_string()));
    row(&head);
    let lists = ["2-Insertions_3", "myciel5", "queen6_6", "queen8_8", "random30_50", "random64_10", "random64_50", "random64_90"];
    for name in lists.iter().filter(|name| name.contains(word)) {
        let rows = named(tests, name);
        let (clique, mycielskian) = described::bounds(&rows).expect("a list");
        if BOUNDS.iter().any(|(_, bounds)| bounds(&rows) != Ok((clique, mycielskian))) {
            println!("{name}: the bounds differ");
            return false;
        }
        let mut calls: Vec<_> = BOUNDS.iter().map(|(_, bounds)| || discard(bounds(&rows))).collect();
        let mut calls: Vec<&mut dyn FnMut()> = calls.iter_mut().map(|call| call as &mut dyn FnMut()).collect();
        let mut cells = vec![name.to_string(), clique.count_ones().to_string(), mycielskian.to_string()];
        cells.extend(seconds(&mut calls, 0.2).iter().map(|taken| format!("{:.0}", taken * 1e9)));
        row(&cells);
    }
    true
}

/// Texts of several kinds: many repeated edges, one long comment, and lists as they are written.
fn samples(tests: &Path) -> Vec<(&'static str, Vec<u8>)> {
    let mut repeated = String::from("p edge 64 6000\n");
    for i in 0..6000 {
        repeated += &format!("e {} {}\n", 1 + i % 31, 33 + i % 29);
    }
    let comment = format!("c {}\np edge 1 0\n", "names of entries and their helpers ".repeat(1800));
    let written = |name| (name, list::text_of(&named(tests, name)).into_bytes());
    vec![("repeats", repeated.into()), ("comment", comment.into()), written("myciel4"), written("queen8_8"), written("complete64")]
}

/// Megabytes per second of each of these calls over so many bytes.
fn rates(calls: &mut [&mut dyn FnMut()], bytes: usize) -> Vec<String> {
    seconds(calls, 0.2).iter().map(|taken| format!("{:.0}", bytes as f64 / taken / 1e6)).collect()
}

/// Reading, and checking the sheet of a smallest division; of the text that has repeats, by the reading of repeats. False where answers differ.
fn texts(tests: &Path) -> bool {
    println!("\nTexts: megabytes per second");
    let mut head: Vec<String> = ["text", "bytes"].map(String::from).to_vec();
    head.extend(READERS.iter().map(|(name, _)| name.to_string()));
    head.extend(CHECKERS.iter().map(|(name, _)| name.to_string()));
    row(&head);
    for (name, text) in samples(tests) {
        let reading = usize::from(name == "repeats");
        let mut rows = [0; 64];
        let n = READERS[0].1[reading](&text, &mut rows).expect("a list");
        let division = colouring::fewest(&rows[..n]);
        let mut out = [0; 1024];
        let length = sheet::write(&division.colours, &mut out).expect("a division");
        let sheet = &out[..length];
        let same_rows = |read: Reader| {
            let mut again = [0; 64];
            read(&text, &mut again) == Ok(n) && again == rows
        };
        let same_groups = |check: Checker| {
            let mut colours = [0; 64];
            check(&text, sheet, &mut colours) == Some(division.k) && colours[..n] == division.colours
        };
        if !READERS.iter().all(|(_, read)| same_rows(read[reading])) || !CHECKERS.iter().all(|(_, check)| same_groups(check[reading])) {
            println!("{name}: the answers differ");
            return false;
        }
        let mut cells = vec![name.to_string(), text.len().to_string()];
        let mut calls: Vec<_> = READERS.iter().map(|(_, read)| || discard(read[reading](&text, &mut [0; 64]))).collect();
        let mut calls: Vec<&mut dyn FnMut()> = calls.iter_mut().map(|call| call as &mut dyn FnMut()).collect();
        cells.extend(rates(&mut calls, text.len()));
        let mut calls: Vec<_> = CHECKERS.iter().map(|(_, check)| || discard(check[reading](&text, sheet, &mut [0; 64]))).collect();
        let mut calls: Vec<&mut dyn FnMut()> = calls.iter_mut().map(|call| call as &mut dyn FnMut()).collect();
        cells.extend(rates(&mut calls, text.len() + length));
        row(&cells);
    }
    true
}

/// One walk of one list: its nodes, or nothing where there is no such walk.
fn once(tests: &Path, name: &str, walk: &str, budget: &str) -> ExitCode {
    let rows = named(tests, name);
    let mut known = WALKS.iter().chain(PLACINGS).chain(SHRUNK);
    let (Some((_, walk)), Ok(budget)) = (known.find(|(known, _)| *known == walk), budget.parse()) else {
        eprintln!("no walk '{walk}', or no budget '{budget}'");
        return ExitCode::FAILURE;
    };
    let mut colours = vec![0; rows.len()];
    match walk(&rows, &mut colours, budget) {
        Ok(walked) => println!("{}", walked.nodes),
        Err(refused) => println!("{}", refused.place),
    }
    ExitCode::SUCCESS
}

fn main() -> ExitCode {
    let words: Vec<String> = std::env::args().skip(1).collect();
    if let [tests, word, name, walk, budget] = &words[..] {
        if word == "once" {
            return once(Path::new(tests), name, walk, budget);
        }
    }
    let (tests, word) = match &words[..] {
        [tests] => (PathBuf::from(tests), ""),
        [tests, word] => (PathBuf::from(tests), word.as_str()),
        _ => {
            eprintln!("usage: bench TESTS [WORD], or bench TESTS once LIST WALK BUDGET");
            return ExitCode::FAILURE;
        }
    };
    let searches = || beside(&tests, word, "Searches by placing", PLACINGS) && beside(&tests, word, "Walks over a shrunk list", SHRUNK);
    if walks(&tests, word) && searches() && choices(&tests, word) && bounds(&tests, word) && texts(&tests) {
        ExitCode::SUCCESS
    } else {
        ExitCode::FAILURE
    }
}
