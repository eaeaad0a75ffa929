//! What the papers say of texts as a whole, on thousands of whole and damaged ones.

use std::collections::BTreeMap;

use bench::lists::Numbers;
use second::list::Reading;
use second::sheet::{self, Part, Text};
use second::{list, matrix, Refusal};

use crate::cases;
use crate::inputs::{colours, list_of, matrix as any_matrix, rows_of, sample};

#[test]
fn lists_read_back() {
    let mut numbers = Numbers(11);
    for _ in 0..cases(3_000) {
        let rows = list_of(&mut numbers, 64);
        let mut out = vec![0xA5; 20_000];
        let length = list::write(&rows, &mut out).expect("room enough");
        assert_eq!(rows_of(&out[..length]), Some(rows.clone()));
        assert!(out[length..].iter().all(|&b| b == 0xA5));
        assert_eq!(list::write(&rows, &mut vec![0; length]), Ok(length));
        assert_eq!(list::write(&rows, &mut vec![0; length - 1]), Err(Refusal::Full.bare()));
    }
}

#[test]
fn written_sheets_pass() {
    let mut numbers = Numbers(12);
    for _ in 0..cases(3_000) {
        let given = colours(&mut numbers);
        let mut out = [0xA5; 1024];
        match sheet::write(&given, &mut out) {
            Ok(length) => {
                let list = list::text_of(&vec![0; given.len()]);
                let mut lent = vec![0xA5; given.len() + 2];
                let k = sheet::check(list.as_bytes(), &out[..length], &mut lent);
                assert_eq!(k, Ok(matrix::groups(&given).expect("numbered by first use")));
                assert_eq!(lent[..given.len()], given);
                assert_eq!(lent[given.len()..], [0xA5; 2]);
            }
            Err(refused) => {
                assert_eq!(out, [0xA5; 1024]);
                match refused.why {
                    Refusal::Many => assert!(given.len() > 64),
                    Refusal::Colours => assert_eq!(matrix::groups(&given), Err(refused.place as usize)),
                    other => panic!("{other:?}"),
                }
            }
        }
    }
}

/// The walks' own quick test of 1 to 4 and the second program's agree.
#[test]
fn matrices_are_judged_alike() {
    let mut numbers = Numbers(13);
    let mut met = BTreeMap::new();
    for _ in 0..cases(20_000) {
        let rows = any_matrix(&mut numbers);
        let judged = matrix::judge(&rows);
        let walked = bench::tuned::fewest(&rows, &mut vec![0; rows.len()], 0);
        match judged {
            Ok(()) => assert_eq!(walked, Err(Refusal::Budget.bare())),
            Err(refused) => assert_eq!(walked, Err(refused)),
        }
        *met.entry(judged.err().map_or(0, |refused| refused.why.number())).or_insert(0) += 1;
    }
    assert!((0..=4).all(|number| met.get(&number).is_some_and(|&times| times > cases(100))), "{met:?}");
}

/// Every refusal that a check can give is met often; an accepted sheet is a clash-free division; the preview shows what the check says.
#[test]
fn damaged_samples() {
    let mut numbers = Numbers(14);
    let mut met = BTreeMap::new();
    for _ in 0..cases(20_000) {
        let sample = sample(&mut numbers);
        for room in [64, sample.room] {
            for (read, other) in
                [(list::read as Reading, bench::reading::read as Reading), (list::read_repeats, bench::reading::read_repeats)]
            {
                let (mut rows, mut again) = (vec![7; room], vec![7; room]);
                assert_eq!(read(&sample.list, &mut rows), other(&sample.list, &mut again));
                assert_eq!(rows, again);
            }
        }
        let mut lent = vec![0xA5; sample.room];
        let checked = sheet::check(&sample.list, &sample.sheet, &mut lent);
        let part = sheet::preview(&sample.list, &sample.sheet, sample.room);
        let number = match checked {
            Ok(k) => {
                let rows = rows_of(&sample.list).expect("a list");
                assert!(matrix::is_clash_free(&rows, &lent));
                assert_eq!(matrix::groups(&lent[..rows.len()]), Ok(k));
                assert!(lent[rows.len()..].iter().all(|&b| b == 0xA5));
                assert_eq!(part, Part { text: Text::Sheet, offset: 0, length: 0 });
                (0, Text::Sheet as u8)
            }
            Err(fault) => {
                assert!(lent.iter().all(|&b| b == 0xA5), "nothing lent is written");
                assert_eq!(part.text, fault.text);
                let text = if fault.text == Text::List { &sample.list } else { &sample.sheet };
                let feeds = text[..part.offset].iter().filter(|&&b| b == b'\n').count() as u64;
                match fault.refused.place {
                    0 => assert_eq!((part.offset, part.length), (0, 0)),
                    // Past an unended last line no line is named: such a line is itself at fault.
                    line => assert_eq!(line, feeds + 1),
                }
                assert!(!text[part.offset..part.offset + part.length].contains(&b'\n'));
                (fault.refused.why.number(), fault.text as u8)
            }
        };
        *met.entry(number).or_insert(0) += 1;
    }
    for number in [10, 20, 21, 22, 23] {
        assert!(met.get(&(number, 0)).is_some_and(|&times| times > cases(250)), "{number} of a list: {met:?}");
    }
    for number in [11, 12, 13, 14, 15, 16, 18] {
        assert!(met.get(&(number, 0)).is_some_and(|&times| times > cases(50)), "{number} of a list: {met:?}");
    }
    for number in [0, 5, 18, 30, 31, 32, 33, 34, 35, 36, 37] {
        assert!(met.get(&(number, 1)).is_some_and(|&times| times > cases(50)), "{number} of a sheet: {met:?}");
    }
}

/// What stands before the column at which a line goes bad, each number as N; and whether a byte stands there or the line stops.
fn gone_bad(text: &[u8], line: u64, column: u64) -> (String, bool) {
    let line = text.split(|&b| b == b'\n').nth(line as usize - 1).expect("a line");
    let before = &line[..column as usize - 1];
    let mut told = String::new();
    for &byte in before {
        match byte {
            b'0'..=b'9' if told.ends_with('N') => {}
            b'0'..=b'9' => told.push('N'),
            _ => told.push(byte as char),
        }
    }
    (if told.starts_with('c') { "c..".into() } else { told }, before.len() < line.len())
}

/// Lines go bad at every place where one can, by a byte and by a stop, in every kind that can be there, and often.
#[test]
fn lines_go_bad_everywhere() {
    let mut numbers = Numbers(15);
    let mut met: BTreeMap<(String, bool, u64), usize> = BTreeMap::new();
    for _ in 0..cases(20_000) {
        let sample = sample(&mut numbers);
        if let Err(refused) = list::read(&sample.list, &mut [0; 64]) {
            if refused.column > 0 {
                let (before, byte) = gone_bad(&sample.list, refused.place, refused.column);
                *met.entry((before, byte, refused.why.number())).or_insert(0) += 1;
            }
        }
    }
    let mut places = vec![("c..", false, 23), ("p edge N N", false, 23), ("e N N", false, 23)];
    for before in ["", "p ", "p e", "p ed", "p edg"] {
        places.extend([(before, true, 10), (before, false, 10)]);
    }
    for before in ["e ", "e N ", "p edge ", "p edge N "] {
        places.extend([(before, true, 21), (before, false, 21)]);
    }
    for before in ["p", "p edge", "p edge N", "e", "e N"] {
        places.extend([(before, true, 22), (before, false, 22)]);
    }
    for before in ["e N", "e N N", "p edge N", "p edge N N"] {
        places.extend([(before, true, 21), (before, true, 22)]);
    }
    for (before, byte, number) in &places {
        let times = met.get(&(before.to_string(), *byte, *number)).copied().unwrap_or(0);
        assert!(times >= cases(12), "{before:?} {byte} {number} is met {times} times: {met:?}");
    }
    assert_eq!(met.len(), places.iter().collect::<std::collections::BTreeSet<_>>().len(), "{met:?}");
}

/// The two readings: where the plain one refuses no repeat, they are alike; and a repeat that it refuses is one: the same edge stands in an earlier line,
/// which no earlier line's does.
#[test]
fn readings_differ_by_repeats_alone() {
    let mut numbers = Numbers(16);
    let mut met = BTreeMap::new();
    let edge = |line: &[u8]| -> Option<Vec<usize>> {
        let ends = std::str::from_utf8(line).ok()?.strip_prefix("e ")?.split(' ').map(|end| end.parse().ok());
        let mut ends: Vec<usize> = ends.collect::<Option<_>>()?;
        ends.sort_unstable();
        Some(ends)
    };
    for _ in 0..cases(20_000) {
        let text = sample(&mut numbers).list;
        let (mut plain, mut allowed) = ([7; 64], [7; 64]);
        let said = [list::read(&text, &mut plain), list::read_repeats(&text, &mut allowed)];
        let refusal = said[0].err().map_or(0, |refused| refused.why.number());
        if refusal == 20 {
            assert_eq!(plain, [7; 64]);
            let line = said[0].expect_err("refused").place as usize;
            let edges: Vec<_> = text.split(|&b| b == b'\n').take(line).map(edge).collect();
            let first = (0..line).find(|&at| edges[at].is_some() && edges[..at].contains(&edges[at]));
            assert_eq!(first, Some(line - 1));
            *met.entry((20, said[1].is_ok())).or_insert(0) += 1;
        } else {
            assert_eq!((said[0], plain), (said[1], allowed));
            *met.entry((refusal, said[1].is_ok())).or_insert(0) += 1;
        }
    }
    assert!([(0, true), (20, true), (20, false)].iter().all(|what| met.get(what).is_some_and(|&times| times > cases(250))), "{met:?}");
}
