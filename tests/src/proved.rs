//! The proved library, through its C interface, against the second program and the walk that is written straight from document 01.

use std::collections::BTreeMap;

use bench::lists::Numbers;
use bench::{described, Walk};
use second::list::Reading;
use second::sheet::{self, Text};
use second::{clique, colouring, list, matrix, Refusal, Refused, BYTES};

use crate::calls::{self, Calls, Lent, FILL, PLAIN, REPEATS};
use crate::inputs::{colours, list_of, matrix as any_matrix, sample, Sample};
use crate::stored::{lines, printed, repeated, stored, text};
use crate::{cases, BUDGET};

const ROW: u64 = 0xA5A5_A5A5_A5A5_A5A5;

/// Nodes of each walk that is stopped early, for the tests' patience.
const PART: u64 = 100_000;

/// A walk's answer as its six numbers.
fn walk_numbers(answer: Result<bench::Walked, Refused>) -> [u64; 6] {
    match answer {
        Ok(walked) => [0, 0, walked.k, walked.nodes, walked.complete, walked.clique],
        Err(Refused { why: Refusal::Budget, place, .. }) => [6, 0, 0, place, 0, 0],
        Err(Refused { why, place, .. }) => [why.number(), place, 0, 0, 0, 0],
    }
}

/// An accepted walk's clique: the second program's, a set of entries that all clash with one another, at most k of them.
fn clique_is(rows: &[u64], k: u64, clique: u64) {
    assert_eq!(clique, clique::set(rows), "{rows:?}");
    let members = clique::members(rows);
    assert!(members.iter().all(|&i| members.iter().all(|&j| i == j || matrix::has(rows, i, j))), "{rows:?}");
    assert!(members.len() as u64 <= k, "{rows:?}");
}

/// An answer of one number, with what is said where it is refused.
fn numbers(answer: Result<usize, Refused>) -> [usize; 3] {
    let [refusal, place, _, value] = read_numbers(answer);
    [refusal, place, value]
}

/// A reading's answer: as above, with the column.
fn read_numbers(answer: Result<usize, Refused>) -> [usize; 4] {
    match answer {
        Ok(value) => [0, 0, 0, value],
        Err(Refused { why, place, column }) => [why.number() as usize, place as usize, column as usize, 0],
    }
}

type Call = fn(&[u64], &mut [u8], u64) -> [u64; 6];

/// One call for one list, buffer length and budget, against one that is written by hand: numbers, colours and all memory around them. The answer is
/// returned.
pub fn same(proved: Call, hand: Walk, rows: &[u64], room: usize, budget: u64) -> [u64; 6] {
    let (mut lent, mut again) = (Lent::new(room, FILL), Lent::new(room, FILL));
    let said = proved(rows, lent.part(), budget);
    assert_eq!(said, walk_numbers(hand(rows, again.part(), budget)), "{rows:?} {room} {budget}");
    assert_eq!(lent, again, "{rows:?} {room} {budget}");
    if said[0] == 0 {
        clique_is(rows, said[2], said[5]);
    }
    said
}

/// Both walks. The bounded walk's answer is returned.
fn compared(rows: &[u64], room: usize, budget: u64) -> [u64; 6] {
    same(calls::plain, described::plain, rows, room, budget);
    same(calls::fewest, described::fewest, rows, room, budget)
}

/// The search by placing of one list, buffer length and budget, against the second program's.
fn compared_by_placing(rows: &[u64], room: usize, budget: u64) -> [u64; 6] {
    same(calls::fewest_by_placing, bench::placed, rows, room, budget)
}

/// Small lists by placing: the walk's k, a budget that is exact to one node, and smaller ones.
#[test]
fn small_lists_by_placing() {
    let mut drawn = Numbers(47);
    for _ in 0..cases(4_000) {
        let rows = list_of(&mut drawn, 9);
        let n = rows.len();
        let said = compared_by_placing(&rows, n, 100_000);
        let walked = calls::fewest(&rows, &mut vec![0; n], 100_000);
        assert_eq!([said[0], said[2], said[5]], [0, walked[2], walked[5]], "{rows:?}");
        assert_eq!(compared_by_placing(&rows, n + 3, said[3])[..2], [0, 0]);
        assert_eq!(compared_by_placing(&rows, n, said[3] - 1)[0], 6);
        compared_by_placing(&rows, n, drawn.below(said[3]));
    }
}

/// Longer lists by placing, most of which the budget ends; where neither engine is refused, the walk's k.
#[test]
fn longer_lists_by_placing() {
    let mut drawn = Numbers(48);
    let (mut ended, mut spent) = (0, 0);
    for _ in 0..cases(1_500) {
        let rows = list_of(&mut drawn, 30);
        let n = rows.len();
        let said = compared_by_placing(&rows, n, 2_000);
        let walked = calls::fewest(&rows, &mut vec![0; n], 2_000);
        if [said[0], walked[0]] == [0, 0] {
            assert_eq!([said[2], said[5]], [walked[2], walked[5]], "{rows:?}");
            ended += 1;
        }
        spent += usize::from(said[0] == 6);
    }
    assert!(ended > cases(700) && spent > cases(200), "{ended} {spent}");
    for n in [40, 55, 63, 64] {
        for percent in [0, 3, 50, 90, 97, 100] {
            compared_by_placing(&bench::lists::random(&mut drawn, n, percent), 64, 1_000);
        }
    }
}

/// The queens of seven, where the walk spends its budget: seven groups, and 239,329 nodes by placing.
#[test]
fn queens_by_placing() {
    let rows = stored("queen7_7");
    assert_eq!(calls::fewest(&rows, &mut [0; 49], PART)[0], 6);
    assert_eq!(compared_by_placing(&rows, 49, BUDGET)[..5], [0, 0, 7, 239_329, 0]);
    assert_eq!(compared_by_placing(&rows, 50, 239_329)[0], 0);
    assert_eq!(compared_by_placing(&rows, 49, 239_328)[..5], [6, 0, 0, 239_328, 0]);
}

#[test]
fn small_lists() {
    let mut drawn = Numbers(41);
    for _ in 0..cases(4_000) {
        let rows = list_of(&mut drawn, 9);
        let n = rows.len();
        let said = compared(&rows, n, 100_000);
        assert_eq!(said[..3], [0, 0, colouring::fewest(&rows).k as u64], "{rows:?}");
        // The budget is exact to one node, and a longer buffer's rest stays.
        assert_eq!(compared(&rows, n + 3, said[3])[..2], [0, 0]);
        assert_eq!(compared(&rows, n, said[3] - 1)[0], 6);
    }
}

#[test]
fn longer_lists() {
    let mut drawn = Numbers(42);
    let mut ended = 0;
    for _ in 0..cases(1_500) {
        let rows = list_of(&mut drawn, 30);
        let said = compared(&rows, rows.len(), 400);
        if said[0] == 0 {
            assert_eq!(said[2] as usize, colouring::fewest(&rows).k, "{rows:?}");
            ended += 1;
        }
    }
    assert!(ended > cases(1_000), "{ended}");
    for n in [40, 55, 63, 64] {
        for percent in [0, 3, 50, 90, 97, 100] {
            compared(&bench::lists::random(&mut drawn, n, percent), 64, 300);
        }
    }
}

/// The stored lists, all of which are in one of the two files, read by the library; of those whose walk is short, what the program prints. Those that list
/// an edge twice are read where that is allowed, and the plain reading refuses each at the line of the second.
#[test]
fn stored_texts() {
    let repeated = repeated();
    for (name, _, nodes) in lines("expected").into_iter().chain(lines("refused")) {
        let (text, rows) = (text(&name), stored(&name));
        for reading in [&PLAIN, &REPEATS] {
            let (mut lent, mut again) = (Lent::new(rows.len(), ROW), Lent::new(rows.len(), ROW));
            let mut out = [0; slotsheet::SHEET_BYTES];
            let said = (reading.read_list)(&text, lent.part());
            match repeated.iter().find(|(known, _)| *known == name) {
                Some(&(_, line)) if std::ptr::eq(reading, &PLAIN) => {
                    assert_eq!(said, [20, line, 0, 0], "{name}");
                    let [_, _, length] = (reading.answer)(&text, &mut out);
                    assert_eq!(out[..length], *format!("refused 20 line {line}\n").as_bytes(), "{name}");
                    let checked = (reading.check_sheet)(&text, &printed(&name), &mut [0; 64]);
                    assert_eq!(checked, [20, line, 0, 0, 1], "{name}");
                }
                _ => {
                    assert_eq!(said, [0, 0, 0, rows.len()], "{name}");
                    again.part().copy_from_slice(&rows);
                    if nodes < 10_000 {
                        let [_, _, length] = (reading.answer)(&text, &mut out);
                        assert_eq!(out[..length], printed(&name), "{name}");
                        let checked = (reading.check_sheet)(&text, &out[..length], &mut [0; 64]);
                        assert_eq!([checked[0], checked[4]], [0, 0], "{name}");
                    }
                }
            }
            assert_eq!(lent, again, "{name}");
        }
    }
}

/// The stored lists: k, nodes and sheet. The slowest walks are left to the bench, which compares them too.
#[test]
fn stored_walks() {
    let mut met = 0;
    for (name, k, nodes) in lines("expected").into_iter().filter(|(_, _, nodes)| *nodes < 100_000) {
        let rows = stored(&name);
        let mut lent = Lent::new(rows.len(), FILL);
        assert_eq!(calls::fewest(&rows, lent.part(), BUDGET), [0, 0, k, nodes, 0, clique::set(&rows)], "{name}");
        clique_is(&rows, k, clique::set(&rows));
        let mut out = [0; slotsheet::SHEET_BYTES];
        let [refusal, _, length] = calls::write_sheet(lent.part(), &mut out);
        assert_eq!(refusal, 0, "{name}");
        assert_eq!(out[..length], printed(&name), "{name}");
        met += 1;
    }
    assert!(met >= 24, "{met}");
}

/// Lists whose walk spends the budget: one in full, the others with a part of it.
#[test]
fn spent_walks() {
    for (name, number, nodes) in lines("refused") {
        let rows = stored(&name);
        let budget = if name == "myciel5" { BUDGET } else { PART };
        let (mut lent, untouched) = (Lent::new(rows.len(), FILL), Lent::new(rows.len(), FILL));
        assert_eq!(calls::fewest(&rows, lent.part(), budget), [number, 0, 0, budget.min(nodes), 0, 0], "{name}");
        assert_eq!(lent, untouched, "{name}");
    }
}

/// What the program prints for a text, by the second program's reading and writing and the walk that is written from document 01.
fn printed_for(read: Reading, text: &[u8]) -> Vec<u8> {
    let refused = |why: Refused| format!("{}\n", why.printed()).into_bytes();
    let (mut rows, mut colours, mut out) = ([0; 64], [0; 64], [0; slotsheet::SHEET_BYTES]);
    let n = match read(text, &mut rows) {
        Ok(n) => n,
        Err(why) => return refused(why),
    };
    if let Err(why) = described::fewest(&rows[..n], &mut colours, BUDGET) {
        return refused(why.why.bare());
    }
    let length = sheet::write(&colours[..n], &mut out).expect("the sheet of a division fits");
    out[..length].to_vec()
}

/// The library's answer is what the program should print, in a buffer of that length, of one byte less and of some more.
fn answered(calls: &Calls, read: Reading, text: &[u8]) {
    let expected = printed_for(read, text);
    for room in [expected.len(), expected.len() - 1, expected.len() + 7] {
        let (mut lent, mut again) = (Lent::new(room, FILL), Lent::new(room, FILL));
        let said = (calls.answer)(text, lent.part());
        if room < expected.len() {
            assert_eq!(said, [19, 0, 0], "{text:?}");
        } else {
            assert_eq!(said, [0, 0, expected.len()], "{text:?}");
            again.part()[..expected.len()].copy_from_slice(&expected);
        }
        assert_eq!(lent, again, "{text:?}");
    }
}

/// Lent rows that are often no list: validity, bounds, walks and the written list.
#[test]
fn damaged_matrices() {
    let mut drawn = Numbers(43);
    let mut met = BTreeMap::new();
    for _ in 0..cases(20_000) {
        let rows = any_matrix(&mut drawn);
        let judged = matrix::judge(&rows);
        let [refusal, place, _] = numbers(judged.map(|()| 0));
        assert_eq!(calls::validity(&rows), [refusal, place], "{rows:?}");
        let bounds = match described::bounds(&rows) {
            Ok((clique, mycielskian)) => [[0, 0, u64::from(clique.count_ones()), clique::set(&rows)], [0, 0, u64::from(mycielskian), 0]],
            Err(_) => [[refusal as u64, place as u64, 0, 0]; 2],
        };
        assert_eq!(calls::bounds(&rows), bounds, "{rows:?}");
        let room = drawn.below(rows.len() as u64 + 3) as usize;
        compared(&rows, room, drawn.below(20));
        compared_by_placing(&rows, room, drawn.below(20));
        same(calls::fewest_shrunk, bench::shrunk, &rows, room, drawn.below(20));
        let length = judged.map_or(0, |()| list::text_of(&rows).len());
        for room in [length, length.saturating_sub(1), length + 7] {
            let (mut lent, mut again) = (Lent::new(room, FILL), Lent::new(room, FILL));
            let said = calls::write_list(&rows, lent.part());
            assert_eq!(said, numbers(list::write(&rows, again.part())), "{rows:?}");
            assert_eq!(lent, again, "{rows:?}");
            *met.entry(said[0]).or_insert(0) += 1;
        }
    }
    assert!([0, 1, 2, 3, 4, 19].iter().all(|number| met.get(number).is_some_and(|&times| times > cases(100))), "{met:?}");
}

#[test]
fn damaged_colours() {
    let mut drawn = Numbers(44);
    let mut met = BTreeMap::new();
    for _ in 0..cases(20_000) {
        let given = colours(&mut drawn);
        let room = drawn.below(700) as usize;
        let (mut lent, mut again) = (Lent::new(room, FILL), Lent::new(room, FILL));
        let said = calls::write_sheet(&given, lent.part());
        assert_eq!(said, numbers(sheet::write(&given, again.part())), "{given:?}");
        assert_eq!(lent, again, "{given:?}");
        *met.entry(said[0]).or_insert(0) += 1;
    }
    assert!([0, 1, 19, 38].iter().all(|number| met.get(number).is_some_and(|&times| times > cases(100))), "{met:?}");
}

/// One reading of a sample, with 64 rows and with few, what is printed for it, and its check, with the place of the line at fault. What the check says is
/// returned, behind what reading with 64 rows says.
fn sampled(calls: &Calls, read: Reading, sample: &Sample) -> ([usize; 4], [usize; 5]) {
    let mut whole = [0; 4];
    for room in [sample.room, 64] {
        let (mut lent, mut again) = (Lent::new(room, ROW), Lent::new(room, ROW));
        whole = (calls.read_list)(&sample.list, lent.part());
        assert_eq!(whole, read_numbers(read(&sample.list, again.part())), "{sample:?}");
        assert_eq!(lent, again, "{sample:?}");
    }
    if whole[3] <= 12 {
        answered(calls, read, &sample.list);
    }
    let (mut lent, mut again) = (Lent::new(sample.room, FILL), Lent::new(sample.room, FILL));
    let said = (calls.check_sheet)(&sample.list, &sample.sheet, lent.part());
    let expected = match sheet::check_by(read, &sample.list, &sample.sheet, again.part()) {
        Ok(k) => [0, 0, 0, k, 0],
        Err(fault) => {
            let text = if fault.text == Text::List { 1 } else { 2 };
            let [refusal, line, column, _] = read_numbers(Err(fault.refused));
            [refusal, line, column, 0, text]
        }
    };
    assert_eq!(said, expected, "{sample:?}");
    assert_eq!(lent, again, "{sample:?}");
    let part = sheet::preview_by(read, &sample.list, &sample.sheet, sample.room);
    assert_eq!((calls.fault_line)(&sample.list, &sample.sheet, sample.room), [said[4], part.offset, part.length], "{sample:?}");
    (whole, said)
}

/// Both readings of damaged texts: every refusal of both texts is met often. Where the plain reading refuses no repeat, the two are alike.
#[test]
fn damaged_texts_and_sheets() {
    let mut drawn = Numbers(45);
    let mut met = BTreeMap::new();
    for _ in 0..cases(20_000) {
        let sample = sample(&mut drawn);
        let plain = sampled(&PLAIN, list::read, &sample);
        let allowed = sampled(&REPEATS, list::read_repeats, &sample);
        assert!(plain == allowed || plain.0[0] == 20 && allowed.0[0] != 20, "{sample:?}");
        for (text, refusal) in [(0, plain.0[0]), (plain.1[4], plain.1[0]), (3, allowed.0[0])] {
            *met.entry((text, refusal)).or_insert(0) += 1;
        }
        let few = calls::read_list(&sample.list, Lent::new(sample.room, ROW).part());
        *met.entry((0, few[0])).or_insert(0) += 1;
    }
    let often = |text, refusals: &[usize], times| {
        for &refusal in refusals {
            assert!(met.get(&(text, refusal)).is_some_and(|&met| met > cases(times)), "{text} {refusal}: {met:?}");
        }
    };
    often(0, &[0, 11, 12, 13, 14, 15, 16, 17, 18], 50);
    often(1, &[11, 12, 13, 14, 15, 16, 18], 50);
    often(2, &[5, 18, 30, 31, 32, 33, 34, 35, 36, 37], 50);
    // The kinds of a line that is of no permitted shape, and repeats.
    often(0, &[10, 20, 21, 22, 23], 500);
    often(1, &[10, 20, 21, 22, 23], 250);
    often(3, &[0, 10, 14, 16, 21, 22, 23], 250);
    assert!(!met.contains_key(&(3, 20)), "{met:?}");
}

/// The wrappers that read a clash text, by one reading.
struct Wrappers {
    read_list: fn(&[u8], &mut [u64]) -> Result<usize, slotsheet::Refused>,
    check_sheet: fn(&[u8], &[u8], &mut [u8]) -> Result<usize, slotsheet::Fault>,
    fault_line: for<'a> fn(&'a [u8], &'a [u8], usize) -> &'a [u8],
    answer: fn(&[u8], &mut [u8]) -> Result<usize, slotsheet::Refused>,
}

const WRAPPED: Wrappers = Wrappers {
    read_list: slotsheet::read_list,
    check_sheet: slotsheet::check_sheet,
    fault_line: slotsheet::fault_line,
    answer: slotsheet::answer,
};
const WRAPPED_REPEATS: Wrappers = Wrappers {
    read_list: slotsheet::read_list_repeats,
    check_sheet: slotsheet::check_sheet_repeats,
    fault_line: slotsheet::fault_line_repeats,
    answer: slotsheet::answer_repeats,
};

/// The wrappers say what the calls say.
#[test]
fn safe_wrappers() {
    let mut drawn = Numbers(46);
    let read = |said: Result<usize, slotsheet::Refused>| match said {
        Ok(value) => [0, 0, 0, value],
        Err(slotsheet::Refused { why, place, column }) => [why.number(), place as usize, column, 0],
    };
    let same = |said| {
        let [refusal, place, column, value] = read(said);
        assert_eq!(column, 0);
        [refusal, place, value]
    };
    for _ in 0..cases(3_000) {
        let rows = any_matrix(&mut drawn);
        let [clique, mycielskian] = calls::bounds(&rows);
        assert_eq!(same(slotsheet::validity(&rows).map(|()| 0))[..2], calls::validity(&rows));
        let wide = |said: [usize; 3], members| [said[0] as u64, said[1] as u64, said[2] as u64, members];
        let found = slotsheet::clique_bound(&rows);
        assert_eq!(wide(same(found.map(|clique| clique.size)), found.map_or(0, |clique| clique.members)), clique);
        assert_eq!(wide(same(slotsheet::mycielskian_bound(&rows)), 0), mycielskian);
        let (mut out, mut again) = (vec![FILL; BYTES], vec![FILL; BYTES]);
        assert_eq!(same(slotsheet::write_list(&rows, &mut out)), calls::write_list(&rows, &mut again));
        let wrapped = [slotsheet::fewest, slotsheet::plain, slotsheet::fewest_by_placing, slotsheet::fewest_shrunk];
        for walk in wrapped.iter().zip([calls::fewest, calls::plain, calls::fewest_by_placing, calls::fewest_shrunk]) {
            let said = match walk.0(&rows, &mut out[..60], 30) {
                Ok(walked) => [0, 0, walked.k as u64, walked.nodes, walked.leaves, walked.clique],
                Err(refused) if refused.why == slotsheet::Refusal::Budget => [6, 0, 0, refused.place, 0, 0],
                Err(refused) => [refused.why.number() as u64, refused.place, 0, 0, 0, 0],
            };
            assert_eq!(said, walk.1(&rows, &mut again[..60], 30));
        }
        let sample = sample(&mut drawn);
        for (wrappers, calls) in [(&WRAPPED, &PLAIN), (&WRAPPED_REPEATS, &REPEATS)] {
            assert_eq!(read((wrappers.read_list)(&sample.list, &mut [0; 64])), (calls.read_list)(&sample.list, &mut [0; 64]));
            let said = match (wrappers.check_sheet)(&sample.list, &sample.sheet, &mut out[..sample.room]) {
                Ok(k) => [0, 0, 0, k, 0],
                Err(fault) => {
                    let [refusal, line, column, _] = read(Err(fault.refused));
                    [refusal, line, column, 0, if fault.text == slotsheet::Text::List { 1 } else { 2 }]
                }
            };
            assert_eq!(said, (calls.check_sheet)(&sample.list, &sample.sheet, &mut again[..sample.room]));
            let [text, start, length] = (calls.fault_line)(&sample.list, &sample.sheet, sample.room);
            let holder = if text == 1 { &sample.list } else { &sample.sheet };
            let shown = (wrappers.fault_line)(&sample.list, &sample.sheet, sample.room);
            assert_eq!(shown.as_ptr_range(), holder[start..start + length].as_ptr_range());
            if sample.list.len() < 100 {
                assert_eq!(same((wrappers.answer)(&sample.list, &mut out)), (calls.answer)(&sample.list, &mut again));
            }
        }
        let given = colours(&mut drawn);
        assert_eq!(same(slotsheet::write_sheet(&given, &mut out)), calls::write_sheet(&given, &mut again));
        assert_eq!(out, again);
    }
}
