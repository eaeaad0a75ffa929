//! Mending a hand-edited sheet: the proved library, through its C interface, against the second program.

use std::collections::BTreeMap;

use bench::lists::Numbers;
use second::list::{self, Reading};
use second::mend::{mend_by, mended_by};
use second::sheet::Text;
use second::{Refusal, BYTES};

use crate::calls::{Calls, Lent, FILL, PLAIN, REPEATS};
use crate::cases;
use crate::inputs::{self, sample};

/// One call with so many bytes lent, against the second program's: numbers, output and all memory around it. The answer is returned, and what was written.
fn compared(calls: &Calls, read: Reading, list: &[u8], sheet: &[u8], room: usize) -> ([usize; 5], Vec<u8>) {
    let (mut lent, mut again) = (Lent::new(room, FILL), Lent::new(room, FILL));
    let said = (calls.mend_sheet)(list, sheet, lent.part());
    let expected = match mend_by(read, list, sheet, again.part()) {
        Ok(length) => [0, 0, 0, length, 0],
        Err(fault) => {
            let text = if fault.text == Text::List { 1 } else { 2 };
            [fault.refused.why.number() as usize, fault.refused.place as usize, fault.refused.column as usize, 0, text]
        }
    };
    let shown = || format!("{:?} {:?} {room}", String::from_utf8_lossy(list), String::from_utf8_lossy(sheet));
    assert_eq!(said, expected, "{}", shown());
    assert_eq!(lent, again, "{}", shown());
    (said, lent.part()[..said[3]].to_vec())
}

/// What was met of a pair of texts, for the counts below.
#[derive(Default)]
struct Met {
    refused: BTreeMap<(usize, usize), usize>,
    unchanged: usize,
    dropped: usize,
    put: usize,
    both: usize,
    reordered: usize,
}

/// Both readings of a pair, with just enough room, one byte less and some more; the mended sheet passes, comes back, and is the sheet itself where that passes.
fn mended(list: &[u8], sheet: &[u8], met: &mut Met) {
    for (calls, read) in [(&PLAIN, list::read as Reading), (&REPEATS, list::read_repeats)] {
        let Ok(made) = mended_by(read, list, sheet) else {
            let (said, _) = compared(calls, read, list, sheet, 64);
            *met.refused.entry((said[4], said[0])).or_insert(0) += 1;
            continue;
        };
        let length = made.text().len();
        let (said, out) = compared(calls, read, list, sheet, length + 7);
        assert_eq!(said, [0, 0, 0, length, 0]);
        *met.refused.entry((0, 0)).or_insert(0) += 1;
        if std::ptr::eq(calls, &REPEATS) {
            continue;
        }
        let mut just = Lent::new(length, FILL);
        assert_eq!((calls.mend_sheet)(list, sheet, just.part()), said);
        assert_eq!(just.part(), out);
        let mut less = Lent::new(length - 1, FILL);
        assert_eq!((calls.mend_sheet)(list, sheet, less.part()), [19, 0, 0, 0, 2]);
        assert_eq!(less, Lent::new(length - 1, FILL));
        let report = out.split_inclusive(|&b| b == b'\n').take(made.dropped.len() + made.put.len()).map(<[u8]>::len).sum();
        let right = &out[report..];
        let mut colours = [0; 64];
        assert_eq!((calls.check_sheet)(list, right, &mut colours)[..3], [0; 3], "{:?}", String::from_utf8_lossy(right));
        let mut again = Lent::new(right.len(), FILL);
        assert_eq!((calls.mend_sheet)(list, right, again.part()), [0, 0, 0, right.len(), 0]);
        assert_eq!(again.part(), right);
        let passes = (calls.check_sheet)(list, sheet, &mut colours)[0] == 0;
        assert_eq!(passes, out == sheet);
        met.unchanged += usize::from(passes);
        met.dropped += usize::from(!made.dropped.is_empty());
        met.put += usize::from(!made.put.is_empty());
        met.both += usize::from(!made.dropped.is_empty() && !made.put.is_empty());
        met.reordered += usize::from(!passes && report == 0);
    }
}

/// Sheets into which a hand has typed: names twice, lines changed about, left out or put in, clashes, numbers that are no entries, wrong counts.
#[test]
fn typed_sheets() {
    let mut drawn = Numbers(61);
    let mut met = Met::default();
    for _ in 0..cases(20_000) {
        let (list, sheet) = inputs::typed(&mut drawn);
        mended(&list, &sheet, &mut met);
    }
    let often = |text, refusals: &[usize], times| {
        for &refusal in refusals {
            let met = met.refused.get(&(text, refusal)).copied().unwrap_or(0);
            assert!(met > cases(times), "{text} {refusal}: {met}");
        }
    };
    often(0, &[0], 20_000);
    often(1, &[10, 11, 13, 14, 16, 18], 20);
    often(2, &[18], 20);
    often(2, &[30, 35, 37], 500);
    // 31 to 34 and 36 are no refusals here.
    assert!((31..=38).all(|number| number == 35 || number == 37 || !met.refused.contains_key(&(2, number))));
    let counts = [met.unchanged, met.dropped, met.put, met.both, met.reordered];
    assert!(counts.iter().zip([2_000, 4_000, 4_000, 2_000, 300]).all(|(&met, times)| met > cases(times)), "{counts:?}");
}

/// Texts and sheets that are damaged in any way, as they are checked elsewhere.
#[test]
fn damaged_texts_and_sheets() {
    let mut drawn = Numbers(62);
    let mut met = Met::default();
    for _ in 0..cases(10_000) {
        let sample = sample(&mut drawn);
        mended(&sample.list, &sample.sheet, &mut met);
    }
}

/// Sheets of thousands of lines, the longest that there is among them; most lines are dropped.
#[test]
fn long_sheets() {
    let list = list::text_of(&(0..64).map(|i| !(1u64 << i)).collect::<Vec<u64>>());
    let mut drawn = Numbers(63);
    for lines in [1_000, 9_990, 32_758] {
        for most in [1, 10] {
            let members: String = (0..lines).map(|_| format!("{}\n", drawn.below(most))).collect();
            let sheet = format!("groups 1\nsize {lines}\n{members}");
            assert!(sheet.len() <= BYTES);
            let length = mended_by(list::read, list.as_bytes(), sheet.as_bytes()).expect("mended").text().len();
            for room in [length, length - 1] {
                compared(&PLAIN, list::read, list.as_bytes(), sheet.as_bytes(), room);
            }
            assert_eq!(length == slotsheet::MEND_BYTES, (lines, most) == (32_758, 1), "{length}");
            assert!(length <= slotsheet::MEND_BYTES);
        }
    }
    let sheet = vec![b'x'; BYTES + 1];
    let (said, _) = compared(&PLAIN, list::read, list.as_bytes(), &sheet, 9);
    assert_eq!(said, [Refusal::Long.number() as usize, 0, 0, 0, 2]);
}

/// The wrappers say what the calls say.
#[test]
fn safe_wrappers() {
    let mut drawn = Numbers(64);
    type Wrapper = fn(&[u8], &[u8], &mut [u8]) -> Result<usize, slotsheet::Fault>;
    for _ in 0..cases(2_000) {
        let (list, sheet) = inputs::typed(&mut drawn);
        for (wrapper, calls) in [(slotsheet::mend_sheet as Wrapper, &PLAIN), (slotsheet::mend_sheet_repeats, &REPEATS)] {
            let room = drawn.below(2_000) as usize;
            let (mut out, mut again) = (vec![FILL; room], vec![FILL; room]);
            let said = match wrapper(&list, &sheet, &mut out) {
                Ok(length) => [0, 0, 0, length, 0],
                Err(fault) => {
                    let slotsheet::Refused { why, place, column } = fault.refused;
                    [why.number(), place as usize, column, 0, if fault.text == slotsheet::Text::List { 1 } else { 2 }]
                }
            };
            assert_eq!(said, (calls.mend_sheet)(&list, &sheet, &mut again));
            assert_eq!(out, again);
        }
    }
}

/// The sheets of `examples/`, as a volunteer would leave them, each for the camp: what is stored of them in `mended/`, where the camp's own sheet comes back.
#[test]
fn volunteers_sheets() {
    let here = std::path::Path::new(env!("CARGO_MANIFEST_DIR"));
    let read = |path: &str| std::fs::read(here.join(path)).expect("stored");
    let (list, right) = (read("../examples/camp.col"), read("walks/sheets/camp"));
    for (name, why, line) in [("twice", 33, 12), ("swapped", 32, 9), ("missing", 36, 17), ("clash", 34, 7)] {
        let (sheet, expected) = (read(&format!("../examples/camp-{name}.sheet")), read(&format!("mended/camp-{name}")));
        let (said, out) = compared(&PLAIN, list::read, &list, &sheet, expected.len());
        assert_eq!((said[0], &out), (0, &expected), "{name}");
        assert!(expected.ends_with(&right), "{name}");
        assert_eq!((PLAIN.check_sheet)(&list, &sheet, &mut [0; 64]), [why, line, 0, 0, 2], "{name}");
    }
}
