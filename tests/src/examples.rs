//! The texts of tests/examples.txt: what is stored there is what the second program, the proved library and its wrappers say.

use second::list::Reading;
use second::{list, mend, sheet, Refused};

use crate::calls::{Calls, PLAIN, REPEATS};

/// A text, the readings that it is an example of, and what is told of it: refusal, line and column.
struct Example {
    plain: bool,
    repeats: bool,
    told: [usize; 3],
    text: Vec<u8>,
}

/// A text as printf takes it.
fn unescaped(text: &str) -> Vec<u8> {
    let mut bytes = text.bytes();
    let mut out = Vec::new();
    while let Some(byte) = bytes.next() {
        out.push(match (byte, if byte == b'\\' { bytes.next() } else { None }) {
            (b'\\', Some(b'n')) => b'\n',
            (b'\\', Some(b'r')) => b'\r',
            (b'\\', Some(first)) => {
                let digits = [first, bytes.next().expect("octal"), bytes.next().expect("octal")];
                digits.iter().fold(0, |value, digit| value * 8 + (digit - b'0'))
            }
            _ => byte,
        });
    }
    out
}

fn examples() -> Vec<Example> {
    let stored = std::fs::read_to_string(concat!(env!("CARGO_MANIFEST_DIR"), "/examples.txt")).expect("stored");
    let lines = stored.lines().filter(|line| !line.is_empty() && !line.starts_with('#'));
    let example = |line: &str| {
        let fields: Vec<&str> = line.splitn(5, ' ').collect();
        assert!(["plain", "repeats", "both"].contains(&fields[0]), "{line}");
        let told = [1, 2, 3].map(|at| fields[at].parse().expect("a number"));
        Example { plain: fields[0] != "repeats", repeats: fields[0] != "plain", told, text: unescaped(fields[4]) }
    };
    lines.map(example).collect()
}

/// Each text of one reading, and what is told of it.
fn by_plain() -> impl Iterator<Item = ([usize; 3], Vec<u8>)> {
    examples().into_iter().filter(|example| example.plain).map(|example| (example.told, example.text))
}

fn by_repeats() -> impl Iterator<Item = ([usize; 3], Vec<u8>)> {
    examples().into_iter().filter(|example| example.repeats).map(|example| (example.told, example.text))
}

const SHEET: &[u8] = b"groups 0\n";

fn second_says(read: Reading, other: Reading, told: [usize; 3], text: &[u8]) {
    let same = |said: Option<Refused>| {
        let said = said.map_or([0; 3], |Refused { why, place, column }| [why.number() as usize, place as usize, column as usize]);
        assert_eq!(said, told, "{:?}", String::from_utf8_lossy(text));
    };
    same(read(text, &mut [0; 64]).err());
    same(other(text, &mut [0; 64]).err());
    for answer in [sheet::check_by(read, text, SHEET, &mut [0; 64]), mend::mend_by(read, text, SHEET, &mut [0; 64])] {
        match answer {
            Err(fault) if fault.text == sheet::Text::List => same(Some(fault.refused)),
            _ => same(None),
        }
    }
}

#[test]
fn by_the_second_program() {
    by_plain().for_each(|(told, text)| second_says(list::read, bench::reading::read, told, &text));
    by_repeats().for_each(|(told, text)| second_says(list::read_repeats, bench::reading::read_repeats, told, &text));
}

fn library_says(calls: &Calls, told: [usize; 3], text: &[u8]) {
    let [refusal, line, column, _] = (calls.read_list)(text, &mut [0; 64]);
    assert_eq!([refusal, line, column], told, "{:?}", String::from_utf8_lossy(text));
    let said = (calls.check_sheet)(text, SHEET, &mut [0; 64]);
    let mended = (calls.mend_sheet)(text, SHEET, &mut [0; 64]);
    if refusal > 0 {
        assert_eq!([said, mended], [[refusal, line, column, 0, 1]; 2]);
        assert_eq!((calls.fault_line)(text, SHEET, 64)[0], 1);
        let mut printed = format!("refused {refusal} line {line}");
        if column > 0 {
            printed += &format!(" column {column}");
        }
        let mut out = [0; 64];
        let [_, _, length] = (calls.answer)(text, &mut out);
        assert_eq!(String::from_utf8_lossy(&out[..length]), printed + "\n");
    } else {
        assert_ne!(said[4], 1);
        assert_ne!(mended[4], 1);
    }
}

#[test]
fn by_the_library() {
    by_plain().for_each(|(told, text)| library_says(&PLAIN, told, &text));
    by_repeats().for_each(|(told, text)| library_says(&REPEATS, told, &text));
}

type Checked = Result<usize, slotsheet::Fault>;

fn wrappers_say(read: Result<usize, slotsheet::Refused>, check: Checked, mend: Checked, told: [usize; 3]) {
    let Err(refused) = read else {
        return assert_eq!(told, [0; 3]);
    };
    assert_eq!([refused.why.number(), refused.place as usize, refused.column], told);
    let start = if told[2] > 0 { format!("line {}, column {}: ", told[1], told[2]) } else { format!("line {}: ", told[1]) };
    assert!(refused.to_string().starts_with(&start), "{refused}");
    for answer in [check, mend] {
        let fault = answer.expect_err("the list is at fault");
        assert_eq!((fault.text, fault.refused), (slotsheet::Text::List, refused));
    }
}

#[test]
fn by_the_wrappers() {
    let (mut rows, mut colours, mut out) = ([0; 64], [0; 64], [0; 64]);
    for (told, text) in by_plain() {
        let (check, mend) = (slotsheet::check_sheet(&text, SHEET, &mut colours), slotsheet::mend_sheet(&text, SHEET, &mut out));
        wrappers_say(slotsheet::read_list(&text, &mut rows), check, mend, told);
    }
    for (told, text) in by_repeats() {
        let (check, mend) =
            (slotsheet::check_sheet_repeats(&text, SHEET, &mut colours), slotsheet::mend_sheet_repeats(&text, SHEET, &mut out));
        wrappers_say(slotsheet::read_list_repeats(&text, &mut rows), check, mend, told);
    }
}
