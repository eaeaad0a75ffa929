//! The crate's numbers, names, limits and sentences against bindings/interface.txt, and the sentences of refusals that the library gave.

use slotsheet::{Beside, Refusal};

fn rows(kind: &str) -> Vec<Vec<String>> {
    let path = concat!(env!("CARGO_MANIFEST_DIR"), "/../interface.txt");
    let text = std::fs::read_to_string(path).expect("the table");
    let fields = |line: &str| line.split(" | ").map(str::to_string).collect::<Vec<_>>();
    text.lines().map(fields).filter(|row| row[0] == kind).collect()
}

#[test]
fn every_refusal_has_its_row() {
    let table = rows("refusal");
    assert_eq!(table.len(), Refusal::all().count());
    for (row, refusal) in table.iter().zip(Refusal::all()) {
        let beside = match refusal.beside() {
            Beside::Nothing => "-",
            Beside::Row => "row",
            Beside::Line => "line",
            Beside::Spot => "spot",
            Beside::Index => "index",
            Beside::Nodes => "nodes",
        };
        assert_eq!([&row[1], &row[2], &row[3]], [&refusal.number().to_string(), refusal.name(), beside]);
        let said = |entry: &str| {
            let numbers = row[5].replace("{place}", "7").replace("{column}", "3").replace("{next}", "8");
            numbers.replace("{entry}", entry)
        };
        assert_eq!(refusal.sentence(7, 3, b"12"), said("entry 12"));
        for shown in ["", "size 1", "12345678", "1 2", "-1"] {
            assert_eq!(refusal.sentence(7, 3, shown.as_bytes()), said("the entry on this line"));
        }
    }
}

#[test]
fn version_and_limits() {
    assert_eq!(rows("version")[0][1], slotsheet::VERSION);
    assert_eq!(env!("CARGO_PKG_VERSION"), slotsheet::VERSION);
    let limits = [
        ("ENTRIES", slotsheet::ENTRIES),
        ("BYTES", slotsheet::BYTES),
        ("SHEET_BYTES", slotsheet::SHEET_BYTES),
        ("LIST_BYTES", slotsheet::LIST_BYTES),
        ("MEND_BYTES", slotsheet::MEND_BYTES),
        ("NODES", slotsheet::NODES),
        ("STACK_BYTES", slotsheet::STACK_BYTES),
    ];
    let found: Vec<(String, String)> = rows("limit").into_iter().map(|row| (row[1].clone(), row[2].clone())).collect();
    assert_eq!(found, limits.map(|(name, value)| (name.to_string(), value.to_string())));
}

#[test]
fn refusals_in_words() {
    let stray = slotsheet::validity(&[0, 4]).unwrap_err();
    assert_eq!(stray.to_string(), "entry 2 is marked as clashing with an entry that the list does not have (row 1)");
    let spent = slotsheet::fewest(&[0, 0], &mut [0; 2], 2).unwrap_err();
    assert_eq!(spent.to_string(), "the search for the fewest sittings was given up after 2 steps, as many as it was allowed");
    let gone = slotsheet::read_list(b"p edge 2 1\ne  1 2\n", &mut [0; 2]).unwrap_err();
    let number = "here a number must start, and there is none; or a number goes on here after a leading 0 or its seventh digit";
    assert_eq!(gone.to_string(), format!("line 2, column 3: {number}"));
    let (list, sheet) = (b"p edge 2 0\n", b"groups 2\nsize 2\n1\n2\nsize 1\n2\n");
    let fault = slotsheet::check_sheet(list, sheet, &mut [0; 2]).unwrap_err();
    let error: Box<dyn std::error::Error> = fault.into();
    assert_eq!(error.to_string(), "sheet: line 6: the entry on this line stands in an earlier group");
    let shown = slotsheet::fault_line(list, sheet, 2);
    assert_eq!(fault.sentence(shown), "sheet: line 6: entry 2 stands in an earlier group");
}
