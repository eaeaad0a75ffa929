//! Reads a clash list from the named file and prints its sitting sheet. Of two files, checks the second, a sheet, against the first, and prints
//! "groups K". What is refused is said in words, with status 1.
//!
//!     cargo run --example example list.col

use std::error::Error;
use std::io::Write;
use std::process::ExitCode;

use slotsheet::{check_sheet, fault_line, fewest, read_list, write_sheet, Refused, ENTRIES, NODES, SHEET_BYTES};

fn sheet_of(text: &[u8]) -> Result<Vec<u8>, Refused> {
    let mut rows = [0; ENTRIES];
    let n = read_list(text, &mut rows)?;
    let mut colours = [0; ENTRIES];
    fewest(&rows[..n], &mut colours, NODES as u64)?;
    let mut out = vec![0; SHEET_BYTES];
    let length = write_sheet(&colours[..n], &mut out)?;
    out.truncate(length);
    Ok(out)
}

fn groups_of(list: &[u8], sheet: &[u8]) -> Result<Vec<u8>, String> {
    let mut colours = [0; ENTRIES];
    match check_sheet(list, sheet, &mut colours) {
        Ok(k) => Ok(format!("groups {k}\n").into_bytes()),
        Err(fault) => Err(fault.sentence(fault_line(list, sheet, ENTRIES))),
    }
}

fn take(name: &str) -> Result<Vec<u8>, String> {
    std::fs::read(name).map_err(|error| format!("{name}: {error}"))
}

/// What to print, or the sentence of a refusal; a wrong use is an error.
fn answer(names: &[String]) -> Result<Result<Vec<u8>, String>, Box<dyn Error>> {
    match names {
        [list] => Ok(sheet_of(&take(list)?).map_err(|refused| refused.to_string())),
        [list, sheet] => Ok(groups_of(&take(list)?, &take(sheet)?)),
        _ => Err("usage: example LIST [SHEET]".into()),
    }
}

fn main() -> ExitCode {
    let names: Vec<String> = std::env::args().skip(1).collect();
    let (printed, status) = match answer(&names) {
        Ok(Ok(printed)) => (printed, 0),
        Ok(Err(sentence)) => (format!("{sentence}\n").into_bytes(), 1),
        Err(wrong) => {
            eprintln!("{wrong}");
            return ExitCode::from(2);
        }
    };
    let written = std::io::stdout().write_all(&printed);
    ExitCode::from(if written.is_ok() { status } else { 3 })
}
