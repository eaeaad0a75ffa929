//! `second`: reads a clash text from standard input and prints "k K" and "colours C C ..", the fewest groups and each entry's group; or
//! "refused R line L", with " column C" where there is one, and then its exit status is 1. `second --repeats` allows an edge to stand a second time.

use std::io::{self, Read, Write};
use std::process::ExitCode;

use second::{colouring, list, ENTRIES};

fn main() -> io::Result<ExitCode> {
    let words: Vec<String> = std::env::args().skip(1).collect();
    let read: list::Reading = match words.iter().map(String::as_str).collect::<Vec<_>>()[..] {
        [] => list::read,
        ["--repeats"] => list::read_repeats,
        _ => return Err(io::Error::other("usage: second [--repeats]")),
    };
    let mut text = Vec::new();
    io::stdin().lock().read_to_end(&mut text)?;
    let mut rows = [0; ENTRIES];
    let mut out = io::stdout().lock();
    match read(&text, &mut rows) {
        Ok(n) => {
            let division = colouring::fewest(&rows[..n]);
            writeln!(out, "k {}", division.k)?;
            write!(out, "colours")?;
            for colour in division.colours {
                write!(out, " {colour}")?;
            }
            writeln!(out)?;
            Ok(ExitCode::SUCCESS)
        }
        Err(refused) => {
            writeln!(out, "{}", refused.printed())?;
            Ok(ExitCode::FAILURE)
        }
    }
}
