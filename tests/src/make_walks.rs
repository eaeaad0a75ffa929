//! Writes into a folder what `tests/walks` holds: lists, what the described walk says of them, of the public graphs and of the examples, and
//! their sheets.
//!
//!     make-walks FOLDER GRAPHS EXAMPLES
//!
//! - `NAME.col`: lists of this folder, made here;
//! - `expected`: "NAME k nodes", for each list of the three folders that the walk ends within the budget; k is the second program's too;
//! - `refused`: "NAME 6 nodes", for the others;
//! - `shrunk`: "NAME k nodes", for each list whose walk over what shrinking leaves ends within the budget;
//! - `repeats`: "NAME 20 line", for those that list an edge twice, which only the reading of repeats allows;
//! - `sheets/NAME`: what `slotsheet --repeats` prints for the list.

use std::fs;
use std::io;
use std::path::{Path, PathBuf};

use bench::lists::load;
use bench::{described, shrunk, tuned};
use comparisons::{lists, BUDGET};
use second::{colouring, list, sheet};

fn write_lists(folder: &Path) -> io::Result<()> {
    for (name, rows) in lists::all() {
        fs::write(folder.join(format!("{name}.col")), list::text_of(&rows))?;
    }
    Ok(())
}

fn lists_of(folder: &Path) -> io::Result<Vec<PathBuf>> {
    let files: io::Result<Vec<PathBuf>> = fs::read_dir(folder)?.map(|file| Ok(file?.path())).collect();
    Ok(files?.into_iter().filter(|path| path.extension().is_some_and(|end| end == "col")).collect())
}

fn main() -> io::Result<()> {
    let folders: Vec<PathBuf> = std::env::args().skip(1).map(PathBuf::from).collect();
    let [folder, graphs, examples] = &folders[..] else {
        return Err(io::Error::other("usage: make-walks FOLDER GRAPHS EXAMPLES"));
    };
    write_lists(folder)?;
    fs::create_dir_all(folder.join("sheets"))?;
    let mut paths = lists_of(folder)?;
    paths.extend(lists_of(graphs)?);
    paths.extend(lists_of(examples)?);
    paths.sort_by_key(|path| path.file_stem().map(|name| name.to_owned()));
    let (mut expected, mut refused, mut after, mut repeats) = (String::new(), String::new(), String::new(), String::new());
    for path in paths {
        let name = path.file_stem().expect("a file").to_string_lossy().into_owned();
        let rows = load(&path)?;
        if let Err(why) = list::read(&fs::read(&path)?, &mut [0; 64]) {
            repeats += &format!("{name} {} {}\n", why.why.number(), why.place);
        }
        let mut colours = vec![0; rows.len()];
        let mut again = colours.clone();
        let walked = described::fewest(&rows, &mut colours, BUDGET);
        assert_eq!(walked, tuned::fewest(&rows, &mut again, BUDGET), "{name}");
        assert_eq!(colours, again, "{name}");
        if let Ok(walked) = shrunk(&rows, &mut again, BUDGET) {
            after += &format!("{name} {} {}\n", walked.k, walked.nodes);
        }
        let shown = match walked {
            Ok(walked) => {
                assert_eq!(walked.k as usize, colouring::fewest(&rows).k, "{name}");
                expected += &format!("{name} {} {}\n", walked.k, walked.nodes);
                let mut out = [0; 1024];
                let length = sheet::write(&colours, &mut out).expect("a division of at most 64 entries");
                out[..length].to_vec()
            }
            Err(why) => {
                refused += &format!("{name} {} {}\n", why.why.number(), why.place);
                format!("refused {} line 0\n", why.why.number()).into_bytes()
            }
        };
        fs::write(folder.join("sheets").join(name), shown)?;
    }
    fs::write(folder.join("expected"), expected)?;
    fs::write(folder.join("shrunk"), after)?;
    fs::write(folder.join("repeats"), repeats)?;
    fs::write(folder.join("refused"), refused)
}
