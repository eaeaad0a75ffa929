//! Inputs: lists and matrices, texts and sheets, whole and damaged.

use bench::lists::{random, Numbers};
use second::{list, BYTES};

/// One of these.
fn pick<'a, T>(numbers: &mut Numbers, from: &'a [T]) -> &'a T {
    &from[numbers.below(from.len() as u64) as usize]
}

fn chance(numbers: &mut Numbers, percent: u64) -> bool {
    numbers.below(100) < percent
}

/// A random list of up to `most` entries, of any density.
pub fn list_of(numbers: &mut Numbers, most: usize) -> Vec<u64> {
    let n = numbers.below(most as u64 + 1) as usize;
    let percent = numbers.below(101);
    random(numbers, n, percent)
}

/// Lent rows that are often no list: bits flipped, rows too many.
pub fn matrix(numbers: &mut Numbers) -> Vec<u64> {
    let most = *pick(numbers, &[3, 8, 20, 64]);
    let mut rows = list_of(numbers, most);
    for _ in 0..numbers.below(3) {
        if !rows.is_empty() {
            let i = numbers.below(rows.len() as u64) as usize;
            let near = chance(numbers, 70);
            rows[i] ^= 1 << numbers.below(if near { rows.len() as u64 } else { 64 }).min(63);
        }
    }
    if chance(numbers, 5) {
        rows.resize(*pick(numbers, &[64, 65, 66, 100]), 0);
    }
    rows
}

/// Colour bytes, numbered by first use or nearly so.
pub fn colours(numbers: &mut Numbers) -> Vec<u8> {
    let n = *pick(numbers, &[0, 1, 2, 5, 9, 10, 11, 30, 63, 64, 64, 65, 80]);
    let (few, mut used) = (1 + numbers.below(12), 0);
    let mut bytes: Vec<u8> = (0..n)
        .map(|_| {
            let group = numbers.below(few).min(used);
            used = used.max(group + 1);
            group as u8
        })
        .collect();
    if n > 0 && chance(numbers, 30) {
        let i = numbers.below(n as u64) as usize;
        bytes[i] = *pick(numbers, &[0, 1, used as u8, used as u8 + 1, 63, 64, 255]);
    }
    bytes
}

/// A clash text and a sheet that may go with it, with the length of a colour buffer.
#[derive(Clone, Debug)]
pub struct Sample {
    pub list: Vec<u8>,
    pub sheet: Vec<u8>,
    pub room: usize,
}

/// A sample: the list whole or damaged, the sheet of a clash-free division of it, whole or damaged.
pub fn sample(numbers: &mut Numbers) -> Sample {
    let most = *pick(numbers, &[2, 6, 12, 12, 30, 64]);
    let rows = list_of(numbers, most);
    let n = rows.len();
    let mut list = list_text(numbers, &rows);
    let mut groups = division(numbers, &rows);
    if chance(numbers, 45) {
        misplace(numbers, &mut groups);
    }
    let mut sheet = sheet_text(&groups);
    match numbers.below(10) {
        0..=3 => damage(numbers, &mut list, n),
        4..=5 => damage_line(numbers, &mut list),
        _ => {}
    }
    if chance(numbers, 60) {
        damage(numbers, &mut sheet, n);
    }
    Sample { list, sheet, room: *pick(numbers, &[n, n, n, n, n + 3, n.saturating_sub(1), 0, 64, 70]) }
}

/// A text of the list: edges in any order and either way round, in one text of five some twice, comments anywhere.
fn list_text(numbers: &mut Numbers, rows: &[u64]) -> Vec<u8> {
    let mut edges: Vec<String> = Vec::new();
    let twice = if chance(numbers, 20) { 5 } else { 0 };
    for (i, row) in rows.iter().enumerate() {
        for j in (i + 1..rows.len()).filter(|j| row >> j & 1 == 1) {
            for _ in 0..if chance(numbers, twice) { 2 } else { 1 } {
                let (u, v) = if chance(numbers, 50) { (i + 1, j + 1) } else { (j + 1, i + 1) };
                edges.insert(numbers.below(edges.len() as u64 + 1) as usize, format!("e {u} {v}\n"));
            }
        }
    }
    let mut lines = vec![format!("p edge {} {}\n", rows.len(), edges.len())];
    lines.append(&mut edges);
    for _ in 0..numbers.below(3) {
        let some = [
            "c \n",
            "c\n",
            "c---\n",
            "comment\n",
            "c\r\n",
            "c\u{0}\n",
            "ce 1 2\n",
            "c who helps whom\n",
            "c  e 1 2\n",
            "c c\n",
            "c \u{fc}\u{0}\r\n",
        ];
        let comment = *pick(numbers, &some);
        lines.insert(numbers.below(lines.len() as u64 + 1) as usize, comment.into());
    }
    lines.concat().into_bytes()
}

/// Groups of a clash-free division by smallest member, each rising: each entry into a random group that admits it, or a new one.
fn division(numbers: &mut Numbers, rows: &[u64]) -> Vec<Vec<usize>> {
    let mut groups: Vec<Vec<usize>> = Vec::new();
    for (i, row) in rows.iter().enumerate() {
        let open: Vec<usize> = (0..groups.len()).filter(|&g| groups[g].iter().all(|j| row >> j & 1 == 0)).collect();
        if open.is_empty() || chance(numbers, 20) {
            groups.push(vec![i]);
        } else {
            let g = *pick(numbers, &open);
            groups[g].push(i);
        }
    }
    groups
}

/// A hand's slip: a member left out, put also into another group, moved there, or two groups changed about.
fn misplace(numbers: &mut Numbers, groups: &mut Vec<Vec<usize>>) {
    if groups.is_empty() {
        return;
    }
    let from = numbers.below(groups.len() as u64) as usize;
    let to = numbers.below(groups.len() as u64) as usize;
    let at = numbers.below(groups[from].len() as u64) as usize;
    let member = groups[from][at];
    match numbers.below(4) {
        0 => drop(groups[from].remove(at)),
        1 => groups[to].push(member),
        2 => {
            groups[from].remove(at);
            groups[to].push(member);
        }
        _ => groups.swap(from, to),
    }
    for group in groups.iter_mut().filter(|_| chance(numbers, 90)) {
        group.sort_unstable();
    }
    groups.retain(|group| !group.is_empty());
    if chance(numbers, 70) {
        groups.sort();
    }
}

fn sheet_text(groups: &[Vec<usize>]) -> Vec<u8> {
    let mut text = format!("groups {}\n", groups.len());
    for group in groups {
        text += &format!("size {}\n", group.len());
        for member in group {
            text += &format!("{}\n", member + 1);
        }
    }
    text.into_bytes()
}

/// A clash text, mostly whole, and a sheet of it into which a hand has typed.
pub fn typed(numbers: &mut Numbers) -> (Vec<u8>, Vec<u8>) {
    let most = *pick(numbers, &[2, 6, 12, 12, 30, 64]);
    let rows = list_of(numbers, most);
    let n = rows.len();
    let mut list = list_text(numbers, &rows);
    if chance(numbers, 10) {
        damage(numbers, &mut list, n);
    }
    let mut groups: Vec<Vec<usize>> =
        division(numbers, &rows).into_iter().map(|group| group.into_iter().map(|entry| entry + 1).collect()).collect();
    for _ in 0..numbers.below(5) {
        slip(numbers, &mut groups, n);
    }
    let mut sheet = typed_text(numbers, &groups);
    if chance(numbers, 15) {
        damage(numbers, &mut sheet, n);
    }
    (list, sheet)
}

/// A slip that leaves a sheet its shape, since the counts are those of what stands there: a name twice, another number in a name's place, a name left out,
/// two lines changed about, two groups changed about, or put together.
fn slip(numbers: &mut Numbers, groups: &mut Vec<Vec<usize>>, n: usize) {
    if groups.is_empty() {
        return groups.push(vec![numbers.below(n as u64 + 2) as usize]);
    }
    let from = numbers.below(groups.len() as u64) as usize;
    let to = numbers.below(groups.len() as u64) as usize;
    let at = numbers.below(groups[from].len() as u64) as usize;
    let place = numbers.below(groups[to].len() as u64) as usize;
    let member = groups[from][at];
    let other = groups[to][place];
    match numbers.below(8) {
        0 | 1 => groups[to].insert(place, member),
        2 => groups[from][at] = *pick(numbers, &[0, 1, n / 2, n, n + 1, 65, 9_999_999]),
        3 => drop(groups[from].remove(at)),
        4 | 5 => {
            groups[from][at] = other;
            groups[to][place] = member;
        }
        6 => groups.swap(from, to),
        _ if from != to => {
            let mut joined = groups[from].split_off(0);
            groups[to].append(&mut joined);
        }
        _ => {}
    }
    groups.retain(|group| !group.is_empty());
}

/// The sheet of these groups, of which one count in some is wrong.
fn typed_text(numbers: &mut Numbers, groups: &[Vec<usize>]) -> Vec<u8> {
    let mut wrong = |count: usize| match numbers.below(60) {
        0 => count + 1,
        1 => count.saturating_sub(1),
        2 => *pick(numbers, &[0, 9_999_999]),
        _ => count,
    };
    let mut text = format!("groups {}\n", wrong(groups.len()));
    for group in groups {
        text += &format!("size {}\n", wrong(group.len()));
        for member in group {
            text += &format!("{member}\n");
        }
    }
    text.into_bytes()
}

/// One to three damages: of bytes, of numbers, of lines, of length.
fn damage(numbers: &mut Numbers, text: &mut Vec<u8>, n: usize) {
    for _ in 0..1 + numbers.below(3) {
        match numbers.below(12) {
            0..=2 => damage_byte(numbers, text),
            3..=6 => damage_number(numbers, text, n),
            7..=10 => damage_lines(numbers, text, n),
            _ => damage_length(numbers, text),
        }
    }
}

/// A slip in one line, more often in one of the first three: it stops early, the more often the more of it stands; a byte is put in, left out or put in
/// the place of another; a number gets a zero before it or digits behind it; something that cannot be seen stands at the end. Or the text's last line
/// loses its end.
fn damage_line(numbers: &mut Numbers, text: &mut Vec<u8>) {
    let starts: Vec<usize> = (0..text.len()).filter(|&i| i == 0 || text[i - 1] == b'\n').collect();
    if starts.is_empty() {
        return;
    }
    let few = if chance(numbers, 40) { starts.len().min(3) } else { starts.len() };
    let start = starts[numbers.below(few as u64) as usize];
    let end = (start..text.len()).find(|&i| text[i] == b'\n').unwrap_or(text.len());
    let at = start + numbers.below((end - start) as u64 + 1) as usize;
    let byte = *pick(numbers, b"0123456789 \r\t-.,xepcdg\0\xff");
    let digits: Vec<usize> = (start..end).filter(|&i| text[i].is_ascii_digit()).collect();
    match numbers.below(8) {
        0 | 1 => drop(text.drain(at..end)),
        2 => text.insert(at, byte),
        3 if at < end => text[at] = byte,
        4 if at < end => drop(text.remove(at)),
        5 if !digits.is_empty() => {
            let more: &[u8] = *pick(numbers, &[&b"0"[..], b"00", b"000000", b"1234567"]);
            let place = *pick(numbers, &digits);
            text.splice(place..place, more.iter().copied());
        }
        6 => text.insert(end, *pick(numbers, b" \r\t")),
        _ => {
            if text.last() == Some(&b'\n') {
                text.pop();
            }
        }
    }
}

fn damage_byte(numbers: &mut Numbers, text: &mut Vec<u8>) {
    let byte = *pick(numbers, b"0123456789 \n\r\tepcgs-+.\0\xff");
    let at = numbers.below(text.len() as u64 + 1) as usize;
    match numbers.below(3) {
        0 if at < text.len() => text[at] = byte,
        1 if at < text.len() => drop(text.remove(at)),
        _ => text.insert(at, byte),
    }
}

/// Another number in the place of one.
fn damage_number(numbers: &mut Numbers, text: &mut Vec<u8>, n: usize) {
    let starts: Vec<usize> = (0..text.len()).filter(|&i| text[i].is_ascii_digit() && (i == 0 || !text[i - 1].is_ascii_digit())).collect();
    if starts.is_empty() {
        return;
    }
    let start = *pick(numbers, &starts);
    let end = (start..text.len()).find(|&i| !text[i].is_ascii_digit()).unwrap_or(text.len());
    let near = numbers.below(n as u64 + 1).to_string();
    let (last, next) = (n.to_string(), (n + 1).to_string());
    let (near, last, next) = (near.as_str(), last.as_str(), next.as_str());
    let number = *pick(numbers, &[near, near, near, near, last, next, "0", "1", "64", "65", "65", "9999999", "10000000", "01", "00"]);
    text.splice(start..end, number.bytes());
}

fn damage_lines(numbers: &mut Numbers, text: &mut Vec<u8>, n: usize) {
    let mut lines: Vec<Vec<u8>> = text.split_inclusive(|&b| b == b'\n').map(<[u8]>::to_vec).collect();
    let at = numbers.below(lines.len() as u64 + 1) as usize;
    match numbers.below(5) {
        0 if at < lines.len() => drop(lines.remove(at)),
        1 if at < lines.len() => lines.insert(at, lines[at].clone()),
        2 | 3 if at < lines.len() => {
            let other = numbers.below(lines.len() as u64) as usize;
            lines.swap(at, other);
        }
        _ => {
            let (u, v) = (1 + numbers.below(n as u64 + 1), 1 + numbers.below(n as u64 + 1));
            let edge = format!("e {u} {v}\n");
            let member = format!("{u}\n");
            let head = format!("p edge {n} 0\n");
            let line =
                *pick(numbers, &["\n", "c\n", "c x\n", "c---\n", "size 1\n", "size 0\n", "groups 1\n", &edge, &edge, &member, &head]);
            lines.insert(at, line.into());
        }
    }
    *text = lines.concat();
}

fn damage_length(numbers: &mut Numbers, text: &mut Vec<u8>) {
    match numbers.below(4) {
        0 => drop(text.pop()),
        1 => text.truncate(numbers.below(text.len() as u64 + 1) as usize),
        2 => text.clear(),
        _ => {
            let byte = *pick(numbers, b"\nx1");
            text.resize(*pick(numbers, &[BYTES - 1, BYTES, BYTES + 1]), byte);
        }
    }
}

/// The list of a text, where it is one.
pub fn rows_of(text: &[u8]) -> Option<Vec<u64>> {
    let mut rows = vec![0; 64];
    let n = list::read(text, &mut rows).ok()?;
    rows.truncate(n);
    Some(rows)
}
