//! The fewest groups of a list, exactly, by saturation branch and bound: colour next the entry that sees the most colours, give it each colour
//! that it may have, and never more colours than beat the best known. No graph is ever merged; the lower bound is one clique.

use crate::matrix::has;

/// An exact answer: k, and colours numbered by first use.
#[derive(Clone, Debug, PartialEq, Eq)]
pub struct Division {
    pub k: usize,
    pub colours: Vec<u8>,
}

const NONE: usize = usize::MAX;

struct Search {
    neighbours: Vec<Vec<usize>>,
    colour: Vec<usize>,
    /// `seen[v][c]`: how many neighbours of v have colour c.
    seen: Vec<Vec<usize>>,
    /// How many colours v sees.
    saturation: Vec<usize>,
    /// How many neighbours of v have no colour yet.
    open: Vec<usize>,
    lower: usize,
    best: usize,
    best_colour: Vec<usize>,
}

impl Search {
    fn new(rows: &[u64]) -> Search {
        let n = rows.len();
        let neighbours: Vec<Vec<usize>> = (0..n).map(|i| (0..n).filter(|&j| has(rows, i, j)).collect()).collect();
        Search {
            colour: vec![NONE; n],
            seen: vec![vec![0; n]; n],
            saturation: vec![0; n],
            open: neighbours.iter().map(Vec::len).collect(),
            neighbours,
            lower: 0,
            best: n,
            best_colour: (0..n).collect(),
        }
    }

    fn give(&mut self, v: usize, c: usize) {
        self.colour[v] = c;
        for &w in &self.neighbours[v] {
            self.open[w] -= 1;
            self.saturation[w] += usize::from(self.seen[w][c] == 0);
            self.seen[w][c] += 1;
        }
    }

    fn take_back(&mut self, v: usize, c: usize) {
        self.colour[v] = NONE;
        for &w in &self.neighbours[v] {
            self.open[w] += 1;
            self.seen[w][c] -= 1;
            self.saturation[w] -= usize::from(self.seen[w][c] == 0);
        }
    }

    /// The colours below `used` that v may have.
    fn free(&self, v: usize, used: usize) -> impl Iterator<Item = usize> + '_ {
        (0..used).filter(move |&c| self.seen[v][c] == 0)
    }

    /// The uncoloured entry that sees the most colours; among equals the one whose free colours are most often also free for an uncoloured
    /// neighbour of the same saturation, then the one with most uncoloured neighbours, then the lowest.
    fn next(&self, used: usize) -> Option<usize> {
        let uncoloured = || (0..self.colour.len()).filter(|&v| self.colour[v] == NONE);
        let most = uncoloured().map(|v| self.saturation[v]).max()?;
        let tied: Vec<usize> = uncoloured().filter(|&v| self.saturation[v] == most).collect();
        let shared = |v: usize| -> usize {
            let near = self.neighbours[v].iter().filter(|&&w| self.colour[w] == NONE && self.saturation[w] == most);
            near.map(|&w| self.free(v, used).filter(|&c| self.seen[w][c] == 0).count()).sum()
        };
        let key = |v: usize| (if tied.len() > 1 { shared(v) } else { 0 }, self.open[v]);
        tied.iter().copied().map(|v| (key(v), v)).reduce(|first, other| if other.0 > first.0 { other } else { first }).map(|(_, v)| v)
    }

    /// All ways to finish with fewer colours than the best known.
    fn finish(&mut self, used: usize) {
        if used >= self.best {
            return;
        }
        let Some(v) = self.next(used) else {
            self.best = used;
            self.best_colour.clone_from(&self.colour);
            return;
        };
        let mut colours: Vec<usize> = self.free(v, used).collect();
        colours.push(used);
        for c in colours {
            if c + 1 >= self.best || self.best == self.lower {
                return;
            }
            self.give(v, c);
            self.finish(used.max(c + 1));
            self.take_back(v, c);
        }
    }
}

/// A clique, largest of those grown from each entry by always adding the candidate with most neighbours among the candidates.
fn clique(neighbours: &[Vec<usize>]) -> Vec<usize> {
    let n = neighbours.len();
    let mut largest = Vec::new();
    for start in 0..n {
        let mut members = vec![start];
        let mut candidates = neighbours[start].clone();
        while !candidates.is_empty() {
            let within = |v: &usize| neighbours[*v].iter().filter(|w| candidates.contains(w)).count();
            let added = *candidates.iter().max_by_key(|&v| (within(v), n - v)).expect("some candidate");
            members.push(added);
            candidates.retain(|v| neighbours[added].contains(v));
        }
        if members.len() > largest.len() {
            largest = members;
        }
    }
    largest
}

/// Numbers groups by their smallest member.
fn by_first_use(colour: &[usize]) -> Vec<u8> {
    let mut order: Vec<usize> = Vec::new();
    let number = |c: &usize| match order.iter().position(|known| known == c) {
        Some(number) => number as u8,
        None => {
            order.push(*c);
            (order.len() - 1) as u8
        }
    };
    colour.iter().map(number).collect()
}

/// The fewest groups of a valid list, and a division that attains them.
pub fn fewest(rows: &[u64]) -> Division {
    let mut search = Search::new(rows);
    let clique = clique(&search.neighbours);
    search.lower = clique.len();
    for (c, &v) in clique.iter().enumerate() {
        search.give(v, c);
    }
    search.finish(clique.len());
    Division { k: search.best, colours: by_first_use(&search.best_colour) }
}

#[cfg(test)]
mod tests {
    use super::*;
    use crate::matrix::{all_divisions, groups, is_clash_free, rows_of};

    fn fewest_checked(rows: &[u64]) -> usize {
        let division = fewest(rows);
        assert_eq!(groups(&division.colours), Ok(division.k));
        assert!(is_clash_free(rows, &division.colours));
        division.k
    }

    #[test]
    fn the_papers_lists() {
        assert_eq!(fewest_checked(&[]), 0);
        assert_eq!(fewest_checked(&[0]), 1);
        assert_eq!(fewest_checked(&[0, 0]), 1);
        assert_eq!(fewest_checked(&[2, 1]), 2);
        assert_eq!(fewest_checked(&rows_of(5, &[(0, 1), (1, 2), (2, 3), (3, 4), (0, 4)])), 3);
        assert_eq!(fewest_checked(&[0; 64]), 1);
        let all: Vec<u64> = (0..64).map(|i| !(1u64 << i)).collect();
        assert_eq!(fewest_checked(&all), 64);
    }

    #[test]
    fn every_list_of_up_to_five_entries() {
        for n in 0..=5 {
            let pairs: Vec<(usize, usize)> = (0..n).flat_map(|i| (i + 1..n).map(move |j| (i, j))).collect();
            for chosen in 0..1u32 << pairs.len() {
                let clashes: Vec<(usize, usize)> =
                    pairs.iter().enumerate().filter(|(bit, _)| chosen >> bit & 1 == 1).map(|(_, &pair)| pair).collect();
                let rows = rows_of(n, &clashes);
                assert_eq!(fewest_checked(&rows), all_divisions(&rows).1, "{clashes:?} of {n}");
            }
        }
    }
}
