//! The bounded walk made fast, with document 01's answers, colours and counts:
//!
//! - cliques are grown one by one, each by its set of candidates, instead of offering every vertex to every clique;
//! - the bound is only asked whether it reaches the best size, so it stops at the first clique, or round, that does;
//! - the first Mycielskian round, of a maximal clique, needs only the vertices that miss one member, and stops where no top is left;
//! - the pair choice passes over vertices whose degree is below the best count, and counts the common neighbours of a vertex with all others at
//!   once where that is less work;
//! - a vertex that has left stays in its neighbours' rows: rows are read through the live set; groups are found from the path of mergings.

use crate::sets::{above, below, bit, lowest, size, Members};
use crate::{admit, judge, Walked};
use second::{Refusal, Refused};

type Rows = [u64; 64];

/// A clique of the live vertices and its size.
#[derive(Clone, Copy)]
struct Clique {
    members: u64,
    size: u32,
}

impl Clique {
    fn take(&mut self, v: usize) -> usize {
        self.members |= bit(v);
        self.size += 1;
        v
    }
}

/// The largest clique by document 01's rule, or the first one found that reaches `enough`. A vertex opens a clique where no clique opened
/// before has taken it in the first pass; the second pass can add only vertices below the opener.
fn clique(rows: &Rows, live: u64, enough: u32) -> Clique {
    let mut largest = Clique { members: 0, size: 0 };
    let mut untaken = live;
    while untaken != 0 {
        let opener = lowest(untaken);
        let higher = above(opener);
        let mut grown = Clique { members: bit(opener), size: 1 };
        let mut candidates = rows[opener] & live;
        while candidates & higher != 0 {
            candidates &= rows[grown.take(lowest(candidates & higher))];
        }
        untaken &= !grown.members;
        if grown.size + size(candidates) <= largest.size {
            continue;
        }
        while candidates != 0 {
            candidates &= rows[grown.take(lowest(candidates))];
        }
        if grown.size > largest.size {
            largest = grown;
            if grown.size >= enough {
                break;
            }
        }
    }
    largest
}

/// W of the first round. The clique is maximal, so S(v) is v and the vertices that miss v alone of all members, and no member is in W.
fn first_tops(rows: &Rows, live: u64, clique: u64) -> u64 {
    let outside = live & !clique;
    let (mut missing_one, mut missing_more) = (0, 0);
    for v in Members(clique) {
        let missing = outside & !rows[v];
        missing_more |= missing_one & missing;
        missing_one |= missing;
    }
    let single = outside & !missing_more;
    let mut tops = if single == 0 { 0 } else { outside };
    let mut rest = clique;
    while rest != 0 && tops != 0 {
        let v = lowest(rest);
        rest &= rest - 1;
        let mut near = rows[v];
        for x in Members(single & !rows[v]) {
            near |= rows[x];
        }
        tops &= near;
    }
    tops
}

/// H of the Mycielskian bound.
struct Partial {
    vertices: u64,
    edges: Rows,
    /// S(v) of the present round.
    fitting: Rows,
}

impl Partial {
    fn of(clique: u64) -> Partial {
        let mut partial = Partial { vertices: clique, edges: [0; 64], fitting: [0; 64] };
        for v in Members(clique) {
            partial.edges[v] = clique & !bit(v);
        }
        partial
    }

    /// Finds S(v) of each v and returns W, 0 as soon as it is empty.
    fn tops(&mut self, rows: &Rows, live: u64) -> u64 {
        let mut tops = live;
        for v in Members(self.vertices) {
            let fitting = Members(self.edges[v]).fold(live, |set, x| set & rows[x]);
            self.fitting[v] = fitting;
            tops &= Members(fitting).fold(0, |set, x| set | rows[x]);
            if tops == 0 {
                break;
            }
        }
        tops
    }

    /// H of the next round.
    fn extend(&mut self, rows: &Rows, top: usize) {
        let old = self.edges;
        for v in Members(self.vertices) {
            let chosen = lowest(self.fitting[v] & rows[top]);
            self.vertices |= bit(chosen);
            self.edges[top] |= bit(chosen);
            self.edges[chosen] |= bit(top) | old[v];
            for x in Members(old[v]) {
                self.edges[x] |= bit(chosen);
            }
        }
        self.vertices |= bit(top);
    }
}

/// Whether the Mycielskian bound is at least `best`.
fn reaches(rows: &Rows, live: u64, best: u32) -> bool {
    let count = size(live);
    if count < best {
        return false;
    }
    let clique = clique(rows, live, best);
    if clique.size >= best {
        return true;
    }
    if clique.size == count || first_tops(rows, live, clique.members) == 0 {
        return false;
    }
    if clique.size + 1 >= best {
        return true;
    }
    rounds(rows, live, clique, best) >= best
}

/// The bound by all rounds from the first, or by as many as reach `enough`.
#[cold]
#[inline(never)]
fn rounds(rows: &Rows, live: u64, clique: Clique, enough: u32) -> u32 {
    let mut partial = Partial::of(clique.members);
    let mut bound = clique.size;
    while bound < enough && size(partial.vertices) < size(live) {
        let tops = partial.tops(rows, live);
        if tops == 0 {
            break;
        }
        bound += 1;
        partial.extend(rows, lowest(tops));
    }
    bound
}

/// For each vertex, how many rows of a set have it: slice i holds bit i of every count.
#[derive(Clone, Copy)]
struct Counts([u64; 7]);

/// One bit of a sum, and its carry.
fn add(a: u64, b: u64, c: u64) -> (u64, u64) {
    let half = a ^ b;
    (half ^ c, a & b | half & c)
}

impl Counts {
    fn of(rows: &Rows, mut set: u64) -> Counts {
        let mut slices = [0; 7];
        let fours = size(set).div_ceil(4);
        let mut next = || {
            let v = set.trailing_zeros() as usize;
            set &= set.wrapping_sub(1);
            rows.get(v).copied().unwrap_or(0)
        };
        for _ in 0..fours {
            let (a, b, c, d) = (next(), next(), next(), next());
            let (ones, first) = add(slices[0], a, b);
            let (ones, second) = add(ones, c, d);
            let (twos, mut carry) = add(slices[1], first, second);
            slices[0] = ones;
            slices[1] = twos;
            for slice in &mut slices[2..] {
                let sum = *slice ^ carry;
                carry &= *slice;
                *slice = sum;
            }
        }
        Counts(slices)
    }

    /// The largest count in a set, and the members that have it.
    fn most(&self, set: u64) -> (usize, u64) {
        let (mut having, mut count) = (set, 0);
        for (i, slice) in self.0.iter().enumerate().rev() {
            if having & slice != 0 {
                having &= slice;
                count |= 1 << i;
            }
        }
        (count, having)
    }

    /// The vertices whose count is at least this.
    fn at_least(&self, least: usize) -> u64 {
        let (mut greater, mut equal) = (0, u64::MAX);
        for (i, slice) in self.0.iter().enumerate().rev() {
            if least >> i & 1 == 0 {
                greater |= equal & slice;
                equal &= !slice;
            } else {
                equal &= slice;
            }
        }
        greater | equal
    }
}

/// The pair to split.
#[derive(Clone, Copy)]
struct Pair {
    u: usize,
    v: usize,
}

fn pair(rows: &Rows, live: u64) -> Option<Pair> {
    let degrees = Counts::of(rows, live);
    let mut chosen = None;
    let mut need = 0;
    let mut rest = live;
    while rest != 0 {
        let u = lowest(rest);
        rest &= rest - 1;
        let row = rows[u] & live;
        let others = rest & !row;
        if others == 0 {
            continue;
        }
        let (common, best) = most_common(rows, row, others);
        if common >= need {
            chosen = Some(Pair { u, v: lowest(best) });
            need = common + 1;
            rest &= degrees.at_least(need);
        }
    }
    chosen
}

/// The most neighbours that a vertex with this row shares with one of `others`, and those that share as many, at least the lowest of them.
fn most_common(rows: &Rows, row: u64, others: u64) -> (usize, u64) {
    if 2 * size(others) > size(row) + 8 {
        return Counts::of(rows, row).most(others);
    }
    let (mut most, mut having) = (0, others);
    for v in Members(others) {
        let common = size(row & rows[v]) as usize;
        if common > most {
            (most, having) = (common, bit(v));
        }
    }
    (most, having)
}

struct State<W> {
    budget: u64,
    nodes: u64,
    best: u32,
    /// The mergings on the way to the best division, each `v` into `u`.
    best_path: [Pair; 64],
    best_length: usize,
    path: [Pair; 64],
    /// Is told each graph at which a pair is chosen; nothing where a walk is measured.
    watch: W,
}

impl<W: FnMut(&Rows, u64)> State<W> {
    fn start(n: usize, budget: u64, watch: W) -> State<W> {
        let nowhere = [Pair { u: 0, v: 0 }; 64];
        State { budget, nodes: 0, best: n as u32, best_path: nowhere, best_length: 0, path: nowhere, watch }
    }

    /// Walks from a node whose rows are its own; false where the budget is spent.
    fn enter(&mut self, rows: &mut Rows, live: u64, level: usize) -> bool {
        loop {
            if self.nodes == self.budget {
                return false;
            }
            self.nodes += 1;
            if reaches(rows, live, self.best) {
                return true;
            }
            (self.watch)(rows, live);
            let Some(pair) = pair(rows, live) else {
                self.best = size(live);
                self.best_path = self.path;
                self.best_length = level;
                return true;
            };
            self.path[level] = pair;
            if !self.enter(&mut merged(rows, live, pair), live & !bit(pair.v), level + 1) {
                return false;
            }
            rows[pair.u] |= bit(pair.v);
            rows[pair.v] |= bit(pair.u);
        }
    }

    /// Colours by the best path: an entry has the group of the vertex it was merged into.
    fn colour(&self, colours: &mut [u8], n: usize) {
        let mut into: [usize; 64] = std::array::from_fn(|i| i);
        for pair in &self.best_path[..self.best_length] {
            into[pair.v] = pair.u;
        }
        let mut groups = 0;
        for i in 0..n {
            // A vertex is merged into a lower one, whose colour stands.
            if into[i] == i {
                colours[i] = groups;
                groups += 1;
            } else {
                colours[i] = colours[into[i]];
            }
        }
    }
}

fn merged(rows: &Rows, live: u64, Pair { u, v }: Pair) -> Rows {
    let mut below = *rows;
    below[u] |= rows[v];
    for x in Members(rows[v] & !rows[u] & live) {
        below[x] |= bit(u);
    }
    below
}

/// The bounded walk.
pub fn fewest(rows: &[u64], colours: &mut [u8], budget: u64) -> Result<Walked, Refused> {
    admit(rows, colours)?;
    let n = rows.len();
    let mut root = [0; 64];
    root[..n].copy_from_slice(rows);
    let mut state = State::start(n, budget, |_: &Rows, _| ());
    if !state.enter(&mut root, below(n), 0) {
        return Err(Refused { place: state.nodes, ..Refusal::Budget.bare() });
    }
    state.colour(colours, n);
    root[..n].copy_from_slice(rows);
    let clique = clique(&root, below(n), u32::MAX).members;
    Ok(Walked { k: u64::from(state.best), nodes: state.nodes, complete: 0, clique })
}

/// A graph at which a pair is chosen, as the walk holds it: its rows are read through the live set.
pub struct Choice {
    pub live: u64,
    pub rows: Rows,
}

impl Choice {
    pub fn pair(&self) -> Option<(usize, usize)> {
        pair(&self.rows, self.live).map(|Pair { u, v }| (u, v))
    }
}

/// The graphs at which the walk chooses a pair in its first `budget` nodes, or in all.
pub fn choices(list: &[u64], budget: u64) -> Vec<Choice> {
    let mut met = Vec::new();
    let mut root = [0; 64];
    root[..list.len()].copy_from_slice(list);
    State::start(list.len(), budget, |rows: &Rows, live| met.push(Choice { live, rows: *rows })).enter(&mut root, below(list.len()), 0);
    met
}

/// Both bounds alone: the clique, whose size is one, and the Mycielskian bound.
pub fn bounds(rows: &[u64]) -> Result<(u64, u32), Refused> {
    judge(rows)?;
    let mut root = [0; 64];
    root[..rows.len()].copy_from_slice(rows);
    let live = below(rows.len());
    let clique = clique(&root, live, u32::MAX);
    Ok((clique.members, rounds(&root, live, clique, u32::MAX)))
}
