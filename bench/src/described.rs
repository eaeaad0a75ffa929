//! Document 01's two walks in its own words, sentence by sentence: vertex by vertex, no test that stops early, nothing kept from node to node.

use crate::sets::{above, below, bit, lowest, size, Members};
use crate::{admit, judge, Walked};
use second::{Refusal, Refused};

/// A graph of live vertices, each standing for a group and named by its smallest member.
#[derive(Clone, Copy)]
pub struct Graph {
    live: u64,
    /// Neighbours of a live vertex, live ones only.
    rows: [u64; 64],
    /// The entries that a live vertex stands for.
    group: [u64; 64],
}

impl Graph {
    fn of(list: &[u64]) -> Graph {
        let mut graph = Graph { live: below(list.len()), rows: [0; 64], group: [0; 64] };
        for (i, &row) in list.iter().enumerate() {
            graph.rows[i] = row;
            graph.group[i] = bit(i);
        }
        graph
    }

    /// Of these rows, read through the live set, and with no groups: for a choice of a pair alone.
    pub fn held(live: u64, rows: &[u64; 64]) -> Graph {
        Graph { live, rows: rows.map(|row| row & live), group: [0; 64] }
    }

    /// "v leaves, the row of u is the two rows joined, neighbours of v become neighbours of u"
    fn merged(&self, u: usize, v: usize) -> Graph {
        let mut graph = *self;
        graph.live &= !bit(v);
        graph.group[u] |= graph.group[v];
        graph.rows[u] |= graph.rows[v];
        for x in Members(graph.rows[v]) {
            graph.rows[x] = graph.rows[x] & !bit(v) | bit(u);
        }
        graph
    }

    fn separate(&mut self, u: usize, v: usize) {
        self.rows[u] |= bit(v);
        self.rows[v] |= bit(u);
    }

    /// "among non-adjacent pairs u < v take the one with most common neighbours, then smallest u, then smallest v"; none where the graph is
    /// complete.
    pub fn pair(&self) -> Option<(usize, usize)> {
        let mut chosen = None;
        let mut most = 0;
        for u in Members(self.live) {
            for v in Members(self.live & above(u) & !self.rows[u]) {
                let common = size(self.rows[u] & self.rows[v]);
                if chosen.is_none() || common > most {
                    chosen = Some((u, v));
                    most = common;
                }
            }
        }
        chosen
    }

    /// A vertex is admitted where all members are its neighbours; a member is not its own.
    fn admits(&self, clique: u64, v: usize) -> bool {
        clique & !self.rows[v] == 0
    }

    /// "Take vertices by rising number. Add each to every clique on hand that admits it; if none does, open a new one. Take all vertices once
    /// more in the same order and add each to every clique that admits it. The largest counts, the earliest opened on a tie."
    fn clique(&self) -> u64 {
        let mut cliques = [0; 64];
        let mut opened = 0;
        for v in Members(self.live) {
            let mut admitted = false;
            for clique in &mut cliques[..opened] {
                if self.admits(*clique, v) {
                    *clique |= bit(v);
                    admitted = true;
                }
            }
            if !admitted {
                cliques[opened] = bit(v);
                opened += 1;
            }
        }
        for v in Members(self.live) {
            for clique in &mut cliques[..opened] {
                if self.admits(*clique, v) {
                    *clique |= bit(v);
                }
            }
        }
        let mut largest = 0;
        for &clique in &cliques[..opened] {
            if size(clique) > size(largest) {
                largest = clique;
            }
        }
        largest
    }

    /// The Mycielskian bound, from the clique on.
    fn bound(&self) -> u32 {
        let mut vertices = self.clique();
        let mut edges = [0; 64];
        for v in Members(vertices) {
            edges[v] = vertices & !bit(v);
        }
        let mut bound = size(vertices);
        while size(vertices) < size(self.live) {
            // S(v): "all vertices adjacent to every H-neighbour of v"; W: "the vertices adjacent, for each v in H, to some member of S(v)"
            let mut fitting = [0; 64];
            let mut tops = self.live;
            for v in Members(vertices) {
                for x in Members(self.live) {
                    if edges[v] & !self.rows[x] == 0 {
                        fitting[v] |= bit(x);
                    }
                }
                let mut near = 0;
                for x in Members(fitting[v]) {
                    near |= self.rows[x];
                }
                tops &= near;
            }
            if tops == 0 {
                break;
            }
            bound += 1;
            let top = lowest(tops);
            let (old_vertices, old_edges) = (vertices, edges);
            vertices |= bit(top);
            for v in Members(old_vertices) {
                let chosen = lowest(fitting[v] & self.rows[top]);
                vertices |= bit(chosen);
                edges[top] |= bit(chosen);
                edges[chosen] |= bit(top) | old_edges[v];
                for x in Members(old_edges[v]) {
                    edges[x] |= bit(chosen);
                }
            }
        }
        bound
    }
}

/// The budget is spent.
struct Spent;

struct State {
    budget: u64,
    nodes: u64,
    complete: u64,
    best_size: u32,
    /// The groups of the best division, each by its smallest member.
    best: [u64; 64],
}

impl State {
    /// "The best division starts as every entry alone, n groups."
    fn start(list: &[u64], budget: u64) -> State {
        let graph = Graph::of(list);
        State { budget, nodes: 0, complete: 0, best_size: size(graph.live), best: graph.group }
    }

    fn count(&mut self) -> Result<(), Spent> {
        if self.nodes == self.budget {
            return Err(Spent);
        }
        self.nodes += 1;
        Ok(())
    }

    fn becomes_best(&mut self, graph: &Graph) {
        self.best_size = size(graph.live);
        self.best = [0; 64];
        for v in Members(graph.live) {
            self.best[v] = graph.group[v];
        }
    }

    /// The bounded walk from a node; separations stay on their level.
    fn enter(&mut self, mut graph: Graph) -> Result<(), Spent> {
        loop {
            self.count()?;
            if graph.bound() >= self.best_size {
                return Ok(());
            }
            let Some((u, v)) = graph.pair() else {
                self.becomes_best(&graph);
                return Ok(());
            };
            self.enter(graph.merged(u, v))?;
            graph.separate(u, v);
        }
    }

    /// The plain walk from a node: "it goes back only from complete graphs, keeps the first smallest division".
    fn enter_plain(&mut self, mut graph: Graph) -> Result<(), Spent> {
        loop {
            self.count()?;
            let Some((u, v)) = graph.pair() else {
                self.complete += 1;
                if size(graph.live) < self.best_size {
                    self.becomes_best(&graph);
                }
                return Ok(());
            };
            self.enter_plain(graph.merged(u, v))?;
            graph.separate(u, v);
        }
    }

    /// "Groups are numbered from 0 by smallest member; byte i is the number of i's group." `clique` is the starting graph's.
    fn answer(self, walked: Result<(), Spent>, clique: u64, colours: &mut [u8]) -> Result<Walked, Refused> {
        if walked.is_err() {
            return Err(Refused { place: self.nodes, ..Refusal::Budget.bare() });
        }
        for (number, group) in self.best.iter().filter(|&&group| group != 0).enumerate() {
            for i in Members(*group) {
                colours[i] = number as u8;
            }
        }
        Ok(Walked { k: u64::from(self.best_size), nodes: self.nodes, complete: self.complete, clique })
    }
}

/// The bounded walk.
pub fn fewest(rows: &[u64], colours: &mut [u8], budget: u64) -> Result<Walked, Refused> {
    admit(rows, colours)?;
    let mut state = State::start(rows, budget);
    let walked = state.enter(Graph::of(rows));
    state.answer(walked, Graph::of(rows).clique(), colours)
}

/// The plain walk.
pub fn plain(rows: &[u64], colours: &mut [u8], budget: u64) -> Result<Walked, Refused> {
    admit(rows, colours)?;
    let mut state = State::start(rows, budget);
    let walked = state.enter_plain(Graph::of(rows));
    state.answer(walked, Graph::of(rows).clique(), colours)
}

/// Both bounds alone: the clique, whose size is one, and the Mycielskian bound.
pub fn bounds(rows: &[u64]) -> Result<(u64, u32), Refused> {
    judge(rows)?;
    let graph = Graph::of(rows);
    Ok((graph.clique(), graph.bound()))
}
