//! A second opinion, written from documents 01 and 02 and docs/DECISIONS.md alone. It shares no code and no method with the proved crates, so where
//! the two agree on thousands of inputs, a misreading of the paper would have to have happened twice.
//!
//! - `colouring`: the fewest groups, by saturation branch and bound (no merging, no Mycielskian bound, no node count);
//! - `clique`: the clique that says why it can't be fewer, by document 01's rule;
//! - `matrix`: what makes lent rows a list (1 to 4), and P by listing divisions;
//! - `placing`: document 02's search that never merges, with its node count;
//! - `shrink`: document 02's shrinking before a walk, and putting back;
//! - `list`: reading and writing a clash text; `shape`: what its lines may be, and the column at which one goes bad;
//! - `sheet`: writing a sheet, checking one against a list, and the preview's part;
//! - `mend`: document 02's mending of a hand-edited sheet.

pub mod clique;
pub mod colouring;
pub mod lines;
pub mod list;
pub mod matrix;
pub mod mend;
pub mod placing;
pub mod refusal;
pub mod shape;
pub mod sheet;
pub mod shrink;

pub use refusal::{Refusal, Refused};

/// The most entries of a list.
pub const ENTRIES: usize = 64;

/// The most bytes of a text.
pub const BYTES: usize = 65_536;
