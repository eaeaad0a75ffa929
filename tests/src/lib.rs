//! Comparisons of walks, texts and sheets on public, random and damaged inputs. Each module's tests are one comparison; `inputs` makes what they
//! are fed with, the same in every run.

pub mod inputs;
pub mod lists;

#[cfg(test)]
mod calls;
#[cfg(test)]
mod examples;
#[cfg(test)]
mod mends;
#[cfg(test)]
mod proved;
#[cfg(test)]
mod shrunk;
#[cfg(test)]
mod stored;
#[cfg(test)]
mod texts;
#[cfg(test)]
mod walks;

/// The budget of `slotsheet`.
pub const BUDGET: u64 = 1_000_000;

/// How many of so many random cases are tried, or are to be met: one in SLOTSHEET_ONE_IN, where that is set, as `tests/run` does on an emulated
/// machine; else all.
#[cfg(test)]
fn cases(all: usize) -> usize {
    let one_in = std::env::var("SLOTSHEET_ONE_IN").map_or(1, |number| number.parse().expect("SLOTSHEET_ONE_IN is a number above 0"));
    (all / one_in).max(1)
}
