//! A plain Rust model of the simplifier over node words, written from the paper that lays the
//! simplifier down (01, "What the simplifier covers"): the check, the rewriting, the evaluation and
//! the program's file.
//!
//! It answers the refusals in a comparison, gives a second opinion on the trees, whose first judge
//! is the original Rust, and carries the [`Slip`]s: wrong simplifiers that a comparison must tell
//! from a right one.

mod answers;
mod check;
mod evaluate;
pub mod manual;
mod probe;
pub mod program;
mod simplify;
pub mod words;

pub use answers::{Checked, Evaluated, Simplified, Simplifier, number};
pub use check::{capacity, reachable};
pub use probe::{Probe, RULES, Rule, Slip, Tally};

/// The model, watched or disturbed by a probe. `Model(())` is the paper itself.
pub struct Model<P>(pub P);

impl<P: Probe> Simplifier for Model<P> {
    fn check(&self, words: &[u64], count: u64, root: u64) -> Checked {
        check::check(&self.0, words, count, root)
    }

    fn simplify(&self, words: &mut [u64], count: u64, root: u64) -> Simplified {
        simplify::simplify(&self.0, words, count, root)
    }

    fn evaluate(&self, words: &[u64], count: u64, root: u64, rows: &[u64]) -> Evaluated {
        evaluate::evaluate(&self.0, words, count, root, rows)
    }
}
