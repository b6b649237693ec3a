//! What a comparison is made of: seeded random cases, the oracle's answers to them, the first
//! difference of a simplifier from these, and that difference made small.

mod build;
mod case;
mod damage;
mod exhaustive;
mod options;
mod oracle;
mod paper;
mod rng;
mod rows;
mod shrink;
pub mod smt;

pub use build::Builder;
pub use case::{Case, case};
pub use exhaustive::exhaustive;
pub use options::Options;
pub use oracle::{Met, Oracle, Outcome, difference, promise_broken};
pub use paper::{Example, paper};
pub use rng::Rng;
pub use shrink::shrink;

/// The seed and the number of cases of a run that names none.
pub const SEED: u64 = 1;
pub const CASES: u64 = 200_000;
