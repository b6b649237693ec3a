//! The library as one of those that can be compared.

use reference::{Checked, Evaluated, Simplified, Simplifier};
use santofunye::raw;

/// The static library's three calls.
pub struct Library;

impl Simplifier for Library {
    fn check(&self, words: &[u64], count: u64, root: u64) -> Checked {
        let raw::Checked { number, place } = raw::check(words, count, root);
        Checked { number, place }
    }

    fn simplify(&self, words: &mut [u64], count: u64, root: u64) -> Simplified {
        let raw::Simplified { number, place, root, count } = raw::simplify(words, count, root);
        Simplified { number, place, root, count }
    }

    fn evaluate(&self, words: &[u64], count: u64, root: u64, rows: &[u64]) -> Evaluated {
        let raw::Evaluated { number, place, value } = raw::evaluate(words, count, root, rows);
        Evaluated { number, place, value }
    }
}
