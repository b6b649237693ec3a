//! The three calls and what they answer.

/// 01's answers by number.
pub mod number {
    pub const DONE: u64 = 0;
    pub const COUNT_ABOVE_CAPACITY: u64 = 1;
    pub const ROOT_NOT_BELOW_COUNT: u64 = 2;
    pub const NOT_WELL_FORMED: u64 = 3;
    pub const NOT_WELL_SIZED: u64 = 4;
    pub const TOO_MANY_NODES: u64 = 5;
    pub const PATH_TOO_LONG: u64 = 6;
    pub const NO_ROOM: u64 = 7;
    pub const BAD_ROW: u64 = 8;
    pub const MISSING_INPUT: u64 = 9;
    pub const TOP_REACHABLE: u64 = 10;
    pub const BAD_FILE: u64 = 11;
}

/// What the check answers.
#[derive(Clone, Copy, Debug, PartialEq, Eq)]
pub struct Checked {
    pub number: u64,
    pub place: u64,
}

/// What simplify answers.
#[derive(Clone, Copy, Debug, PartialEq, Eq)]
pub struct Simplified {
    pub number: u64,
    pub place: u64,
    pub root: u64,
    pub count: u64,
}

/// What evaluation answers.
#[derive(Clone, Copy, Debug, PartialEq, Eq)]
pub struct Evaluated {
    pub number: u64,
    pub place: u64,
    pub value: u64,
}

/// Anything that makes the three calls: the model, the original Rust, the library.
pub trait Simplifier {
    fn check(&self, words: &[u64], count: u64, root: u64) -> Checked;
    fn simplify(&self, words: &mut [u64], count: u64, root: u64) -> Simplified;
    fn evaluate(&self, words: &[u64], count: u64, root: u64, rows: &[u64]) -> Evaluated;
}
