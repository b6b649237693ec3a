//! The original Rust as an oracle: the rules of value.rs, cut out when this crate is built and
//! compiled unchanged, over a harness that fills in what the paper (01) adds.
//!
//! The rules are compiled twice. In [`numbered`] every `Rc::new` takes the next index of an arena,
//! so that the placement of new nodes is seen from the unchanged text. In [`plain`] `Rc` is the
//! standard library's, for measuring.
//!
//! Without value.rs both answer `None`.

// The rules are taken in twice on purpose, and their text is not ours to change.
#![allow(clippy::duplicate_mod, clippy::collapsible_if)]

#[cfg(value_rs)]
pub mod numbered;
#[cfg(value_rs)]
pub mod plain;
#[cfg(value_rs)]
mod rc;

/// Whether value.rs was there when this was built.
pub const PRESENT: bool = cfg!(value_rs);

/// A run's result: its root, and every node of the arena, the old ones first.
pub struct Rewritten {
    pub root: usize,
    pub nodes: Vec<[u64; 2]>,
}

#[cfg(not(value_rs))]
pub mod numbered {
    //! Nothing to run.

    use crate::Rewritten;

    pub fn simplify(_words: &[u64], _count: usize, _root: usize) -> Option<Rewritten> {
        None
    }
}

#[cfg(not(value_rs))]
pub mod plain {
    //! Nothing to run.

    pub struct Tree(std::convert::Infallible);

    impl Tree {
        pub fn new(_words: &[u64], _root: usize) -> Option<Tree> {
            None
        }

        pub fn simplified(&self) -> Tree {
            match self.0 {}
        }
    }
}
