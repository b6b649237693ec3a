//! The rules over the standard library's `Rc`.

use std::rc::Rc;

#[path = "rules.rs"]
mod rules;
use rules::*;

/// A tree as the original holds it.
pub struct Tree(Rc<Value>);

impl Tree {
    /// The tree at a root of an arena that passed the check.
    pub fn new(words: &[u64], root: usize) -> Option<Tree> {
        arena(words, root + 1).pop().map(Tree)
    }

    pub fn simplified(&self) -> Tree {
        Tree(Value::simplify_shared(&self.0))
    }
}
