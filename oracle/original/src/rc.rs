//! An `Rc` whose every `new` is the next node of an arena.

use std::cell::RefCell;

thread_local! {
    /// The words of the nodes made since they were last taken.
    static NODES: RefCell<Vec<[u64; 2]>> = const { RefCell::new(Vec::new()) };
}

/// What is held as a node's two words.
pub trait Words {
    fn words(&self) -> [u64; 2];
}

/// Counted like the standard library's `Rc`, with its node's index beside the value.
pub struct Rc<T>(std::rc::Rc<(usize, T)>);

impl<T: Words> Rc<T> {
    pub fn new(value: T) -> Rc<T> {
        let index = NODES.with_borrow_mut(|nodes| {
            nodes.push(value.words());
            nodes.len() - 1
        });
        Rc(std::rc::Rc::new((index, value)))
    }
}

impl<T> Rc<T> {
    pub fn index(&self) -> usize {
        self.0.0
    }

    pub fn ptr_eq(a: &Rc<T>, b: &Rc<T>) -> bool {
        a.index() == b.index()
    }
}

impl<T> AsRef<T> for Rc<T> {
    fn as_ref(&self) -> &T {
        &self.0.1
    }
}

impl<T> Clone for Rc<T> {
    fn clone(&self) -> Rc<T> {
        Rc(self.0.clone())
    }
}

/// Equal values, wherever they lie.
impl<T: PartialEq> PartialEq for Rc<T> {
    fn eq(&self, other: &Rc<T>) -> bool {
        self.0.1 == other.0.1
    }
}

impl<T: Eq> Eq for Rc<T> {}

/// Takes the nodes made so far; the next one has index 0.
pub fn take_nodes() -> Vec<[u64; 2]> {
    NODES.take()
}
