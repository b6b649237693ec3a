//! Simplifies p-code value expressions.
//!
//! An expression lies in an *arena*: a slice of words, two to a [`Node`], each node's children at
//! lower indices. [`simplify`] appends what it makes to the nodes that are there and answers the
//! new root; [`evaluate`] answers the value of a tree under [`Row`]s of inputs; [`check`] answers
//! whether a tree is fit for both. Any words, count and root may be handed in: what cannot be worked
//! on is refused, and the [`Refusal`] says why and where.
//!
//! The work is done by a static library whose every function is proved. This crate only passes
//! slices to it and names its answers.
//!
//! # Example
//!
//! `(x - 5) + 3` in one byte becomes `x - 2`:
//!
//! ```
//! use santofunye::{Binary, Node, Refusal, Row, Size, evaluate, node_at, simplify};
//!
//! let size = Size::One;
//! let x = Node::Entry { size, space: 3, offset: 0x10 };
//! let nodes = [
//!     x,
//!     Node::Const { size, value: 5 },
//!     Node::Binary { op: Binary::Sub, size, left: 0, right: 1 },
//!     Node::Const { size, value: 3 },
//!     Node::Binary { op: Binary::Add, size, left: 2, right: 3 },
//! ];
//! let mut words: Vec<u64> = nodes.iter().flat_map(|node| node.words()).collect();
//! let (count, root) = (5, 4);
//!
//! // There is no room yet for what simplify appends.
//! assert_eq!(simplify(&mut words, count, root), Err(Refusal::NoRoom));
//!
//! words.resize(2 * 16, 0);
//! let simplified = simplify(&mut words, count, root)?;
//! assert_eq!((simplified.root, simplified.count), (6, 7));
//! assert_eq!(node_at(&words, 6), Some(Node::Binary { op: Binary::Sub, size, left: 0, right: 5 }));
//! assert_eq!(node_at(&words, 5), Some(Node::Const { size, value: 2 }));
//!
//! // Both roots have one value, whatever x is.
//! let rows = [Row::new(x, 1)];
//! assert_eq!(evaluate(&words, 7, root, &rows), Ok(0xFF));
//! assert_eq!(evaluate(&words, 7, simplified.root, &rows), Ok(0xFF));
//! assert_eq!(evaluate(&words, 7, simplified.root, &[]), Err(Refusal::MissingInput { node: 0 }));
//! # Ok::<(), Refusal>(())
//! ```

mod node;
pub mod raw;
mod refusal;

pub use node::{Binary, Flag, Node, Size, Unary, node_at};
pub use refusal::Refusal;

/// The words of a node.
pub const NODE_WORDS: usize = 2;

/// The most nodes that an arena has, however long its slice.
pub const MAX_CAPACITY: usize = 4096;

/// How many nodes a slice of so many words has room for.
pub fn capacity(len: usize) -> usize {
    (len / NODE_WORDS).min(MAX_CAPACITY)
}

/// An input's value, for [`evaluate`].
#[derive(Clone, Copy, Debug, PartialEq, Eq)]
#[repr(C)]
pub struct Row {
    /// The words of an Entry or a Bind.
    pub input: [u64; 2],
    pub value: u64,
}

impl Row {
    pub fn new(input: Node, value: u64) -> Row {
        Row { input: input.words(), value }
    }
}

/// Where a simplified tree lies.
#[derive(Clone, Copy, Debug, PartialEq, Eq)]
pub struct Simplified {
    pub root: usize,
    /// The nodes that the arena now has.
    pub count: usize,
}

/// Whether the first `count` nodes are well formed and well sized, and the tree at `root` is within
/// the limits: 4,096 nodes, a shared one counted for every way to it, and 128 on a path.
pub fn check(words: &[u64], count: usize, root: usize) -> Result<(), Refusal> {
    let answer = raw::check(words, count as u64, root as u64);
    Refusal::unless_done(answer.number, answer.place)
}

/// Simplifies the tree at `root`. The first `count` nodes stay as they are; new ones come after
/// them, and later words stay, too.
///
/// If the new nodes do not fit, the answer is [`Refusal::NoRoom`], and every node from `count` on is
/// zero. After another refusal no word is changed.
pub fn simplify(words: &mut [u64], count: usize, root: usize) -> Result<Simplified, Refusal> {
    let answer = raw::simplify(words, count as u64, root as u64);
    Refusal::unless_done(answer.number, answer.place)?;
    Ok(Simplified { root: answer.root as usize, count: answer.count as usize })
}

/// The value of the tree at `root` under the rows. The first row of an input counts.
pub fn evaluate(words: &[u64], count: usize, root: usize, rows: &[Row]) -> Result<u64, Refusal> {
    // SAFETY: a row is three words, without padding.
    let rows = unsafe { std::slice::from_raw_parts(rows.as_ptr().cast(), 3 * rows.len()) };
    let answer = raw::evaluate(words, count as u64, root as u64, rows);
    Refusal::unless_done(answer.number, answer.place)?;
    Ok(answer.value)
}
