//! Why a call did nothing.

use std::fmt;

/// A refusal, by its reason and place. The reasons are tried in this order, but that `evaluate`
/// looks for a Top before it looks for a missing input.
#[derive(Clone, Copy, Debug, PartialEq, Eq)]
pub enum Refusal {
    /// 1: more nodes than the slice has room for.
    CountAboveCapacity,
    /// 2: the root is not below the count.
    RootNotBelowCount,
    /// 3: an unknown kind, a stray field, or a child that is not below its node.
    NotWellFormed { node: usize },
    /// 4: a size that is none, a constant that is too large for it, or children whose sizes do not
    /// go together.
    NotWellSized { node: usize },
    /// 5: the tree unfolds to more than 4,096 nodes.
    TooManyNodes,
    /// 6: a path from the root has more than 128 nodes.
    PathTooLong,
    /// 7: simplify appends more nodes than fit.
    NoRoom,
    /// 8: a row whose value does not fit its size, or whose size is none.
    BadRow { row: usize },
    /// 9: an input without a row.
    MissingInput { node: usize },
    /// 10: a Top can be reached, so there is no value.
    TopReachable,
}

impl Refusal {
    /// The library's number of the refusal.
    pub fn number(self) -> u64 {
        match self {
            Refusal::CountAboveCapacity => 1,
            Refusal::RootNotBelowCount => 2,
            Refusal::NotWellFormed { .. } => 3,
            Refusal::NotWellSized { .. } => 4,
            Refusal::TooManyNodes => 5,
            Refusal::PathTooLong => 6,
            Refusal::NoRoom => 7,
            Refusal::BadRow { .. } => 8,
            Refusal::MissingInput { .. } => 9,
            Refusal::TopReachable => 10,
        }
    }

    /// The node or row that the refusal names, or 0.
    pub fn place(self) -> u64 {
        match self {
            Refusal::NotWellFormed { node }
            | Refusal::NotWellSized { node }
            | Refusal::MissingInput { node } => node as u64,
            Refusal::BadRow { row } => row as u64,
            _ => 0,
        }
    }

    pub(crate) fn unless_done(number: u64, place: u64) -> Result<(), Refusal> {
        let place = place as usize;
        Err(match number {
            0 => return Ok(()),
            1 => Refusal::CountAboveCapacity,
            2 => Refusal::RootNotBelowCount,
            3 => Refusal::NotWellFormed { node: place },
            4 => Refusal::NotWellSized { node: place },
            5 => Refusal::TooManyNodes,
            6 => Refusal::PathTooLong,
            7 => Refusal::NoRoom,
            8 => Refusal::BadRow { row: place },
            9 => Refusal::MissingInput { node: place },
            10 => Refusal::TopReachable,
            _ => unreachable!("the library has no answer {number}"),
        })
    }
}

impl fmt::Display for Refusal {
    fn fmt(&self, f: &mut fmt::Formatter) -> fmt::Result {
        match self {
            Refusal::CountAboveCapacity => write!(f, "the count is above the arena's capacity"),
            Refusal::RootNotBelowCount => write!(f, "the root is not below the count"),
            Refusal::NotWellFormed { node } => write!(f, "node {node} is not well formed"),
            Refusal::NotWellSized { node } => write!(f, "node {node} is not well sized"),
            Refusal::TooManyNodes => write!(f, "the tree has more than 4,096 nodes"),
            Refusal::PathTooLong => write!(f, "a path of the tree has more than 128 nodes"),
            Refusal::NoRoom => write!(f, "the new nodes do not fit"),
            Refusal::BadRow { row } => write!(f, "row {row} is bad"),
            Refusal::MissingInput { node } => write!(f, "the input at node {node} has no row"),
            Refusal::TopReachable => write!(f, "the tree holds a Top"),
        }
    }
}

impl std::error::Error for Refusal {}
