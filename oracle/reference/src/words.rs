//! Node words: the fields of a node, and the table of kinds.

pub const TOP: u64 = 0;
pub const ENTRY: u64 = 1;
pub const CONST: u64 = 2;
pub const BIND: u64 = 3;
pub const ADD: u64 = 4;
pub const SUB: u64 = 5;
pub const MUL: u64 = 6;
pub const XOR: u64 = 7;
pub const OR: u64 = 8;
pub const LEFT_SHIFT: u64 = 9;
pub const RIGHT_SHIFT: u64 = 10;
pub const SIGNED_RIGHT_SHIFT: u64 = 11;
pub const SIGN_EXTEND: u64 = 12;
pub const CARRY: u64 = 13;
pub const SCARRY: u64 = 14;
pub const SBORROW: u64 = 15;
pub const INT_2COMP: u64 = 16;

/// Words a node.
pub const NODE_WORDS: usize = 2;
/// The most nodes that an arena has, however long its slice.
pub const MAX_CAPACITY: usize = 4096;
/// The most nodes of a tree, unfolded from its root.
pub const MAX_UNFOLDED: u64 = 4096;
/// The most nodes on a path from the root.
pub const MAX_PATH: u64 = 128;

/// The sizes that a value can have, in bytes.
pub const SIZES: [u64; 4] = [1, 2, 4, 8];

/// A kind's name and the fields that it uses beside kind and size.
pub struct Kind {
    pub name: &'static str,
    pub left: bool,
    pub right: bool,
    pub space: bool,
    pub payload: bool,
}

const fn kind(name: &'static str, [left, right, space, payload]: [bool; 4]) -> Kind {
    Kind { name, left, right, space, payload }
}

const NOTHING: [bool; 4] = [false, false, false, false];
const PLACED: [bool; 4] = [false, false, true, true];
const PAYLOAD: [bool; 4] = [false, false, false, true];
const ONE_CHILD: [bool; 4] = [true, false, false, false];
const TWO_CHILDREN: [bool; 4] = [true, true, false, false];

/// The kinds, by number.
pub const KINDS: [Kind; 17] = [
    kind("Top", NOTHING),
    kind("Entry", PLACED),
    kind("Const", PAYLOAD),
    kind("Bind", PAYLOAD),
    kind("Add", TWO_CHILDREN),
    kind("Sub", TWO_CHILDREN),
    kind("Mul", TWO_CHILDREN),
    kind("Xor", TWO_CHILDREN),
    kind("Or", TWO_CHILDREN),
    kind("IntLeftShift", TWO_CHILDREN),
    kind("IntRightShift", TWO_CHILDREN),
    kind("IntSignedRightShift", TWO_CHILDREN),
    kind("SignExtend", ONE_CHILD),
    kind("IntCarry", TWO_CHILDREN),
    kind("IntSCarry", TWO_CHILDREN),
    kind("IntSBorrow", TWO_CHILDREN),
    kind("Int2Comp", ONE_CHILD),
];

/// A node, taken out of its two words.
#[derive(Clone, Copy, Debug, PartialEq, Eq)]
pub struct Node {
    pub kind: u64,
    pub size: u64,
    pub left: usize,
    pub right: usize,
    pub space: u64,
    pub payload: u64,
}

impl Node {
    pub const fn leaf(kind: u64, size: u64, space: u64, payload: u64) -> Node {
        Node { kind, size, left: 0, right: 0, space, payload }
    }

    pub const fn top() -> Node {
        Node::leaf(TOP, 0, 0, 0)
    }

    pub const fn constant(size: u64, value: u64) -> Node {
        Node::leaf(CONST, size, 0, value)
    }

    pub const fn op(kind: u64, size: u64, left: usize, right: usize) -> Node {
        Node { kind, size, left, right, space: 0, payload: 0 }
    }

    pub const fn from_words(first: u64, payload: u64) -> Node {
        Node {
            kind: first >> 56,
            size: first >> 48 & 0xFF,
            left: (first >> 32 & 0xFFFF) as usize,
            right: (first >> 16 & 0xFFFF) as usize,
            space: first & 0xFFFF,
            payload,
        }
    }

    pub const fn words(self) -> [u64; 2] {
        let children = (self.left as u64) << 32 | (self.right as u64) << 16;
        [self.kind << 56 | self.size << 48 | children | self.space, self.payload]
    }

    /// The row of a known kind.
    pub fn uses(self) -> Option<&'static Kind> {
        KINDS.get(self.kind as usize)
    }

    pub fn is_leaf(self) -> bool {
        self.kind <= BIND
    }

    pub fn is_input(self) -> bool {
        self.kind == ENTRY || self.kind == BIND
    }

    pub fn is_flag(self) -> bool {
        matches!(self.kind, CARRY | SCARRY | SBORROW)
    }

    pub fn is_unary(self) -> bool {
        matches!(self.kind, SIGN_EXTEND | INT_2COMP)
    }
}

/// The node at an index of an arena.
pub fn node_at(words: &[u64], index: usize) -> Node {
    Node::from_words(words[NODE_WORDS * index], words[NODE_WORDS * index + 1])
}

/// Whether a value fits a size. No value fits a size that is none.
pub fn fits(value: u64, size: u64) -> bool {
    SIZES.contains(&size) && (size == 8 || value >> (8 * size) == 0)
}

/// All ones of a size.
pub fn mask(size: u64) -> u64 {
    u64::MAX >> (64 - 8 * size)
}
