//! Nodes, and their words.

use crate::NODE_WORDS;

/// The size of a value, in bytes.
#[derive(Clone, Copy, Debug, PartialEq, Eq)]
pub enum Size {
    One = 1,
    Two = 2,
    Four = 4,
    Eight = 8,
}

/// An operation on two values, of the size of its left one.
#[derive(Clone, Copy, Debug, PartialEq, Eq)]
pub enum Binary {
    Add = 4,
    Sub = 5,
    Mul = 6,
    Xor = 7,
    Or = 8,
    /// The right child is the amount, for this and the other shifts.
    IntLeftShift = 9,
    IntRightShift = 10,
    IntSignedRightShift = 11,
}

/// An operation on one value.
#[derive(Clone, Copy, Debug, PartialEq, Eq)]
pub enum Unary {
    SignExtend = 12,
    Int2Comp = 16,
}

/// A flag of an operation on two values of one size. It is one byte.
#[derive(Clone, Copy, Debug, PartialEq, Eq)]
pub enum Flag {
    IntCarry = 13,
    IntSCarry = 14,
    IntSBorrow = 15,
}

/// A node. Children are named by index.
#[derive(Clone, Copy, Debug, PartialEq, Eq)]
pub enum Node {
    /// An unknown value.
    Top,
    /// The value at a place when the code is entered.
    Entry {
        size: Size,
        space: u16,
        offset: u64,
    },
    Const {
        size: Size,
        value: u64,
    },
    /// An input that is only a name.
    Bind {
        size: Size,
        id: u64,
    },
    Binary {
        op: Binary,
        size: Size,
        left: u16,
        right: u16,
    },
    Unary {
        op: Unary,
        size: Size,
        child: u16,
    },
    Flag {
        op: Flag,
        left: u16,
        right: u16,
    },
}

impl Node {
    /// The two words of the node.
    pub fn words(self) -> [u64; 2] {
        let header = |kind: u64, size: u64, left: u16, right: u16| {
            kind << 56 | size << 48 | (left as u64) << 32 | (right as u64) << 16
        };
        match self {
            Node::Top => [0, 0],
            Node::Entry { size, space, offset } => [header(1, size as u64, 0, 0) | space as u64, offset],
            Node::Const { size, value } => [header(2, size as u64, 0, 0), value],
            Node::Bind { size, id } => [header(3, size as u64, 0, 0), id],
            Node::Binary { op, size, left, right } => [header(op as u64, size as u64, left, right), 0],
            Node::Unary { op, size, child } => [header(op as u64, size as u64, child, 0), 0],
            Node::Flag { op, left, right } => [header(op as u64, 1, left, right), 0],
        }
    }

    /// The node of two words, if they are exactly those of one.
    pub fn from_words(words: [u64; 2]) -> Option<Node> {
        let [first, payload] = words;
        let size = match first >> 48 & 0xFF {
            1 => Size::One,
            2 => Size::Two,
            4 => Size::Four,
            8 => Size::Eight,
            _ => return (words == [0, 0]).then_some(Node::Top),
        };
        let (left, right, space) = ((first >> 32) as u16, (first >> 16) as u16, first as u16);
        let binary = |op| Node::Binary { op, size, left, right };
        let unary = |op| Node::Unary { op, size, child: left };
        let flag = |op| Node::Flag { op, left, right };
        let node = match first >> 56 {
            1 => Node::Entry { size, space, offset: payload },
            2 => Node::Const { size, value: payload },
            3 => Node::Bind { size, id: payload },
            4 => binary(Binary::Add),
            5 => binary(Binary::Sub),
            6 => binary(Binary::Mul),
            7 => binary(Binary::Xor),
            8 => binary(Binary::Or),
            9 => binary(Binary::IntLeftShift),
            10 => binary(Binary::IntRightShift),
            11 => binary(Binary::IntSignedRightShift),
            12 => unary(Unary::SignExtend),
            13 => flag(Flag::IntCarry),
            14 => flag(Flag::IntSCarry),
            15 => flag(Flag::IntSBorrow),
            16 => unary(Unary::Int2Comp),
            _ => return None,
        };
        (node.words() == words).then_some(node)
    }
}

/// The node at an index of an arena, if the words there are a node's.
pub fn node_at(words: &[u64], index: usize) -> Option<Node> {
    let words = words.get(NODE_WORDS * index..)?.first_chunk()?;
    Node::from_words(*words)
}
