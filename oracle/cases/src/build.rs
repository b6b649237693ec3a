//! Trees in which rules fire.

use crate::Rng;
use reference::words::*;

const BINARY: [u64; 5] = [ADD, SUB, MUL, XOR, OR];
const SHIFTS: [u64; 3] = [LEFT_SHIFT, RIGHT_SHIFT, SIGNED_RIGHT_SHIFT];
const FLAGS: [u64; 3] = [CARRY, SCARRY, SBORROW];
/// Kinds that look for equal children.
const LOOKS_FOR_EQUAL: [u64; 3] = [SUB, XOR, OR];

/// Grows well formed, well sized nodes, children first.
pub struct Builder {
    pub rng: Rng,
    pub nodes: Vec<Node>,
    /// One leaf in so many is Top; 0 for none.
    pub tops: usize,
    /// The constant made last, so that another can cancel it.
    last: u64,
}

impl Builder {
    pub fn new(rng: Rng) -> Builder {
        Builder { rng, nodes: Vec::new(), tops: 0, last: 0 }
    }

    pub fn push(&mut self, node: Node) -> usize {
        self.nodes.push(node);
        self.nodes.len() - 1
    }

    pub fn size(&mut self) -> u64 {
        self.rng.pick(&SIZES)
    }

    fn size_up_to(&mut self, size: u64) -> u64 {
        let sizes = SIZES.iter().filter(|&&s| s <= size).count();
        SIZES[self.rng.below(sizes)]
    }

    /// A number that fits the size: near its borders more often than not.
    pub fn value(&mut self, size: u64) -> u64 {
        let (ones, sign, width) = (mask(size), 1u64 << (8 * size - 1), 8 * size);
        let value = match self.rng.below(16) {
            0 | 1 => 0,
            2 => 1,
            3 => ones,
            4 => ones - 1,
            5 => sign,
            6 => sign - 1,
            7 => sign + 1,
            8 => self.rng.range(0, 9) as u64,
            9 => width + self.rng.below(3) as u64 - 1,
            10 => self.rng.range(62, 66) as u64,
            11 => {
                self.rng.pick(&[0x7F, 0x80, 0xFF, 0x100, 0x7FFF, 0x8000, 0xFFFF, 1 << 31, 1 << 32, 1 << 63])
            }
            12 => self.last,
            13 => self.last.wrapping_neg(),
            14 => self.last.wrapping_add(self.rng.below(3) as u64).wrapping_sub(1),
            _ => self.rng.word(),
        };
        self.last = value & ones;
        self.last
    }

    pub fn constant(&mut self, size: u64) -> usize {
        let value = self.value(size);
        self.push(Node::constant(size, value))
    }

    /// An input, of few, so that equal ones lie about.
    pub fn input(&mut self, size: u64) -> usize {
        let node = match self.rng.below(12) {
            0..=6 => Node::leaf(ENTRY, size, self.rng.pick(&[0, 3]), self.rng.pick(&[0x10, 0x18])),
            7 => Node::leaf(ENTRY, size, self.rng.pick(&[1, 0x100, 0xFFFF]), self.rng.pick(&[0, u64::MAX])),
            8 => Node::leaf(BIND, size, 0, u64::MAX),
            _ => Node::leaf(BIND, size, 0, self.rng.pick(&[0, 1, 0x10])),
        };
        self.push(node)
    }

    fn leaf(&mut self, size: u64) -> usize {
        if self.tops > 0 && self.rng.one_in(self.tops) {
            return self.push(Node::top());
        }
        match self.rng.below(8) {
            0..=2 => self.constant(size),
            3 => self.shared(size),
            _ => self.input(size),
        }
    }

    /// A node of the size that is there already, or an input.
    fn shared(&mut self, size: u64) -> usize {
        for _ in 0..4 {
            let Some(last) = self.nodes.len().checked_sub(1) else { break };
            let index = self.rng.range(0, last);
            if self.nodes[index].size == size {
                return index;
            }
        }
        self.input(size)
    }

    /// A tree of a size, of some so many new nodes.
    pub fn tree(&mut self, size: u64, budget: usize) -> usize {
        if budget < 2 {
            return self.leaf(size);
        }
        if size == 1 && self.rng.one_in(3) {
            return self.flag(budget);
        }
        match self.rng.below(18) {
            0..=4 => self.tower(size, budget),
            5..=7 => self.beside_constant(size, budget),
            8..=9 => self.twins(size, budget),
            10..=11 => {
                let kind = self.rng.pick(&SHIFTS);
                let amount_size = self.size_up_to(size);
                let value = self.tree(size, budget * 2 / 3);
                let amount = if self.rng.one_in(3) {
                    self.tree(amount_size, budget / 3)
                } else {
                    self.constant(amount_size)
                };
                self.push(Node::op(kind, size, value, amount))
            }
            12..=13 => {
                let from = self.size_up_to(size);
                let child = self.tree(from, budget - 1);
                self.push(Node::op(SIGN_EXTEND, size, child, 0))
            }
            14..=15 => {
                let child = self.tree(size, budget - 1);
                self.push(Node::op(INT_2COMP, size, child, 0))
            }
            16 => self.shared(size),
            _ => {
                let kind = self.rng.pick(&BINARY);
                let first = self.rng.range(0, budget - 1);
                let (left, right) = (self.tree(size, first), self.tree(size, budget - 1 - first));
                self.push(Node::op(kind, size, left, right))
            }
        }
    }

    /// Constants added and subtracted in turn.
    fn tower(&mut self, size: u64, budget: usize) -> usize {
        let high = self.rng.range(2, 5);
        let mut at = self.tree(size, budget.saturating_sub(2 * high));
        for _ in 0..high {
            let constant = self.constant(size);
            let kind = self.rng.pick(&[ADD, SUB]);
            at = match kind == ADD && self.rng.one_in(5) {
                true => self.push(Node::op(ADD, size, constant, at)),
                false => self.push(Node::op(kind, size, at, constant)),
            };
        }
        at
    }

    fn beside_constant(&mut self, size: u64, budget: usize) -> usize {
        let kind = self.rng.pick(&BINARY);
        let (tree, constant) = (self.tree(size, budget - 2), self.constant(size));
        match self.rng.one_in(3) {
            true => self.push(Node::op(kind, size, constant, tree)),
            false => self.push(Node::op(kind, size, tree, constant)),
        }
    }

    fn flag(&mut self, budget: usize) -> usize {
        let (kind, size) = (self.rng.pick(&FLAGS), self.size());
        let half = if self.rng.one_in(2) { 1 } else { budget / 2 };
        let left = self.tree(size, half);
        let right = if self.rng.one_in(4) { self.twin(left) } else { self.tree(size, half) };
        self.push(Node::op(kind, 1, left, right))
    }

    /// An operation on two trees that are equal, or nearly.
    fn twins(&mut self, size: u64, budget: usize) -> usize {
        let kind = self.rng.pick(&LOOKS_FOR_EQUAL);
        if size > 1 && self.rng.one_in(6) {
            // The same place read at two sizes.
            let (space, offset) = (self.rng.pick(&[0, 3]), 0x10);
            let read = |builder: &mut Builder| {
                let from = builder.size_up_to(size);
                let input = builder.push(Node::leaf(ENTRY, from, space, offset));
                builder.push(Node::op(SIGN_EXTEND, size, input, 0))
            };
            let (left, right) = (read(self), read(self));
            return self.push(Node::op(kind, size, left, right));
        }
        let left = self.tree(size, budget / 2);
        let right = self.twin(left);
        self.push(Node::op(kind, size, left, right))
    }

    /// The node itself, or a copy that lies elsewhere, or a copy with one change.
    fn twin(&mut self, at: usize) -> usize {
        if self.rng.one_in(4) {
            return at;
        }
        let start = self.nodes.len();
        let Some(copy) = self.copy(at, start + 200) else { return at };
        if self.rng.one_in(2) {
            let changed = self.rng.range(start, copy);
            self.change(changed);
        }
        copy
    }

    /// A copy of the tree at a node without its sharing, unless the arena would reach an end.
    pub fn copy(&mut self, at: usize, end: usize) -> Option<usize> {
        let mut node = self.nodes[at];
        if !node.is_leaf() {
            node.left = self.copy(node.left, end)?;
            if !node.is_unary() {
                node.right = self.copy(node.right, end)?;
            }
        }
        (self.nodes.len() < end).then(|| self.push(node))
    }

    /// Makes another node of one, of the same size.
    fn change(&mut self, at: usize) {
        let mut node = self.nodes[at];
        match node.kind {
            ENTRY if self.rng.one_in(2) => node.space ^= 3,
            ENTRY if self.rng.one_in(4) => (node.kind, node.space) = (BIND, 0),
            ENTRY | BIND => node.payload ^= 0x10,
            CONST => node.payload = self.value(node.size),
            kind if BINARY.contains(&kind) => node.kind = self.rng.pick(&BINARY),
            kind if SHIFTS.contains(&kind) => node.kind = self.rng.pick(&SHIFTS),
            kind if FLAGS.contains(&kind) => node.kind = self.rng.pick(&FLAGS),
            _ => {}
        }
        self.nodes[at] = node;
    }

    /// A tree of exactly so many unfolded nodes, with few nodes of its own.
    pub fn unfolded(&mut self, size: u64, nodes: usize) -> usize {
        match nodes {
            0 | 1 => {
                if self.rng.one_in(3) {
                    self.constant(size)
                } else {
                    self.input(size)
                }
            }
            _ if nodes.is_multiple_of(2) => {
                let child = self.unfolded(size, nodes - 1);
                let kind = self.rng.pick(&[SIGN_EXTEND, INT_2COMP]);
                self.push(Node::op(kind, size, child, 0))
            }
            _ => {
                let child = self.unfolded(size, (nodes - 1) / 2);
                let kind = self.rng.pick(&BINARY);
                self.push(Node::op(kind, size, child, child))
            }
        }
    }

    /// Puts a path of so many nodes on top of a node.
    pub fn path(&mut self, mut at: usize, nodes: usize) -> usize {
        let size = self.nodes[at].size;
        for _ in 0..nodes {
            let kind = self.rng.pick(&[ADD, SUB, MUL, XOR, OR, INT_2COMP, INT_2COMP, SIGN_EXTEND]);
            let node = match kind {
                INT_2COMP | SIGN_EXTEND => Node::op(kind, size, at, 0),
                _ => {
                    let beside = self.shared(size);
                    let beside = if self.nodes[beside].is_leaf() { beside } else { self.leaf(size) };
                    match self.rng.one_in(2) {
                        true => Node::op(kind, size, beside, at),
                        false => Node::op(kind, size, at, beside),
                    }
                }
            };
            at = self.push(node);
        }
        at
    }
}
