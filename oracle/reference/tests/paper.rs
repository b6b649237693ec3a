//! The paper's examples at the bench, on the model.

use reference::words::*;
use reference::{Model, Simplifier, program};

/// Builds an arena node by node.
#[derive(Default)]
struct Arena(Vec<u64>);

impl Arena {
    fn push(&mut self, node: Node) -> usize {
        self.0.extend(node.words());
        self.0.len() / NODE_WORDS - 1
    }

    fn count(&self) -> u64 {
        (self.0.len() / NODE_WORDS) as u64
    }

    fn input(&mut self, size: u64) -> usize {
        self.push(Node::leaf(ENTRY, size, 3, 0x10))
    }

    fn constant(&mut self, size: u64, value: u64) -> usize {
        self.push(Node::constant(size, value))
    }

    /// Simplifies the last node in a large arena, and answers the result and the arena.
    fn simplified(mut self) -> (Node, Vec<u64>) {
        let count = self.count();
        self.0.resize(2 * MAX_CAPACITY, 0);
        let answer = Model(()).simplify(&mut self.0, count, count - 1);
        assert_eq!((answer.number, answer.place), (0, 0));
        (node_at(&self.0, answer.root as usize), self.0)
    }
}

/// The constant that an operation on constants becomes.
fn folded(kind: u64, size: u64, inputs: &[(u64, u64)]) -> u64 {
    let mut arena = Arena::default();
    for &(size, value) in inputs {
        arena.constant(size, value);
    }
    arena.push(Node::op(kind, size, 0, inputs.len() - 1));
    let (node, _) = arena.simplified();
    assert_eq!((node.kind, node.size), (CONST, size));
    node.payload
}

const P1: [u64; 10] = [
    0x0101000000000003,
    0x10,
    0x0201000000000000,
    5,
    0x0501000000010000,
    0,
    0x0201000000000000,
    3,
    0x0401000200030000,
    0,
];

#[test]
fn p1_whole() {
    let mut words = P1.to_vec();
    words.extend([7; 5]);
    let answer = Model(()).simplify(&mut words, 5, 4);
    assert_eq!(program::line(answer), "0 0 6 7");
    assert_eq!(words[..10], P1);
    assert_eq!(words[10..], [0x0201000000000000, 2, 0x0501000000050000, 0, 7]);
}

#[test]
fn p1_with_room_for_six() {
    let mut words = P1.to_vec();
    words.extend([7; 3]);
    let answer = Model(()).simplify(&mut words, 5, 4);
    assert_eq!(program::line(answer), "7 0 0 5");
    assert_eq!(words[..10], P1);
    assert_eq!(words[10..], [0, 0, 7]);
}

#[test]
fn p1_as_a_file() {
    let file = program::write(&P1, 5, 4);
    assert_eq!(program::line(program::run(&Model(()), &file).0), "0 0 6 7");
    assert_eq!(program::line(program::run(&Model(()), &file[1..]).0), "11 0 0 0");
    assert_eq!(program::line(program::run(&Model(()), &[0; 8]).0), "2 0 0 0");
}

#[test]
fn p2_to_p5_trees() {
    let mut p2 = Arena::default();
    let (x, a) = (p2.input(1), p2.constant(1, 200));
    let sum = p2.push(Node::op(ADD, 1, x, a));
    let b = p2.constant(1, 56);
    p2.push(Node::op(ADD, 1, sum, b));
    assert_eq!(p2.simplified().0.kind, ENTRY);

    let mut p3 = Arena::default();
    let (x, c) = (p3.input(8), p3.constant(8, 1 << 63));
    p3.push(Node::op(SUB, 8, x, c));
    let (node, words) = p3.simplified();
    assert_eq!((node.kind, node.left), (ADD, x));
    assert_eq!(node_at(&words, node.right), Node::constant(8, 1 << 63));

    let mut p4 = Arena::default();
    let (x, c) = (p4.input(4), p4.constant(4, 0xFFFF_FFFF));
    p4.push(Node::op(SUB, 4, x, c));
    assert_eq!(p4.simplified().0, Node::op(SUB, 4, x, c));

    let mut p5 = Arena::default();
    let (zero, top) = (p5.constant(4, 0), p5.push(Node::top()));
    p5.push(Node::op(MUL, 4, zero, top));
    assert_eq!(p5.simplified().0.kind, TOP);
}

#[test]
fn p6_to_p9_and_p12_folds() {
    assert_eq!(folded(SIGNED_RIGHT_SHIFT, 1, &[(1, 0x80), (1, 8)]), 0xFF);
    assert_eq!(folded(SIGNED_RIGHT_SHIFT, 1, &[(1, 0x40), (1, 8)]), 0);
    assert_eq!(folded(CARRY, 1, &[(8, u64::MAX), (8, 1)]), 1);
    assert_eq!(folded(CARRY, 1, &[(1, 0xFF), (1, 0)]), 0);
    assert_eq!(folded(SCARRY, 1, &[(1, 0x7F), (1, 1)]), 1);
    assert_eq!(folded(SBORROW, 1, &[(1, 0x80), (1, 1)]), 1);
    assert_eq!(folded(SIGN_EXTEND, 4, &[(1, 0x80)]), 0xFFFF_FF80);
    assert_eq!(folded(LEFT_SHIFT, 1, &[(1, 1), (1, 7)]), 0x80);
    assert_eq!(folded(LEFT_SHIFT, 1, &[(1, 1), (1, 8)]), 0);
}

#[test]
fn p10_and_p11_trees() {
    let mut p10 = Arena::default();
    let (x, copy) = (p10.input(1), p10.input(1));
    p10.push(Node::op(XOR, 1, x, copy));
    assert_eq!(p10.simplified().0, Node::constant(1, 0));

    let mut p11 = Arena::default();
    let (x, ones) = (p11.input(2), p11.constant(2, 0xFFFF));
    p11.push(Node::op(OR, 2, x, ones));
    assert_eq!(p11.simplified().0, Node::constant(2, 0xFFFF));
}

#[test]
fn limits() {
    let checked = |kind: u64, high: usize| {
        let mut arena = Arena::default();
        let mut at = arena.input(1);
        for _ in 0..high {
            at = arena.push(Node::op(kind, 1, at, if kind == ADD { at } else { 0 }));
        }
        Model(()).check(&arena.0, arena.count(), at as u64).number
    };
    assert_eq!((checked(ADD, 11), checked(ADD, 12)), (0, 5));
    assert_eq!((checked(INT_2COMP, 127), checked(INT_2COMP, 128)), (0, 6));
}
