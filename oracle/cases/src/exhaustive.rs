//! All cases of a few small forms.

use crate::Case;
use reference::words::*;
use std::ops::Range;

/// Room for what any of these appends.
const ROOM: usize = 8;

const BINARY: [u64; 8] = [ADD, SUB, MUL, XOR, OR, LEFT_SHIFT, RIGHT_SHIFT, SIGNED_RIGHT_SHIFT];
const FLAGS: [u64; 3] = [CARRY, SCARRY, SBORROW];

/// Every operation on every pair of one-byte constants; and at each size every operation over an
/// operation, on leaves that matter.
pub fn exhaustive() -> impl Iterator<Item = Case> {
    folds().chain(SIZES.into_iter().flat_map(two_high))
}

fn folds() -> impl Iterator<Item = Case> {
    let pairs = (0..256).flat_map(|a| (0..256).map(move |b| (a, b)));
    let binary = pairs.flat_map(|(a, b)| {
        let over = move |kind| [Node::constant(1, a), Node::constant(1, b), Node::op(kind, 1, 0, 1)];
        BINARY.into_iter().chain(FLAGS).map(move |kind| case(&over(kind), &[]))
    });
    let unary = (0..256).flat_map(|a| {
        let over = move |kind, size| case(&[Node::constant(1, a), Node::op(kind, size, 0, 0)], &[]);
        let extended = SIZES.into_iter().map(move |size| over(SIGN_EXTEND, size));
        extended.chain([over(INT_2COMP, 1)])
    });
    binary.chain(unary)
}

/// Every operation over an operation, beside a leaf on either side or over it twice.
fn two_high(size: u64) -> impl Iterator<Item = Case> {
    let (leaves, rows) = leaves(size);
    let inner = leaves.len();
    operations(size, 0..inner, 0..inner).into_iter().flat_map(move |first| {
        // A leaf goes beside it only if it has the leaves' size: a flag and a SignExtend may not.
        let leaves_beside = if first.size == size { inner } else { 0 };
        let beside = operations(size, 0..leaves_beside, inner..inner + 1);
        let over = operations(first.size, inner..inner + 1, inner - leaves_beside..inner + 1);
        let (leaves, rows) = (leaves.clone(), rows.clone());
        beside.into_iter().chain(over).map(move |second| {
            let mut nodes = leaves.clone();
            nodes.extend([first, second]);
            case(&nodes, &rows)
        })
    })
}

/// Two inputs, Top and constants at a size's borders, with rows for the inputs.
fn leaves(size: u64) -> (Vec<Node>, Vec<u64>) {
    let (ones, sign) = (mask(size), 1 << (8 * size - 1));
    let (x, y) = (Node::leaf(ENTRY, size, 3, 0x10), Node::leaf(BIND, size, 0, 7));
    let values = [0, 1, 2, 8 * size, sign - 1, sign, ones - 1, ones];
    let nodes = [x, y, Node::top()].into_iter().chain(values.map(|value| Node::constant(size, value)));
    let row = |node: Node, value| [node.words()[0], node.words()[1], value];
    (nodes.collect(), [row(x, sign + 1), row(y, 3)].concat())
}

/// Every operation on children of a size.
fn operations(size: u64, left: Range<usize>, right: Range<usize>) -> Vec<Node> {
    let mut nodes = Vec::new();
    for l in left {
        for r in right.clone() {
            nodes.extend(BINARY.map(|kind| Node::op(kind, size, l, r)));
            nodes.extend(FLAGS.map(|kind| Node::op(kind, 1, l, r)));
        }
        nodes.push(Node::op(INT_2COMP, size, l, 0));
        let wider = SIZES.into_iter().filter(|&wide| wide >= size);
        nodes.extend(wider.map(|wide| Node::op(SIGN_EXTEND, wide, l, 0)));
    }
    nodes
}

/// The nodes with room after them; the last is the root.
fn case(nodes: &[Node], rows: &[u64]) -> Case {
    let mut words: Vec<u64> = nodes.iter().flat_map(|node| node.words()).collect();
    words.resize(words.len() + NODE_WORDS * ROOM, 0);
    let count = nodes.len() as u64;
    Case { words, count, root: count - 1, rows: rows.to_vec() }
}
