//! Every refusal, by its number and place; and words that go to a node and back.

use santofunye::*;

const SIZE: Size = Size::One;
const X: Node = Node::Entry { size: SIZE, space: 3, offset: 0x10 };

fn words(nodes: &[Node]) -> Vec<u64> {
    nodes.iter().flat_map(|node| node.words()).collect()
}

fn add(child: u16) -> Node {
    Node::Binary { op: Binary::Add, size: SIZE, left: child, right: child }
}

/// A stack of nodes on an input, each over the one before.
fn stack(high: u16, over: fn(u16) -> Node) -> Vec<u64> {
    let nodes: Vec<Node> = [X].into_iter().chain((0..high).map(over)).collect();
    words(&nodes)
}

fn refused<T: std::fmt::Debug>(answer: Result<T, Refusal>, refusal: Refusal, number: u64, place: u64) {
    assert_eq!(answer.unwrap_err(), refusal);
    assert_eq!((refusal.number(), refusal.place()), (number, place));
}

#[test]
fn of_the_check() {
    refused(check(&words(&[X]), 2, 0), Refusal::CountAboveCapacity, 1, 0);
    refused(check(&words(&[X]), 1, 1), Refusal::RootNotBelowCount, 2, 0);
    refused(check(&words(&[X, add(1)]), 2, 1), Refusal::NotWellFormed { node: 1 }, 3, 1);
    let large = Node::Const { size: SIZE, value: 256 };
    refused(check(&words(&[X, X, large]), 3, 0), Refusal::NotWellSized { node: 2 }, 4, 2);
    assert_eq!(check(&stack(11, add), 12, 11), Ok(()));
    refused(check(&stack(12, add), 13, 12), Refusal::TooManyNodes, 5, 0);
    let negated = |child| Node::Unary { op: Unary::Int2Comp, size: SIZE, child };
    assert_eq!(check(&stack(127, negated), 128, 127), Ok(()));
    refused(check(&stack(128, negated), 129, 128), Refusal::PathTooLong, 6, 0);
}

#[test]
fn of_simplify_and_evaluate() {
    let sub = Node::Binary { op: Binary::Sub, size: SIZE, left: 0, right: 0 };
    let mut tight = words(&[X, sub]);
    tight.extend([7, 7, 7]);
    assert_eq!(simplify(&mut tight, 2, 1), Ok(Simplified { root: 2, count: 3 }));
    assert_eq!(tight[6], 7);
    refused(simplify(&mut tight[..5], 2, 1), Refusal::NoRoom, 7, 0);

    let sum = words(&[X, add(0), Node::Top]);
    refused(evaluate(&sum, 2, 1, &[Row::new(X, 1), Row::new(X, 256)]), Refusal::BadRow { row: 1 }, 8, 1);
    refused(evaluate(&sum, 2, 1, &[]), Refusal::MissingInput { node: 0 }, 9, 0);
    refused(evaluate(&sum, 3, 2, &[]), Refusal::TopReachable, 10, 0);
    assert_eq!(evaluate(&sum, 2, 1, &[Row::new(X, 200)]), Ok(144));
}

#[test]
fn nodes_come_back_from_their_words() {
    let (size, left, right) = (Size::Four, 1, 2);
    let nodes = [
        Node::Top,
        X,
        Node::Const { size, value: 5 },
        Node::Bind { size, id: 9 },
        Node::Binary { op: Binary::IntSignedRightShift, size, left, right },
        Node::Unary { op: Unary::SignExtend, size, child: left },
        Node::Flag { op: Flag::IntSBorrow, left, right },
    ];
    let arena = words(&nodes);
    for (index, node) in nodes.into_iter().enumerate() {
        assert_eq!(node_at(&arena, index), Some(node));
    }
    assert_eq!(node_at(&arena, nodes.len()), None);
    assert_eq!(Node::from_words([0x0D02_0001_0002_0000, 0]), None, "a flag of two bytes");
}
