//! 01's own examples, and each refusal of the program on both sides of its boundary: files of the
//! program, with the lines that 01 says are printed.

use reference::program;
use reference::words::*;

/// A file of the program, and its line.
pub struct Example {
    pub group: &'static str,
    pub file: Vec<u8>,
    pub line: String,
}

pub fn paper() -> Vec<Example> {
    let mut paper = Paper { group: "", examples: Vec::new() };
    paper.rows();
    paper.folds();
    paper.roots();
    paper.form();
    paper.sizes();
    paper.limits();
    paper.order();
    paper.room();
    paper.files();
    paper.examples
}

/// The result of simplifying to the root at once, and to the first node appended.
const KEPT: &str = "0 0 2 3";
const APPENDED: &str = "0 0 3 4";

const P1: [Node; 5] =
    [x(1), Node::constant(1, 5), Node::op(SUB, 1, 0, 1), Node::constant(1, 3), Node::op(ADD, 1, 2, 3)];

/// Two inputs.
const fn x(size: u64) -> Node {
    Node::leaf(ENTRY, size, 3, 0x10)
}

const fn y(size: u64) -> Node {
    Node::leaf(BIND, size, 0, 7)
}

/// One operation so many times on x, on the last node twice if it takes two.
fn stack(kind: u64, high: usize) -> Vec<Node> {
    let right = |at: usize| if KINDS[kind as usize].right { at } else { 0 };
    std::iter::once(x(1)).chain((0..high).map(|at| Node::op(kind, 1, at, right(at)))).collect()
}

/// Unary negations on the last node.
fn negated(mut nodes: Vec<Node>, times: usize) -> Vec<Node> {
    for _ in 0..times {
        nodes.push(Node::op(INT_2COMP, 1, nodes.len() - 1, 0));
    }
    nodes
}

/// Unused nodes up to a count.
fn padded(nodes: &[Node], count: usize) -> Vec<Node> {
    let mut nodes = nodes.to_vec();
    nodes.resize(count, Node::top());
    nodes
}

fn file(nodes: &[Node], root: u64) -> Vec<u8> {
    let words: Vec<u64> = nodes.iter().flat_map(|node| node.words()).collect();
    program::write(&words, nodes.len() as u64, root)
}

/// A node of the kind over two inputs of one byte that no rule changes.
fn plain(kind: u64) -> Node {
    match kind {
        TOP => Node::top(),
        ENTRY => x(1),
        CONST => Node::constant(1, 0),
        BIND => y(1),
        SIGN_EXTEND => Node::op(kind, 2, 1, 0),
        _ => Node::op(kind, 1, 1, 0),
    }
}

struct Paper {
    group: &'static str,
    examples: Vec<Example>,
}

impl Paper {
    fn add(&mut self, file: Vec<u8>, line: impl Into<String>) {
        self.examples.push(Example { group: self.group, file, line: line.into() });
    }

    fn rooted(&mut self, nodes: &[Node], root: u64, line: impl Into<String>) {
        self.add(file(nodes, root), line);
    }

    /// The last node is the root.
    fn tree(&mut self, nodes: &[Node], line: impl Into<String>) {
        self.rooted(nodes, nodes.len() as u64 - 1, line);
    }

    /// A node over two inputs of one byte, that is the root.
    fn over_inputs(&mut self, node: Node, line: &str) {
        self.tree(&[x(1), y(1), node], line);
    }

    fn rows(&mut self) {
        self.group = "P1 to P5";
        let (add, sub) = (|size, l, r| Node::op(ADD, size, l, r), |size, l, r| Node::op(SUB, size, l, r));
        let constant = Node::constant;
        self.tree(&P1, "0 0 6 7");
        // The sum of the constants and the new Add are appended before +0 gives x.
        self.tree(&[x(1), constant(1, 200), add(1, 0, 1), constant(1, 56), add(1, 2, 3)], "0 0 0 7");
        self.tree(&[x(8), constant(8, 1 << 63), sub(8, 0, 1)], "0 0 4 5");
        self.tree(&[x(4), constant(4, 0xFFFF_FFFF), sub(4, 0, 1)], KEPT);
        self.tree(&[constant(4, 0), Node::top(), Node::op(MUL, 4, 0, 1)], APPENDED);
    }

    /// P6 to P12: trees that become one constant. A second file of each adds the constant's
    /// difference from the value in 01 to an input, which gives the input only where it is 0.
    fn folds(&mut self) {
        let constant = Node::constant;
        let folds: [(u64, u64, &[Node], u64); 11] = [
            (SIGNED_RIGHT_SHIFT, 1, &[constant(1, 0x80), constant(1, 8)], 0xFF),
            (SIGNED_RIGHT_SHIFT, 1, &[constant(1, 0x40), constant(1, 8)], 0),
            (CARRY, 1, &[constant(8, u64::MAX), constant(8, 1)], 1),
            (CARRY, 1, &[constant(1, 0xFF), constant(1, 0)], 0),
            (SCARRY, 1, &[constant(1, 0x7F), constant(1, 1)], 1),
            (SBORROW, 1, &[constant(1, 0x80), constant(1, 1)], 1),
            (SIGN_EXTEND, 4, &[constant(1, 0x80)], 0xFFFF_FF80),
            (XOR, 1, &[x(1), x(1)], 0),
            (OR, 2, &[x(2), constant(2, 0xFFFF)], 0xFFFF),
            (LEFT_SHIFT, 1, &[constant(1, 1), constant(1, 7)], 0x80),
            (LEFT_SHIFT, 1, &[constant(1, 1), constant(1, 8)], 0),
        ];
        self.group = "P6 to P12";
        for (kind, size, inputs, value) in folds {
            let n = inputs.len();
            let mut nodes = inputs.to_vec();
            nodes.push(Node::op(kind, size, 0, n - 1));
            self.tree(&nodes, format!("0 0 {} {}", n + 1, n + 2));
            nodes.extend([constant(size, value), Node::op(XOR, size, n, n + 1)]);
            nodes.extend([y(size), Node::op(ADD, size, n + 3, n + 2)]);
            self.tree(&nodes, format!("0 0 {} {}", n + 3, n + 7));
        }
    }

    fn roots(&mut self) {
        self.group = "answer 2";
        self.rooted(&[], 0, "2 0 0 0");
        self.rooted(&[x(1)], 0, "0 0 0 1");
        self.rooted(&[x(1)], 1, "2 0 0 1");
        self.rooted(&[x(1)], u32::MAX as u64, "2 0 0 1");
        self.rooted(&P1, 3, "0 0 3 5");
        self.rooted(&P1, 5, "2 0 0 5");
    }

    /// A stray bit in every unused field of every kind, and children from their own node on.
    fn form(&mut self) {
        self.group = "answer 3";
        const BAD: &str = "3 2 0 3";
        for (kind, uses) in KINDS.iter().enumerate() {
            let good = plain(kind as u64);
            self.over_inputs(good, KEPT);
            let strays = [
                (uses.left, Node { left: 1, ..good }, Node { left: 2, ..good }),
                (uses.right, Node { right: 1, ..good }, Node { right: 2, ..good }),
                (uses.space, Node { space: 1, ..good }, good),
                (uses.payload, Node { payload: 1, ..good }, good),
            ];
            for (used, stray, own) in strays {
                if !used {
                    self.over_inputs(stray, BAD);
                } else if own != good {
                    self.over_inputs(own, BAD);
                }
            }
        }
        for kind in [17, 18, 255] {
            self.over_inputs(Node::leaf(kind, 1, 0, 0), BAD);
        }
        self.over_inputs(Node::op(ADD, 1, 0xFFFF, 0), BAD);
        self.over_inputs(Node::op(ADD, 1, 0, 0xFFFF), BAD);
        // Nodes that the root does not reach are looked at too.
        self.rooted(&[x(1), Node::leaf(17, 1, 0, 0)], 0, "3 1 0 2");
    }

    fn sizes(&mut self) {
        self.group = "answer 4";
        for size in [0, 1, 2, 3, 4, 5, 6, 7, 8, 9, 16, 255] {
            let line = if SIZES.contains(&size) { "0 0 0 1" } else { "4 0 0 1" };
            self.tree(&[x(size)], line);
            self.tree(&[y(size)], line);
            self.tree(&[Node::constant(size, 0)], line);
            self.tree(&[Node::leaf(TOP, size, 0, 0)], if size == 0 { "0 0 0 1" } else { "4 0 0 1" });
            let op = Node::op(INT_2COMP, size, 0, 0);
            self.tree(&[Node::top(), op], if SIZES.contains(&size) { "0 0 2 3" } else { "4 1 0 2" });
        }
        for size in SIZES {
            self.tree(&[Node::constant(size, mask(size))], "0 0 0 1");
            if size < 8 {
                self.tree(&[Node::constant(size, mask(size) + 1)], "4 0 0 1");
            }
        }
        for kind in ADD..=SBORROW {
            let flag = matches!(kind, CARRY | SCARRY | SBORROW);
            let shift = matches!(kind, LEFT_SHIFT | RIGHT_SHIFT | SIGNED_RIGHT_SHIFT);
            if kind != SIGN_EXTEND {
                self.pairs(kind, flag, shift);
            }
        }
        for (of, line) in [(1, "0 0 1 2"), (2, "0 0 1 2"), (4, "0 0 0 2"), (8, "4 1 0 2")] {
            self.tree(&[x(of), Node::op(SIGN_EXTEND, 4, 0, 0)], line);
        }
        self.tree(&[Node::top(), Node::op(SIGN_EXTEND, 4, 0, 0)], "0 0 2 3");
        for (of, line) in [(1, "4 1 0 2"), (4, "0 0 1 2"), (8, "4 1 0 2")] {
            self.tree(&[x(of), Node::op(INT_2COMP, 4, 0, 0)], line);
        }
    }

    /// An operation of two children, four bytes wide or a flag, over children of other sizes and Top.
    fn pairs(&mut self, kind: u64, flag: bool, shift: bool) {
        const BAD: &str = "4 2 0 3";
        let op = Node::op(kind, if flag { 1 } else { 4 }, 0, 1);
        for (left, right) in [(4, 4), (4, 1), (4, 8), (1, 4), (8, 4), (8, 8)] {
            let passes = match () {
                _ if flag => left == right,
                _ if shift => left == 4 && right <= 4,
                _ => left == 4 && right == 4,
            };
            self.tree(&[x(left), y(right), op], if passes { KEPT } else { BAD });
        }
        for size in [1, 4, 8] {
            let amount = if shift { size <= 4 } else { flag || size == 4 };
            self.tree(&[Node::top(), y(size), op], if amount { APPENDED } else { BAD });
            self.tree(&[x(size), Node::top(), op], if flag || size == 4 { APPENDED } else { BAD });
        }
        self.tree(&[Node::top(), Node::top(), op], APPENDED);
        if flag {
            self.tree(&[x(4), y(4), Node { size: 4, ..op }], BAD);
        }
    }

    fn limits(&mut self) {
        self.group = "answers 5 and 6";
        self.tree(&stack(ADD, 11), "0 0 11 12");
        self.tree(&stack(ADD, 12), "5 0 0 13");
        // 4,096 nodes, and 4,097.
        self.tree(&negated(stack(ADD, 11), 1), "0 0 12 13");
        self.tree(&negated(stack(ADD, 11), 2), "5 0 0 14");
        // Every second negation but the first is made anew on x.
        self.tree(&stack(INT_2COMP, 127), "0 0 190 191");
        self.tree(&stack(INT_2COMP, 128), "6 0 0 129");
        // Only what the root reaches counts.
        self.rooted(&stack(ADD, 12), 11, "0 0 11 13");
        self.rooted(&stack(INT_2COMP, 128), 127, "0 0 191 192");
    }

    fn order(&mut self) {
        self.group = "one refusal before another";
        let (formless, sizeless) = (Node::leaf(17, 1, 0, 0), x(3));
        self.rooted(&[formless], 1, "2 0 0 1");
        self.tree(&[Node { left: 1, ..sizeless }], "3 0 0 1");
        self.tree(&[Node::leaf(TOP, 1, 1, 0)], "3 0 0 1");
        self.tree(&[sizeless, formless], "4 0 0 2");
        self.tree(&[formless, sizeless], "3 0 0 2");
        let mut deep = stack(ADD, 12);
        deep.push(sizeless);
        self.rooted(&deep, 12, "4 13 0 14");
        self.tree(&negated(stack(ADD, 12), 128), "5 0 0 141");
    }

    fn room(&mut self) {
        self.group = "answer 7";
        self.rooted(&padded(&P1, 2046), 4, "0 0 2047 2048");
        self.rooted(&padded(&P1, 2047), 4, "7 0 0 2047");
    }

    fn files(&mut self) {
        self.group = "answer 11";
        const BAD: &str = "11 0 0 0";
        let whole = file(&P1, 4);
        self.add(Vec::new(), BAD);
        self.add(whole[..7].to_vec(), BAD);
        self.add(whole[..8].to_vec(), BAD);
        for short in [1, 8, 16] {
            self.add(whole[..whole.len() - short].to_vec(), BAD);
        }
        for long in [1, 8, 16] {
            self.add([&whole[..], &vec![0; long]].concat(), BAD);
        }
        // Before the root is looked at.
        self.add(file(&P1, 9)[1..].to_vec(), BAD);
        self.add(vec![0xFF, 0xFF, 0xFF, 0xFF, 0, 0, 0, 0], BAD);
        self.rooted(&padded(&[], 2048), 2047, "0 0 2047 2048");
        self.rooted(&padded(&[], 2049), 2047, BAD);
    }
}
