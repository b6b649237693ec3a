//! A tree and its simplified tree as a question to an SMT solver: can they differ?

use reference::words::*;
use std::collections::BTreeSet;
use std::fmt::Write;

/// The question of two roots of one arena, in SMT-LIB. `unsat` is the answer that a simplifier wants.
/// Neither tree reaches Top.
pub fn question(words: &[u64], root: usize, simplified: usize) -> String {
    let mut reached = BTreeSet::new();
    for root in [root, simplified] {
        let from_root = reference::reachable(words, root);
        reached.extend((0..=root).filter(|&at| from_root[at]));
    }
    let mut text = String::from("(push 1)\n");
    let mut inputs = BTreeSet::new();
    for &at in &reached {
        let node = node_at(words, at);
        let width = 8 * node.size;
        if node.is_input() && inputs.insert(node.words()) {
            writeln!(text, "(declare-const {} (_ BitVec {width}))", input(node)).expect("a string grows");
        }
    }
    for at in reached {
        let node = node_at(words, at);
        let width = 8 * node.size;
        writeln!(text, "(define-fun n{at} () (_ BitVec {width}) {})", term(words, node))
            .expect("a string grows");
    }
    writeln!(text, "(assert (distinct n{root} n{simplified}))\n(check-sat)\n(pop 1)")
        .expect("a string grows");
    text
}

fn input(node: Node) -> String {
    format!(
        "{}_{}_{:x}_{}",
        if node.kind == ENTRY { "entry" } else { "bind" },
        node.space,
        node.payload,
        node.size
    )
}

/// What a node means, by its children's names: the manual's sentences, with the flags by sums one
/// bit wider.
fn term(words: &[u64], node: Node) -> String {
    let (a, b) = (format!("n{}", node.left), format!("n{}", node.right));
    let bits = |child: usize| 8 * node_at(words, child).size;
    // The amount at the value's width; it is no wider.
    let amount = || format!("((_ zero_extend {}) {b})", bits(node.left) - bits(node.right));
    let wider = |extend: &str, op: &str| format!("({op} ((_ {extend} 1) {a}) ((_ {extend} 1) {b}))");
    let flag = |condition: String| format!("(ite {condition} #x01 #x00)");
    // A signed sum or difference that does not fit is not what its low bits extend to.
    let does_not_fit = |op: &str| {
        flag(format!("(distinct {} ((_ sign_extend 1) ({op} {a} {b})))", wider("sign_extend", op)))
    };
    match node.kind {
        ENTRY | BIND => input(node),
        CONST => format!("(_ bv{} {})", node.payload, 8 * node.size),
        ADD => format!("(bvadd {a} {b})"),
        SUB => format!("(bvsub {a} {b})"),
        MUL => format!("(bvmul {a} {b})"),
        XOR => format!("(bvxor {a} {b})"),
        OR => format!("(bvor {a} {b})"),
        LEFT_SHIFT => format!("(bvshl {a} {})", amount()),
        RIGHT_SHIFT => format!("(bvlshr {a} {})", amount()),
        SIGNED_RIGHT_SHIFT => format!("(bvashr {a} {})", amount()),
        SIGN_EXTEND => format!("((_ sign_extend {}) {a})", 8 * node.size - bits(node.left)),
        CARRY => {
            let top = bits(node.left);
            flag(format!("(= ((_ extract {top} {top}) {}) #b1)", wider("zero_extend", "bvadd")))
        }
        SCARRY => does_not_fit("bvadd"),
        SBORROW => does_not_fit("bvsub"),
        INT_2COMP => format!("(bvneg {a})"),
        kind => unreachable!("kind {kind} has no value"),
    }
}
