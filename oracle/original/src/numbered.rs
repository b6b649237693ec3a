//! The rules over an `Rc` that knows its index.

use crate::Rewritten;
use crate::rc::{Rc, Words, take_nodes};
use reference::words::*;

#[path = "rules.rs"]
mod rules;
use rules::*;

impl Words for Value {
    fn words(&self) -> [u64; 2] {
        let binary = |kind, size: usize, left: &Rc<Value>, right: &Rc<Value>| {
            Node::op(kind, size as u64, left.index(), right.index())
        };
        let unary = |kind, size: usize, child: &Rc<Value>| Node::op(kind, size as u64, child.index(), 0);
        let node = match self {
            Value::Top => Node::top(),
            Value::Entry(v) => Node::leaf(ENTRY, v.size() as u64, v.space(), v.offset()),
            Value::Const(v) => Node::constant(v.size() as u64, v.offset()),
            Value::Bind(id, size) => Node::leaf(BIND, *size as u64, 0, *id),
            Value::Add(AddExpr(l, r, size)) => binary(ADD, *size, l, r),
            Value::Sub(SubExpr(l, r, size)) => binary(SUB, *size, l, r),
            Value::Mul(MulExpr(l, r, size)) => binary(MUL, *size, l, r),
            Value::Xor(XorExpr(l, r, size)) => binary(XOR, *size, l, r),
            Value::Or(OrExpr(l, r, size)) => binary(OR, *size, l, r),
            Value::IntLeftShift(IntLeftShiftExpr(l, r, size)) => binary(LEFT_SHIFT, *size, l, r),
            Value::IntRightShift(IntRightShiftExpr(l, r, size)) => binary(RIGHT_SHIFT, *size, l, r),
            Value::IntSignedRightShift(IntSignedRightShiftExpr(l, r, size)) => {
                binary(SIGNED_RIGHT_SHIFT, *size, l, r)
            }
            Value::IntCarry(IntCarry(l, r)) => binary(CARRY, 1, l, r),
            Value::IntSCarry(IntSCarry(l, r)) => binary(SCARRY, 1, l, r),
            Value::IntSBorrow(IntSBorrow(l, r)) => binary(SBORROW, 1, l, r),
            Value::SignExtend(SignExtend(child, size)) => unary(SIGN_EXTEND, *size, child),
            Value::Int2Comp(Int2CompExpr(child, size)) => unary(INT_2COMP, *size, child),
        };
        node.words()
    }
}

/// Simplifies the tree at a root of an arena that passed the check, with room without end.
pub fn simplify(words: &[u64], count: usize, root: usize) -> Option<Rewritten> {
    take_nodes();
    let arena = arena(words, count);
    let result = Value::simplify_shared(&arena[root]);
    Some(Rewritten { root: result.index(), nodes: take_nodes() })
}
