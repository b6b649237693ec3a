// The harness around the cut rules: the types that they name, and what the paper (01) adds. The
// module that takes this file in says which `Rc` it is over.

use super::Rc;
use reference::words::*;

/// A varnode: where a value lies, or the constant that it is, and its size in bytes.
#[derive(Clone, Copy, PartialEq, Eq)]
pub struct VarNode {
    space: u64,
    offset: u64,
    size: usize,
}

impl VarNode {
    #[allow(dead_code)]
    pub fn space(&self) -> u64 {
        self.space
    }

    pub fn offset(&self) -> u64 {
        self.offset
    }

    pub fn size(&self) -> usize {
        self.size
    }
}

type Child = Rc<Value>;

/// The leaves of `Value`, and a row for each operation: its variant and expression, and where the
/// expression has its size.
macro_rules! values {
    ($($variant:ident $name:ident($($field:ty),*): $e:pat => $size:expr;)*) => {
        $(
            #[derive(PartialEq, Eq)]
            pub struct $name($(pub $field),*);
        )*

        #[derive(PartialEq, Eq)]
        pub enum Value {
            Top,
            Entry(VarNode),
            Const(VarNode),
            Bind(u64, usize),
            $($variant($name),)*
        }

        impl Value {
            // Added: the size field. Top's is 0, a flag's is 1.
            fn size(&self) -> usize {
                match self {
                    Value::Top => 0,
                    Value::Entry(v) | Value::Const(v) => v.size,
                    Value::Bind(_, size) => *size,
                    $(Value::$variant($e) => $size,)*
                }
            }

            // Added: a leaf is itself; nothing is remembered between visits.
            pub fn simplify_shared(rc: &Child) -> Child {
                match rc.as_ref() {
                    Value::Top | Value::Entry(_) | Value::Const(_) | Value::Bind(..) => rc.clone(),
                    $(Value::$variant(e) => Simplify::simplify_rc(rc, e),)*
                }
            }
        }
    };
}

values! {
    Add AddExpr(Child, Child, usize): e => e.2;
    Sub SubExpr(Child, Child, usize): e => e.2;
    Mul MulExpr(Child, Child, usize): e => e.2;
    Xor XorExpr(Child, Child, usize): e => e.2;
    Or OrExpr(Child, Child, usize): e => e.2;
    IntLeftShift IntLeftShiftExpr(Child, Child, usize): e => e.2;
    IntRightShift IntRightShiftExpr(Child, Child, usize): e => e.2;
    IntSignedRightShift IntSignedRightShiftExpr(Child, Child, usize): e => e.2;
    SignExtend SignExtend(Child, usize): e => e.1;
    IntCarry IntCarry(Child, Child): _ => 1;
    IntSCarry IntSCarry(Child, Child): _ => 1;
    IntSBorrow IntSBorrow(Child, Child): _ => 1;
    Int2Comp Int2CompExpr(Child, usize): e => e.1;
}

impl Value {
    fn as_const(&self) -> Option<&VarNode> {
        if let Value::Const(constant) = self { Some(constant) } else { None }
    }

    // Added: the size field again.
    fn derive_size_from(value: &Value) -> usize {
        value.size()
    }

    // Added: keeps the 64-bit number modulo 2 to the 8·size.
    fn make_const(number: i64, size: u32) -> Value {
        let size = size as usize;
        Value::Const(VarNode { space: 0, offset: number as u64 & mask_for_size(size), size })
    }

    // Added: swaps only when left is Const and right is not.
    fn normalize_commutative_rc(left: Child, right: Child) -> (Child, Child, bool) {
        match (left.as_ref().as_const(), right.as_ref().as_const()) {
            (Some(_), None) => (right, left, true),
            _ => (left, right, false),
        }
    }
}

include!(concat!(env!("OUT_DIR"), "/cut.rs"));

/// The first nodes of an arena that passed the check, as values, made in the order of their indices.
pub fn arena(words: &[u64], count: usize) -> Vec<Child> {
    let mut arena = Vec::with_capacity(count);
    for index in 0..count {
        let value = value_of(node_at(words, index), &arena);
        arena.push(Rc::new(value));
    }
    arena
}

fn value_of(node: Node, arena: &[Child]) -> Value {
    let size = node.size as usize;
    let left = || arena[node.left].clone();
    let right = || arena[node.right].clone();
    match node.kind {
        TOP => Value::Top,
        ENTRY => Value::Entry(VarNode { space: node.space, offset: node.payload, size }),
        CONST => Value::Const(VarNode { space: 0, offset: node.payload, size }),
        BIND => Value::Bind(node.payload, size),
        ADD => Value::Add(AddExpr(left(), right(), size)),
        SUB => Value::Sub(SubExpr(left(), right(), size)),
        MUL => Value::Mul(MulExpr(left(), right(), size)),
        XOR => Value::Xor(XorExpr(left(), right(), size)),
        OR => Value::Or(OrExpr(left(), right(), size)),
        LEFT_SHIFT => Value::IntLeftShift(IntLeftShiftExpr(left(), right(), size)),
        RIGHT_SHIFT => Value::IntRightShift(IntRightShiftExpr(left(), right(), size)),
        SIGNED_RIGHT_SHIFT => Value::IntSignedRightShift(IntSignedRightShiftExpr(left(), right(), size)),
        SIGN_EXTEND => Value::SignExtend(SignExtend(left(), size)),
        CARRY => Value::IntCarry(IntCarry(left(), right())),
        SCARRY => Value::IntSCarry(IntSCarry(left(), right())),
        SBORROW => Value::IntSBorrow(IntSBorrow(left(), right())),
        INT_2COMP => Value::Int2Comp(Int2CompExpr(left(), size)),
        kind => unreachable!("kind {kind} does not pass the check"),
    }
}
