//! The rewriting, in the paper's order.

use crate::words::*;
use crate::{Probe, Rule, Simplified, Slip, check, manual, number::*};

pub(crate) fn simplify(probe: &impl Probe, words: &mut [u64], count: u64, root: u64) -> Simplified {
    let refused = |number, place, count| Simplified { number, place, root: 0, count };
    let checked = check::check(probe, words, count, root);
    if checked.number != DONE {
        return refused(checked.number, checked.place, count);
    }
    let room = check::room(probe, words.len());
    let end = if probe.slips(Slip::NoRoomZeroesPastCapacity) { words.len() } else { NODE_WORDS * room };
    let mut run = Run { probe, words, count: count as usize, room, remembered: Vec::new() };
    match run.simplified(root as usize) {
        Ok(root) => {
            if probe.slips(Slip::DoneZeroesRest) {
                run.words[NODE_WORDS * run.count..].fill(0);
            }
            Simplified { number: DONE, place: 0, root: root as u64, count: run.count as u64 }
        }
        Err(NoRoom) => {
            if !probe.slips(Slip::NoRoomKeepsWords) {
                run.words[NODE_WORDS * count as usize..end].fill(0);
            }
            let moved = if probe.slips(Slip::NoRoomMovesCount) { run.count as u64 } else { count };
            refused(NO_ROOM, 0, moved)
        }
    }
}

/// A node to append, and no room for it.
struct NoRoom;

type Step = Result<usize, NoRoom>;

/// A run over an arena that passed the check. Every function answers an index.
struct Run<'a, P> {
    probe: &'a P,
    words: &'a mut [u64],
    count: usize,
    room: usize,
    /// Results by index, for [`Slip::VisitsRemembered`].
    remembered: Vec<(usize, usize)>,
}

impl<P: Probe> Run<'_, P> {
    fn simplified(&mut self, at: usize) -> Step {
        let node = self.node(at);
        if node.is_leaf() {
            return Ok(at);
        }
        // Nothing is remembered but by the slip.
        if let Some(&(_, result)) = self.remembered.iter().find(|&&(index, _)| index == at) {
            return Ok(result);
        }
        let result = if node.is_unary() { self.unary(at, node)? } else { self.binary(at, node)? };
        if self.slips(Slip::VisitsRemembered) {
            self.remembered.push((at, result));
        }
        Ok(result)
    }

    fn unary(&mut self, at: usize, node: Node) -> Step {
        let child = self.simplified(node.left)?;
        if self.node(child).kind == TOP {
            return self.make_top(node, child);
        }
        match node.kind {
            SIGN_EXTEND => self.sign_extend(at, node, child),
            _ => self.int_2comp(at, node, child),
        }
    }

    fn binary(&mut self, at: usize, node: Node) -> Step {
        let (left, right) = if self.slips(Slip::RightFirst) {
            let right = self.simplified(node.right)?;
            (self.simplified(node.left)?, right)
        } else {
            (self.simplified(node.left)?, self.simplified(node.right)?)
        };
        let zero = self.constant(left) == Some(0) || self.constant(right) == Some(0);
        if self.slips(Slip::MulZeroBeforeTop) && node.kind == MUL && zero {
            return self.make_const(node.size, 0);
        }
        if self.node(left).kind == TOP {
            return self.make_top(node, left);
        }
        if self.node(right).kind == TOP && !self.slips(Slip::RightTopUnseen) {
            return self.make_top(node, right);
        }
        if let (Some(_), Some(b)) = (self.constant(left), self.constant(right)) {
            return self.fold(node, left, b, Some(right));
        }
        match node.kind {
            ADD => self.add(at, node, left, right),
            SUB => self.sub(at, node, left, right),
            MUL => self.mul(at, node, left, right),
            XOR => self.xor(at, node, left, right),
            OR => self.or(at, node, left, right),
            LEFT_SHIFT | RIGHT_SHIFT | SIGNED_RIGHT_SHIFT => self.shift(at, node, left, right),
            _ => self.flag(at, node, left, right),
        }
    }

    fn add(&mut self, at: usize, node: Node, left: usize, right: usize) -> Step {
        let (left, right, swapped) = match self.slips(Slip::AddNeverSwaps) {
            true => (left, right, false),
            false => self.swap(left, right),
        };
        let Some(b) = self.constant(right) else { return self.finish(at, node, left, right, swapped) };
        if b == 0 && !(swapped && self.slips(Slip::AddZeroBeforeSwap)) {
            return self.give(node, Rule::Neutral, left);
        }
        match self.beside_constant(left) {
            // ((e + a) + b) -> (e + (a + b))
            Some((ADD, e, a)) => {
                self.ended(node, Rule::OfAdd);
                let again = !self.slips(Slip::AddOfAddNotAgain);
                self.moved(ADD, node.size, e, a.wrapping_add(b), again)
            }
            // ((e - a) + b) -> (e - (a - b)) or (e + (b - a))
            Some((_, e, a)) => {
                let difference = a.wrapping_sub(b);
                let negative = self.negative(node.size, difference, Slip::AddOfSubSignAtSize)
                    || difference == 0 && self.slips(Slip::AddOfSubZeroIsNegative);
                if negative {
                    self.ended(node, Rule::OfSubNegative);
                    return self.moved(ADD, node.size, e, difference.wrapping_neg(), true);
                }
                self.ended(node, Rule::OfSub);
                self.moved(SUB, node.size, e, difference, true)
            }
            None => self.finish(at, node, left, right, swapped),
        }
    }

    fn sub(&mut self, at: usize, node: Node, left: usize, right: usize) -> Step {
        let subtracted = self.constant(right);
        if subtracted == Some(0) {
            return self.give(node, Rule::Neutral, left);
        }
        if let Some(b) = subtracted.filter(|&b| self.negative(node.size, b, Slip::SubSignAtSize)) {
            self.ended(node, Rule::Negative);
            let again = !self.slips(Slip::SubNegativeNotAgain);
            return self.moved(ADD, node.size, left, b.wrapping_neg(), again);
        }
        if !self.slips(Slip::SubEqualMissed) && self.equal(left, right) {
            self.ended(node, Rule::Equal);
            return self.make_const(node.size, 0);
        }
        match (self.beside_constant(left), subtracted) {
            // ((e + a) - b) -> (e + (a - b)) or (e - (b - a))
            (Some((ADD, e, a)), Some(b)) => {
                let difference = match self.slips(Slip::SubOfAddOtherWay) {
                    true => b.wrapping_sub(a),
                    false => a.wrapping_sub(b),
                };
                if (difference as i64) < 0 {
                    self.ended(node, Rule::OfAddNegative);
                    return self.moved(SUB, node.size, e, difference.wrapping_neg(), true);
                }
                self.ended(node, Rule::OfAdd);
                self.moved(ADD, node.size, e, difference, true)
            }
            // ((e - a) - b) -> (e - (a + b))
            (Some((_, e, a)), Some(b)) => {
                self.ended(node, Rule::OfSub);
                let sum = match self.slips(Slip::SubOfSubDifference) {
                    true => a.wrapping_sub(b),
                    false => a.wrapping_add(b),
                };
                self.moved(SUB, node.size, e, sum, true)
            }
            _ => self.finish(at, node, left, right, false),
        }
    }

    fn mul(&mut self, at: usize, node: Node, left: usize, right: usize) -> Step {
        let (left, right, swapped) = self.swap(left, right);
        match self.constant(right) {
            Some(1) => self.give(node, Rule::Neutral, left),
            Some(0) if self.slips(Slip::MulZeroGivesRight) => Ok(right),
            Some(0) => {
                self.ended(node, Rule::Absorb);
                self.make_const(node.size, 0)
            }
            _ => self.finish(at, node, left, right, swapped),
        }
    }

    fn xor(&mut self, at: usize, node: Node, left: usize, right: usize) -> Step {
        let (left, right, swapped) = self.swap(left, right);
        if self.equal(left, right) {
            self.ended(node, Rule::Equal);
            return match self.slips(Slip::XorEqualGivesLeft) {
                true => Ok(left),
                false => self.make_const(node.size, 0),
            };
        }
        if self.constant(right) == Some(0) {
            return self.give(node, Rule::Neutral, left);
        }
        self.finish(at, node, left, right, swapped)
    }

    fn or(&mut self, at: usize, node: Node, left: usize, right: usize) -> Step {
        let (left, right, swapped) = self.swap(left, right);
        if self.equal(left, right) {
            let same = if self.slips(Slip::OrEqualGivesRight) { right } else { left };
            return self.give(node, Rule::Equal, same);
        }
        if self.constant(right) == Some(0) {
            return self.give(node, Rule::Neutral, left);
        }
        let ones = if self.slips(Slip::OrOnesOf64) { u64::MAX } else { mask(node.size) };
        if self.constant(right) == Some(ones) {
            self.ended(node, Rule::Absorb);
            return self.make_const(node.size, ones);
        }
        self.finish(at, node, left, right, swapped)
    }

    fn shift(&mut self, at: usize, node: Node, left: usize, right: usize) -> Step {
        let missed = self.slips(Slip::ShiftByZeroMissed) && node.kind == LEFT_SHIFT;
        if self.constant(right) == Some(0) && !missed {
            return self.give(node, Rule::Neutral, left);
        }
        let (left, right, swapped) = match self.slips(Slip::ShiftSwaps) {
            true => self.swap(left, right),
            false => (left, right, false),
        };
        self.finish(at, node, left, right, swapped)
    }

    fn flag(&mut self, at: usize, node: Node, left: usize, right: usize) -> Step {
        let equal_gives_zero = node.kind == SBORROW && !self.slips(Slip::SborrowEqualMissed)
            || node.kind == SCARRY && self.slips(Slip::ScarryEqualGivesZero);
        if equal_gives_zero && self.equal(left, right) {
            self.ended(node, Rule::Equal);
            return self.make_const(1, 0);
        }
        self.finish(at, node, left, right, false)
    }

    fn sign_extend(&mut self, at: usize, node: Node, child: usize) -> Step {
        let inner = self.node(child);
        if inner.size == node.size && !(inner.kind == CONST && self.slips(Slip::ExtendFoldsFirst)) {
            return self.give(node, Rule::SameSize, child);
        }
        if inner.kind == CONST {
            return self.fold(node, child, 0, None);
        }
        if inner.kind == SIGN_EXTEND && !self.slips(Slip::ExtendTwiceKept) {
            self.ended(node, Rule::Twice);
            let one = self.append(Node::op(SIGN_EXTEND, node.size, inner.left, 0))?;
            return self.simplified(one);
        }
        self.finish(at, node, child, 0, false)
    }

    fn int_2comp(&mut self, at: usize, node: Node, child: usize) -> Step {
        let inner = self.node(child);
        if inner.kind == CONST {
            return self.fold(node, child, 0, None);
        }
        if inner.kind == INT_2COMP && !self.slips(Slip::NegTwiceKept) {
            return self.give(node, Rule::Twice, inner.left);
        }
        self.finish(at, node, child, 0, false)
    }

    /// The last rule: same children unswapped, the same index; otherwise the node anew.
    fn finish(&mut self, at: usize, node: Node, left: usize, right: usize, swapped: bool) -> Step {
        let same = left == node.left && right == node.right && !swapped;
        if same && !self.slips(Slip::AlwaysAnew) {
            return self.give(node, Rule::Keep, at);
        }
        if swapped && (left, right) == (node.right, node.left) && self.slips(Slip::SwapKeepsIndex) {
            return Ok(at);
        }
        self.ended(node, if swapped { Rule::Swap } else { Rule::Rebuild });
        let wide = node.is_flag() && self.slips(Slip::FlagRebuiltWide);
        let size = if wide { self.node(left).size } else { node.size };
        self.append(Node::op(node.kind, size, left, right))
    }

    /// A constant operation's value as a new constant.
    fn fold(&mut self, node: Node, left: usize, b: u64, right: Option<usize>) -> Step {
        self.ended(node, Rule::Fold);
        let child = self.node(left);
        let value = self.folded(node, child.size, child.payload, b);
        if let Some(right) = right.filter(|_| value == b && self.slips(Slip::FoldReusesConst)) {
            return Ok(right);
        }
        if self.slips(Slip::SignedShiftUncut) && node.kind == SIGNED_RIGHT_SHIFT && b >= 8 * node.size {
            return self.append(Node::constant(node.size, if value == 0 { 0 } else { u64::MAX }));
        }
        self.make_const(node.size, value)
    }

    fn folded(&self, node: Node, from: u64, a: u64, b: u64) -> u64 {
        let Node { kind, size, .. } = node;
        let shift = matches!(kind, LEFT_SHIFT | RIGHT_SHIFT | SIGNED_RIGHT_SHIFT);
        let b = if shift && self.slips(Slip::ShiftModulo64) {
            b % 64
        } else if shift && self.slips(Slip::ShiftModuloWidth) {
            b % (8 * size)
        } else {
            b
        };
        match kind {
            CARRY if self.slips(Slip::CarryIn64Bits) => (a.wrapping_add(b) > mask(from)) as u64,
            SIGNED_RIGHT_SHIFT if self.slips(Slip::SignedShiftFillsZeros) => {
                manual::value(RIGHT_SHIFT, size, from, a, b)
            }
            SIGN_EXTEND if self.slips(Slip::ExtendReadsBit7) && a & 0x80 == 0 => a,
            INT_2COMP if self.slips(Slip::NegIsComplement) => a ^ mask(size),
            _ => manual::value(kind, size, from, a, b),
        }
    }

    /// A constant and an operation on it, appended and simplified again.
    fn moved(&mut self, kind: u64, size: u64, e: usize, number: u64, again: bool) -> Step {
        let constant = self.make_const(size, number)?;
        let rebuilt = self.append(Node::op(kind, size, e, constant))?;
        if again { self.simplified(rebuilt) } else { Ok(rebuilt) }
    }

    /// A new constant: the 64-bit number modulo 2 to the 8·size.
    fn make_const(&mut self, size: u64, number: u64) -> Step {
        let value = if self.slips(Slip::ConstUncut) { number } else { number & mask(size) };
        self.append(Node::constant(size, value))
    }

    fn make_top(&mut self, node: Node, child: usize) -> Step {
        self.ended(node, Rule::Top);
        if self.slips(Slip::TopGivesChild) { Ok(child) } else { self.append(Node::top()) }
    }

    fn append(&mut self, node: Node) -> Step {
        if self.count >= self.room - self.slips(Slip::RoomOneLess) as usize {
            return Err(NoRoom);
        }
        let at = self.count;
        self.words[NODE_WORDS * at..][..NODE_WORDS].copy_from_slice(&node.words());
        self.count += 1;
        Ok(at)
    }

    /// Ends a rule with an index that is there already.
    fn give(&self, node: Node, rule: Rule, index: usize) -> Step {
        self.ended(node, rule);
        Ok(index)
    }

    /// The commutative step.
    fn swap(&self, left: usize, right: usize) -> (usize, usize, bool) {
        if self.constant(left).is_some() && self.constant(right).is_none() {
            (right, left, true)
        } else {
            (left, right, false)
        }
    }

    /// Of an Add or a Sub of a constant: its kind, what stands left of the constant, the constant.
    fn beside_constant(&self, index: usize) -> Option<(u64, usize, u64)> {
        let node = self.node(index);
        let constant = matches!(node.kind, ADD | SUB).then(|| self.constant(node.right))?;
        constant.map(|value| (node.kind, node.left, value))
    }

    /// Whether a number is negative as i64. The slip reads it at the size.
    fn negative(&self, size: u64, number: u64, slip: Slip) -> bool {
        (number as i64) < 0 || self.slips(slip) && manual::signed(number & mask(size), size) < 0
    }

    fn constant(&self, index: usize) -> Option<u64> {
        let node = self.node(index);
        (node.kind == CONST).then_some(node.payload)
    }

    /// Equal trees: words and all, apart from where they lie.
    fn equal(&self, a: usize, b: usize) -> bool {
        if self.slips(Slip::EqualByIndex) {
            return a == b;
        }
        let (x, y) = (self.node(a), self.node(b));
        let size = x.size == y.size || x.is_input() && self.slips(Slip::EqualIgnoresSize);
        let space = x.space == y.space || self.slips(Slip::EqualIgnoresSpace);
        let payload = x.payload == y.payload || x.kind == BIND && self.slips(Slip::EqualIgnoresBind);
        let kind = x.kind == y.kind
            || !x.is_leaf()
                && !y.is_leaf()
                && x.is_unary() == y.is_unary()
                && self.slips(Slip::EqualIgnoresKind);
        if !(kind && size && space && payload) {
            return false;
        }
        let right_seen = !x.is_unary() && !self.slips(Slip::EqualLooksLeft);
        x.is_leaf() || self.equal(x.left, y.left) && (!right_seen || self.equal(x.right, y.right))
    }

    fn node(&self, index: usize) -> Node {
        node_at(self.words, index)
    }

    fn slips(&self, slip: Slip) -> bool {
        self.probe.slips(slip)
    }

    fn ended(&self, node: Node, rule: Rule) {
        self.probe.ended(node.kind, rule);
    }
}
