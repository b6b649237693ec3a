//! What watches a run of the model, and what makes it wrong on purpose.

use crate::words::*;
use std::cell::Cell;

/// Asked by the model at each decision. The defaults watch nothing and disturb nothing, and cost
/// nothing: `()` is the paper itself.
pub trait Probe {
    /// Whether the model makes this mistake.
    #[inline(always)]
    fn slips(&self, _: Slip) -> bool {
        false
    }

    /// Told how the rule of a kind ended.
    #[inline(always)]
    fn ended(&self, _kind: u64, _: Rule) {}
}

impl Probe for () {}

/// Makes one mistake.
impl Probe for Slip {
    fn slips(&self, slip: Slip) -> bool {
        *self == slip
    }
}

/// How a kind's rule ends.
#[derive(Clone, Copy, Debug, PartialEq, Eq)]
pub enum Rule {
    /// A child is Top.
    Top,
    /// The children are constants.
    Fold,
    /// The node stays as it is.
    Keep,
    /// The node anew, over new children.
    Rebuild,
    /// The node anew, its constant on the right.
    Swap,
    /// The right constant is 0 (or, for Mul, 1).
    Neutral,
    /// The right constant decides the value alone: times 0, or all ones.
    Absorb,
    /// Equal children.
    Equal,
    /// Sub of a constant that is negative as i64.
    Negative,
    /// Over an Add of a constant, the wrapped sum or a difference that is not negative.
    OfAdd,
    /// Over an Add of a constant, a negative difference.
    OfAddNegative,
    /// Over a Sub of a constant, the wrapped sum or a difference that is not negative.
    OfSub,
    /// Over a Sub of a constant, a negative difference.
    OfSubNegative,
    /// SignExtend to the child's own size.
    SameSize,
    /// Over a node of its own kind: SignExtend and Int2Comp.
    Twice,
}

use Rule::*;

/// Every way in which a kind's rule can end.
pub const RULES: &[(u64, &[Rule])] = &[
    (ADD, &[Top, Fold, Keep, Rebuild, Swap, Neutral, OfAdd, OfSub, OfSubNegative]),
    (SUB, &[Top, Fold, Keep, Rebuild, Neutral, Negative, Equal, OfAdd, OfAddNegative, OfSub]),
    (MUL, &[Top, Fold, Keep, Rebuild, Swap, Neutral, Absorb]),
    (XOR, &[Top, Fold, Keep, Rebuild, Swap, Neutral, Equal]),
    (OR, &[Top, Fold, Keep, Rebuild, Swap, Neutral, Equal, Absorb]),
    (LEFT_SHIFT, &[Top, Fold, Keep, Rebuild, Neutral]),
    (RIGHT_SHIFT, &[Top, Fold, Keep, Rebuild, Neutral]),
    (SIGNED_RIGHT_SHIFT, &[Top, Fold, Keep, Rebuild, Neutral]),
    (SIGN_EXTEND, &[Top, Fold, Keep, Rebuild, SameSize, Twice]),
    (CARRY, &[Top, Fold, Keep, Rebuild]),
    (SCARRY, &[Top, Fold, Keep, Rebuild]),
    (SBORROW, &[Top, Fold, Keep, Rebuild, Equal]),
    (INT_2COMP, &[Top, Fold, Keep, Rebuild, Twice]),
];

/// Counts how often each rule ended in each way.
#[derive(Default)]
pub struct Tally([[Cell<u64>; 15]; KINDS.len()]);

impl Probe for Tally {
    fn ended(&self, kind: u64, rule: Rule) {
        let cell = &self.0[kind as usize][rule as usize];
        cell.set(cell.get() + 1);
    }
}

impl Tally {
    pub fn of(&self, kind: u64, rule: Rule) -> u64 {
        self.0[kind as usize][rule as usize].get()
    }

    /// The endings of [`RULES`] that were met, of how many, and the names of the others.
    pub fn met(&self) -> (usize, usize, Vec<String>) {
        let all = RULES.iter().flat_map(|&(kind, rules)| rules.iter().map(move |&rule| (kind, rule)));
        let (met, missed): (Vec<_>, Vec<_>) = all.partition(|&(kind, rule)| self.of(kind, rule) > 0);
        let name = |(kind, rule): (u64, Rule)| format!("{} {rule:?}", KINDS[kind as usize].name);
        (met.len(), met.len() + missed.len(), missed.into_iter().map(name).collect())
    }
}

macro_rules! slips {
    ($($(#[$doc:meta])* $name:ident,)*) => {
        /// One mistake each, as a port of the rules could make it.
        #[derive(Clone, Copy, Debug, PartialEq, Eq)]
        pub enum Slip {
            $($(#[$doc])* $name,)*
        }

        impl Slip {
            pub const ALL: &[Slip] = &[$(Slip::$name,)*];
        }
    };
}

slips! {
    // The check.
    /// A count equal to the capacity is refused.
    CountAtCapacityRefused,
    /// More than 4,096 nodes, if the slice is long enough.
    CapacityUncapped,
    /// 2 before 1.
    RootBeforeCount,
    /// 4 before 3 at a node.
    SizeBeforeForm,
    /// The last bad node in place of the first.
    LastBadNode,
    /// Nodes past the root are not looked at.
    ScanStopsAtRoot,
    /// An unknown kind is 4.
    UnknownKindIsSize,
    /// A child index that is not below the node's own is 4.
    ForwardChildIsSize,
    /// A space in a node that has none.
    StraySpacePasses,
    /// A payload in an operation.
    StrayPayloadPasses,
    /// A right child in a unary operation.
    StrayRightPasses,
    /// A Top with a size is 3.
    TopSizeIsForm,
    /// Any size from 1 to 8.
    OddSizePasses,
    /// A Const of 2 to the 8·size.
    ConstOneTooLarge,
    /// A flag of two bytes.
    WideFlagPasses,
    /// A flag over children of two sizes.
    FlagOfTwoSizesPasses,
    /// A flag over a Top and something else.
    FlagOfTopRefused,
    /// A shift amount narrower than the value.
    NarrowAmountRefused,
    /// A shift amount wider than the value.
    WideAmountPasses,
    /// SignExtend to the same size.
    SameSizeExtendRefused,
    /// A tree of 4,096 nodes.
    UnfoldedLimitOneLess,
    /// A shared node counts once.
    SharedCountedOnce,
    /// A path of 128 nodes is refused.
    PathLimitOneLess,
    /// A path of 129 nodes passes.
    PathLimitOneMore,
    /// 6 before 5.
    PathBeforeUnfolded,
    /// The limits are held over every node, not from the root.
    LimitsOverAllNodes,

    // Room.
    /// The last node of the arena is never used.
    RoomOneLess,
    /// No room leaves the nodes that were appended.
    NoRoomKeepsWords,
    /// No room zeroes the odd last word too.
    NoRoomZeroesPastCapacity,
    /// No room answers how far it came.
    NoRoomMovesCount,
    /// Done zeroes the words after the last node.
    DoneZeroesRest,

    // The order of the run.
    /// The right child is simplified first.
    RightFirst,
    /// A shared node is simplified once.
    VisitsRemembered,
    /// A node is made anew even over the same children.
    AlwaysAnew,
    /// A swapped node over the same children stays.
    SwapKeepsIndex,
    /// A Top on the right is not seen.
    RightTopUnseen,
    /// Top gives the child's own index.
    TopGivesChild,
    /// A multiplication by 0 is taken before Top is looked for.
    MulZeroBeforeTop,

    // Equal trees.
    /// Indices are compared where trees are meant.
    EqualByIndex,
    /// Inputs of two sizes are equal.
    EqualIgnoresSize,
    /// Entries of two spaces are equal.
    EqualIgnoresSpace,
    /// All Binds are equal.
    EqualIgnoresBind,
    /// Operations of two kinds are equal.
    EqualIgnoresKind,
    /// Only the left children are compared.
    EqualLooksLeft,

    // Constants and folds.
    /// A new constant is not cut to its size.
    ConstUncut,
    /// A fold whose value is the right constant's gives its index.
    FoldReusesConst,
    /// The carry is worked in 64 bits.
    CarryIn64Bits,
    /// A signed shift past the width gives an uncut -1.
    SignedShiftUncut,
    /// A signed shift fills with zeros.
    SignedShiftFillsZeros,
    /// The amount is taken modulo 64.
    ShiftModulo64,
    /// The amount is taken modulo the width.
    ShiftModuloWidth,
    /// The sign is bit 7 at every size.
    ExtendReadsBit7,
    /// Int2Comp folds to the complement.
    NegIsComplement,

    // The rules.
    /// A constant stays on the left of Add.
    AddNeverSwaps,
    /// +0 is looked for before the swap only.
    AddZeroBeforeSwap,
    /// (e+a)+b is not simplified again.
    AddOfAddNotAgain,
    /// The sign of a-b is read at the size.
    AddOfSubSignAtSize,
    /// A difference of 0 counts as negative.
    AddOfSubZeroIsNegative,
    /// 0xFF at size 1 is read as -1.
    SubSignAtSize,
    /// x - negative is not simplified again.
    SubNegativeNotAgain,
    /// x - x survives.
    SubEqualMissed,
    /// (e+a)-b takes b-a.
    SubOfAddOtherWay,
    /// (e-a)-b takes a-b.
    SubOfSubDifference,
    /// x * 0 gives the 0 at hand.
    MulZeroGivesRight,
    /// x ^ x gives x.
    XorEqualGivesLeft,
    /// x or x gives the right one.
    OrEqualGivesRight,
    /// All ones means 64 of them.
    OrOnesOf64,
    /// A constant shifted by an unknown is swapped, as if shifts commuted.
    ShiftSwaps,
    /// x << 0 stays.
    ShiftByZeroMissed,
    /// SignExtend folds before it looks at equal size.
    ExtendFoldsFirst,
    /// sext of sext stays.
    ExtendTwiceKept,
    /// IntSCarry of equal trees gives 0.
    ScarryEqualGivesZero,
    /// IntSBorrow of equal trees stays.
    SborrowEqualMissed,
    /// A flag made anew takes its child's size.
    FlagRebuiltWide,
    /// -(-x) stays.
    NegTwiceKept,

    // Evaluation.
    /// The last row with equal words counts.
    LastRowCounts,
    /// A row serves an input of another size.
    RowsIgnoreSize,
    /// A row serves an entry of another space.
    RowsIgnoreSpace,
    /// A bad row's place is its first word.
    RowPlaceInWords,
    /// A row that the slice ends in is left out.
    ShortRowPasses,
    /// A row's value is not held to its size.
    LargeRowPasses,
    /// A row of an odd size.
    OddRowPasses,
    /// A row of no Entry or Bind is bad.
    OtherRowRefused,
    /// Only rows that serve an input are looked at.
    RowsJudgedOnUse,
    /// 10 before 8.
    TopBeforeRows,
    /// 9 before 10.
    MissingBeforeTop,
    /// A Top that is not reachable is 10.
    TopOverAllNodes,
    /// The right side's missing input comes first.
    MissingRightFirst,
    /// The missing input of the lowest index comes first.
    MissingLowestFirst,
    /// IntSBorrow subtracts the other way.
    SborrowOtherWay,
    /// The value of a SignExtend is filled with zeros.
    ExtendFillsZeros,
}
