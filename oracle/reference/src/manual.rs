//! What each operation means: Ghidra's P-Code Reference Manual, over whole numbers.

use crate::words::*;

/// The bits of a size.
fn bits(size: u64) -> u32 {
    8 * size as u32
}

/// A value read as signed at its size.
pub fn signed(value: u64, size: u64) -> i128 {
    let value = value as i128;
    if value < 1 << (bits(size) - 1) { value } else { value - (1 << bits(size)) }
}

/// A number cut to a size.
pub fn cut(number: i128, size: u64) -> u64 {
    number.rem_euclid(1 << bits(size)) as u64
}

/// Whether a number can be held as signed at a size.
fn holds_signed(number: i128, size: u64) -> bool {
    let half = 1i128 << (bits(size) - 1);
    -half <= number && number < half
}

/// The value of an operation of a size on values, the first of size `from`. One input: `b` is not
/// looked at.
pub fn value(kind: u64, size: u64, from: u64, a: u64, b: u64) -> u64 {
    let past_width = b >= 8 * size;
    match kind {
        ADD => cut(a as i128 + b as i128, size),
        SUB => cut(a as i128 - b as i128, size),
        MUL => ((a as u128 * b as u128) % (1u128 << bits(size))) as u64,
        XOR => a ^ b,
        OR => a | b,
        LEFT_SHIFT if past_width => 0,
        LEFT_SHIFT => cut((a as i128) << b, size),
        RIGHT_SHIFT if past_width => 0,
        RIGHT_SHIFT => a >> b,
        SIGNED_RIGHT_SHIFT if past_width => cut(if signed(a, size) < 0 { -1 } else { 0 }, size),
        SIGNED_RIGHT_SHIFT => cut(signed(a, size).div_euclid(1 << b), size),
        SIGN_EXTEND => cut(signed(a, from), size),
        CARRY => (a as u128 + b as u128 >= 1u128 << bits(from)) as u64,
        SCARRY => !holds_signed(signed(a, from) + signed(b, from), from) as u64,
        SBORROW => !holds_signed(signed(a, from) - signed(b, from), from) as u64,
        INT_2COMP => cut(-(a as i128), size),
        _ => unreachable!("kind {kind} is no operation"),
    }
}
