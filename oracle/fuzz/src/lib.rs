//! The oracle's three calls for C, shaped as the library's.

use cases::Oracle;
use reference::Simplifier;
use std::slice::{from_raw_parts, from_raw_parts_mut};

#[repr(C)]
pub struct Checked(u64, u64);

#[repr(C)]
pub struct Simplified(u64, u64, u64, u64);

#[repr(C)]
pub struct Evaluated(u64, u64, u64);

/// # Safety
/// `words` points at `len` words.
#[unsafe(no_mangle)]
pub unsafe extern "C" fn oracle_check(words: *const u64, len: usize, count: u64, root: u64) -> Checked {
    let answer = Oracle.check(unsafe { from_raw_parts(words, len) }, count, root);
    Checked(answer.number, answer.place)
}

/// # Safety
/// `words` points at `len` words that no one else uses.
#[unsafe(no_mangle)]
pub unsafe extern "C" fn oracle_simplify(words: *mut u64, len: usize, count: u64, root: u64) -> Simplified {
    let answer = Oracle.simplify(unsafe { from_raw_parts_mut(words, len) }, count, root);
    Simplified(answer.number, answer.place, answer.root, answer.count)
}

/// # Safety
/// `words` points at `len` words, `rows` at `rows_len`.
#[unsafe(no_mangle)]
pub unsafe extern "C" fn oracle_evaluate(
    words: *const u64,
    len: usize,
    count: u64,
    root: u64,
    rows: *const u64,
    rows_len: usize,
) -> Evaluated {
    let (words, rows) = unsafe { (from_raw_parts(words, len), from_raw_parts(rows, rows_len)) };
    let answer = Oracle.evaluate(words, count, root, rows);
    Evaluated(answer.number, answer.place, answer.value)
}
