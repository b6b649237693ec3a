//! The library's calls with their answers as they come: numbers, places, and the count and root that
//! a refusal gives back.

/// What the check answers.
#[derive(Clone, Copy, Debug, PartialEq, Eq)]
#[repr(C)]
pub struct Checked {
    pub number: u64,
    pub place: u64,
}

/// What simplify answers.
#[derive(Clone, Copy, Debug, PartialEq, Eq)]
#[repr(C)]
pub struct Simplified {
    pub number: u64,
    pub place: u64,
    pub root: u64,
    pub count: u64,
}

/// What evaluation answers.
#[derive(Clone, Copy, Debug, PartialEq, Eq)]
#[repr(C)]
pub struct Evaluated {
    pub number: u64,
    pub place: u64,
    pub value: u64,
}

unsafe extern "C" {
    fn santofunye_check(words: *const u64, len: usize, count: u64, root: u64) -> Checked;
    fn santofunye_simplify(words: *mut u64, len: usize, count: u64, root: u64) -> Simplified;
    fn santofunye_evaluate(
        words: *const u64,
        len: usize,
        count: u64,
        root: u64,
        rows: *const u64,
        rows_len: usize,
    ) -> Evaluated;
}

pub fn check(words: &[u64], count: u64, root: u64) -> Checked {
    // SAFETY: the call reads the words of the slice and no others, whatever count and root are.
    unsafe { santofunye_check(words.as_ptr(), words.len(), count, root) }
}

pub fn simplify(words: &mut [u64], count: u64, root: u64) -> Simplified {
    // SAFETY: the call reads and writes the words of the slice and no others.
    unsafe { santofunye_simplify(words.as_mut_ptr(), words.len(), count, root) }
}

pub fn evaluate(words: &[u64], count: u64, root: u64, rows: &[u64]) -> Evaluated {
    // SAFETY: the call reads the words of both slices and no others.
    unsafe { santofunye_evaluate(words.as_ptr(), words.len(), count, root, rows.as_ptr(), rows.len()) }
}
