//! The program's file: 8 bytes (count in the high 32 bits, root in the low), then 16 bytes a node,
//! most significant byte first.

use crate::{Simplified, Simplifier, number::BAD_FILE, words::NODE_WORDS};

/// The words of the program's arena.
pub const ARENA_WORDS: usize = 4096;

/// The arena, count and root of a file, or nothing if it is bad.
pub fn read(file: &[u8]) -> Option<(Vec<u64>, u64, u64)> {
    let (head, nodes) = file.split_first_chunk::<8>()?;
    let head = u64::from_be_bytes(*head);
    let (count, root) = (head >> 32, head & 0xFFFF_FFFF);
    if count > (ARENA_WORDS / NODE_WORDS) as u64 || nodes.len() as u64 != 8 * NODE_WORDS as u64 * count {
        return None;
    }
    let (whole, _) = nodes.as_chunks::<8>();
    let mut words: Vec<u64> = whole.iter().map(|&bytes| u64::from_be_bytes(bytes)).collect();
    words.resize(ARENA_WORDS, 0);
    Some((words, count, root))
}

/// The file of an arena's nodes. Count and root are below 2 to the 32.
pub fn write(words: &[u64], count: u64, root: u64) -> Vec<u8> {
    let nodes = words[..NODE_WORDS * count as usize].iter();
    let head = count << 32 | root;
    [head].iter().chain(nodes).flat_map(|word| word.to_be_bytes()).collect()
}

/// What the program answers to a file, and its arena afterwards.
pub fn run(simplifier: &dyn Simplifier, file: &[u8]) -> (Simplified, Vec<u64>) {
    match read(file) {
        Some((mut words, count, root)) => (simplifier.simplify(&mut words, count, root), words),
        None => (Simplified { number: BAD_FILE, place: 0, root: 0, count: 0 }, Vec::new()),
    }
}

/// The line that the program prints.
pub fn line(answer: Simplified) -> String {
    let Simplified { number, place, root, count } = answer;
    format!("{number} {place} {root} {count}")
}
