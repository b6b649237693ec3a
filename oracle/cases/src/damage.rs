//! Arenas that are not what they should be.

use crate::{Builder, Case, Rng};
use reference::words::*;

/// Words that may be anything, in a slice of a few.
pub fn garbage(b: &mut Builder) -> Case {
    let len = b.rng.below(14);
    let mut words = Vec::new();
    for index in 0..len {
        let word = match b.rng.below(4) {
            0 => b.rng.word(),
            1 => 0,
            _ if index % NODE_WORDS == 1 => b.rng.below(3) as u64,
            _ => {
                let children = [b.rng.below(index / 2 + 1), b.rng.below(index / 2 + 1)];
                let (kind, size) = (b.rng.below(18) as u64, b.rng.pick(&[0, 1, 1, 2, 4, 8]));
                Node::op(kind, size, children[0], children[1]).words()[0]
            }
        };
        words.push(word);
    }
    let count = b.rng.below(len / 2 + 3) as u64;
    let root = count.saturating_sub(b.rng.below(3) as u64);
    let rows = (0..b.rng.below(7)).map(|_| b.rng.word()).collect();
    Case { words, count, root, rows }
}

/// Damages a case in one to three places.
pub fn damage(rng: &mut Rng, case: &mut Case) {
    for _ in 0..rng.pick(&[1, 1, 1, 2, 3]) {
        match rng.below(12) {
            0 => case.count = some_count(rng, case),
            1 => case.root = some_root(rng, case),
            2 => cut_slice(rng, case),
            _ => damage_node(rng, case),
        }
    }
}

fn some_count(rng: &mut Rng, case: &Case) -> u64 {
    let capacity = reference::capacity(case.words.len()) as u64;
    let near =
        [0, case.count.wrapping_sub(1), case.count.wrapping_add(1), case.root, case.root.wrapping_add(1)];
    match rng.below(3) {
        0 => rng.pick(&near),
        1 => rng.pick(&[capacity, capacity + 1, capacity.wrapping_sub(1), 4096, 4097]),
        _ => rng.pick(&[1 << 16, 1 << 32, 1 << 63, u64::MAX, case.count ^ 1 << 32]),
    }
}

fn some_root(rng: &mut Rng, case: &Case) -> u64 {
    match rng.below(3) {
        0 => rng.pick(&[case.count, case.count.wrapping_sub(1), case.count.wrapping_add(1)]),
        1 => rng.word() % case.count.saturating_add(1),
        _ => rng.pick(&[1 << 16, 1 << 32, 1 << 63, u64::MAX, case.root ^ 1 << 32]),
    }
}

fn cut_slice(rng: &mut Rng, case: &mut Case) {
    let len = match rng.below(3) {
        0 => rng.below(4),
        1 => rng.below(case.words.len() + 1),
        _ => NODE_WORDS.saturating_mul(case.count as usize).saturating_sub(rng.below(3)),
    };
    case.words.truncate(len);
}

/// Damages one node, mostly one below the count.
fn damage_node(rng: &mut Rng, case: &mut Case) {
    let nodes = case.words.len() / NODE_WORDS;
    let below = nodes.min(case.count as usize);
    if below == 0 {
        return;
    }
    let at = if rng.one_in(20) { rng.below(nodes) } else { rng.below(below) };
    let mut node = node_at(&case.words, at);
    match rng.below(12) {
        0 => node.kind = rng.pick(&[17, 18, 31, 127, 128, 255]),
        1 => node.kind = rng.below(17) as u64,
        2 | 3 => node.size = rng.pick(&[0, 1, 2, 3, 4, 5, 6, 7, 8, 9, 16, 255]),
        4 => node.left = rng.pick(&[at, at + 1, below, 0xFFFF, 0]) & 0xFFFF,
        5 => node.right = rng.pick(&[at, at + 1, below, 0xFFFF, 0]) & 0xFFFF,
        6 => node.space = rng.pick(&[1, 0x100, 0xFFFF, 0]),
        7 => node.payload = rng.pick(&[1, 0x100, 0x1_0000, 1 << 32, u64::MAX, 0]),
        8 => node.left = rng.below(at + 1),
        9 => node.right = rng.below(at + 1),
        10 => return case.words.swap(NODE_WORDS * at, NODE_WORDS * rng.below(below)),
        _ => return case.words[NODE_WORDS * at + rng.below(NODE_WORDS)] ^= 1 << rng.below(64),
    }
    case.words[NODE_WORDS * at..][..NODE_WORDS].copy_from_slice(&node.words());
}
