//! One case: what is handed to the three calls.

use crate::{Builder, Rng, damage, rows};
use reference::words::*;
use reference::{Model, Simplifier, number, program};

/// An arena's words with a count, a root and rows.
#[derive(Clone, Debug, PartialEq)]
pub struct Case {
    pub words: Vec<u64>,
    pub count: u64,
    pub root: u64,
    pub rows: Vec<u64>,
}

impl Case {
    /// The case as the program would run it: its nodes in an arena of zeros. Not every case can be.
    pub fn as_program(&self) -> Option<Case> {
        let nodes = NODE_WORDS.checked_mul(usize::try_from(self.count).ok()?)?;
        if nodes > self.words.len().min(program::ARENA_WORDS) || self.root > u32::MAX as u64 {
            return None;
        }
        let mut words = self.words[..nodes].to_vec();
        words.resize(program::ARENA_WORDS, 0);
        Some(Case { words, rows: Vec::new(), ..*self })
    }
}

/// The case of a number under a seed.
pub fn case(seed: u64, index: u64) -> Case {
    let mut b = Builder::new(Rng::new(seed, index));
    if b.rng.one_in(30) {
        return damage::garbage(&mut b);
    }
    if b.rng.one_in(6) {
        b.tops = b.rng.pick(&[2, 5, 20]);
    }
    let root = grow(&mut b);
    let mut case = placed(&mut b, root);
    case.rows = rows::rows(&mut b);
    if b.rng.one_in(4) {
        damage::damage(&mut b.rng, &mut case);
    }
    case
}

/// Grows a tree and what lies about it, and answers its root.
fn grow(b: &mut Builder) -> usize {
    let size = b.size();
    if b.rng.one_in(4) {
        some_tree(b, size, 1, 6);
    }
    let root = match b.rng.below(64) {
        0 => near_node_limit(b, size),
        1 => near_path_limit(b, size),
        2 => visited_often(b, size),
        3..=4 => some_tree(b, size, 150, 400),
        5..=12 => some_tree(b, size, 40, 150),
        13..=32 => some_tree(b, size, 12, 40),
        _ => some_tree(b, size, 1, 12),
    };
    if b.rng.one_in(4) {
        let size = b.size();
        some_tree(b, size, 1, 6);
    }
    if b.rng.one_in(16) { b.rng.below(b.nodes.len()) } else { root }
}

fn some_tree(b: &mut Builder, size: u64, least: usize, most: usize) -> usize {
    let budget = b.rng.range(least, most);
    b.tree(size, budget)
}

/// A tree at the limit of unfolded nodes, sometimes over both limits.
fn near_node_limit(b: &mut Builder, size: u64) -> usize {
    let nodes = match b.rng.one_in(3) {
        true => b.rng.range(300, 4300),
        false => b.rng.range(MAX_UNFOLDED as usize - 2, MAX_UNFOLDED as usize + 2),
    };
    let at = b.unfolded(size, nodes);
    if b.rng.one_in(4) { b.path(at, 130) } else { at }
}

/// A tree at the limit of the path.
fn near_path_limit(b: &mut Builder, size: u64) -> usize {
    let at = b.input(size);
    let nodes = b.rng.range(MAX_PATH as usize - 4, MAX_PATH as usize + 2);
    b.path(at, nodes)
}

/// A tree that is simplified again at each step of a tower of constants.
fn visited_often(b: &mut Builder, size: u64) -> usize {
    let mut at = some_tree(b, size, 10, 200);
    for _ in 0..b.rng.range(5, 40) {
        let constant = b.constant(size);
        let kind = b.rng.pick(&[ADD, SUB]);
        at = b.push(Node::op(kind, size, at, constant));
    }
    at
}

/// Lays the nodes into a slice with room of some kind, and something in that room.
fn placed(b: &mut Builder, root: usize) -> Case {
    let mut words: Vec<u64> = b.nodes.iter().flat_map(|node| node.words()).collect();
    let mut count = b.nodes.len();
    let largest = b.rng.one_in(400) || b.rng.one_in(20) && count > 1000;
    let nodes = match largest {
        true => count.max(MAX_CAPACITY + b.rng.below(3)),
        false => count + room(b, &words, root),
    };
    let len = NODE_WORDS * nodes + b.rng.one_in(3) as usize;
    let lies_there = b.rng.below(3);
    while words.len() < len {
        let word = match lies_there {
            0 => 0,
            1 => b.rng.word(),
            _ => words[b.rng.below(words.len())],
        };
        words.push(word);
    }
    if largest && lies_there == 0 && b.rng.one_in(2) {
        // Words of zero are nodes, too: Tops.
        count = b.rng.range(MAX_CAPACITY - 1, nodes);
    }
    Case { words, count: count as u64, root: root as u64, rows: Vec::new() }
}

/// How many nodes fit after those that are there: as many as the run appends, or some more, or too
/// few by any number.
fn room(b: &mut Builder, words: &[u64], root: usize) -> usize {
    let count = words.len() / NODE_WORDS;
    let mut spacious = words.to_vec();
    spacious.resize(NODE_WORDS * (4 * count + 64).min(MAX_CAPACITY).max(count), 0);
    let answer = Model(()).simplify(&mut spacious, count as u64, root as u64);
    let appended = match answer.number {
        number::DONE => answer.count as usize - count,
        number::NO_ROOM => spacious.len() / NODE_WORDS - count,
        _ => 0,
    };
    match b.rng.below(8) {
        0 => 0,
        1..=3 => b.rng.range(0, appended + 1),
        4 => appended,
        _ => appended + b.rng.range(1, 6),
    }
}
