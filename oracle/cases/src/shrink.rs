//! Makes a case small that shows a difference.

use crate::Case;
use reference::words::*;

/// A small case that still shows a difference, from one that does.
pub fn shrink(case: &Case, differs: impl Fn(&Case) -> bool) -> Case {
    let mut best = case.clone();
    loop {
        let before = weight(&best);
        let (mut steps, mut next) = (steps(&best), 0);
        while next < steps.len() {
            let mut smaller = best.clone();
            steps[next].apply(&mut smaller);
            if weight(&smaller) < weight(&best) && differs(&smaller) {
                best = smaller;
                steps = self::steps(&best);
            } else {
                next += 1;
            }
        }
        if weight(&best) == before {
            return best;
        }
    }
}

/// What is to fall: nodes, then words and rows, then what is in them.
fn weight(case: &Case) -> (u64, usize, usize, u64, u64) {
    let bits = |word: &u64| (64 - word.leading_zeros() + word.count_ones()) as u64;
    let content = case.words.iter().chain(&case.rows).map(bits).sum();
    (case.count, case.words.len(), case.rows.len(), content, case.root)
}

/// One way to make a case smaller.
enum Step {
    Count(u64),
    Root(u64),
    /// So many words of the slice stay.
    Words(usize),
    /// The row that begins at a word goes.
    Row(usize),
    /// What points at a node points at another, and the node goes.
    Instead(usize, usize),
    /// A node goes.
    Without(usize),
    /// A word of the slice.
    Word(usize, u64),
    /// A word of the rows.
    RowWord(usize, u64),
}

/// The nodes below the count that the slice has.
fn nodes(case: &Case) -> usize {
    (case.words.len() / NODE_WORDS).min(case.count.min(MAX_CAPACITY as u64) as usize)
}

/// Every step that may serve, the boldest first.
fn steps(case: &Case) -> Vec<Step> {
    let (nodes, len) = (nodes(case), case.words.len());
    let used = NODE_WORDS * nodes;
    let mut steps = vec![
        Step::Count(case.root.saturating_add(1)),
        Step::Count(case.count / 2),
        Step::Count(case.count.saturating_sub(1)),
        Step::Root(case.root / 2),
        Step::Root(case.root.saturating_sub(1)),
        Step::Words(used),
        Step::Words((used + len) / 2),
        Step::Words(len.saturating_sub(NODE_WORDS)),
        Step::Words(len.saturating_sub(1)),
    ];
    steps.extend((0..case.rows.len()).map(Step::Row));
    for at in (0..nodes).rev() {
        let node = node_at(&case.words, at);
        let children = [node.left, node.right].into_iter().filter(|&child| !node.is_leaf() && child < at);
        steps.extend(children.map(|child| Step::Instead(at, child)));
        steps.push(Step::Without(at));
    }
    for at in (0..nodes).rev() {
        let Node { size, payload, .. } = node_at(&case.words, at);
        let header = case.words[NODE_WORDS * at];
        let entry = Node::leaf(ENTRY, size, 0, 0).words()[0];
        let constant = Node::constant(size, 0).words()[0];
        steps.extend([entry, constant, header & !0xFFFF].map(|word| Step::Word(NODE_WORDS * at, word)));
        let payloads = [0, 1, payload / 2, payload & payload.wrapping_sub(1)];
        steps.extend(payloads.map(|word| Step::Word(NODE_WORDS * at + 1, word)));
    }
    steps.extend((used..len).map(|at| Step::Word(at, 0)));
    for (at, word) in case.rows.iter().enumerate() {
        steps.extend([0, word / 2, word & word.wrapping_sub(1)].map(|word| Step::RowWord(at, word)));
    }
    steps
}

impl Step {
    fn apply(&self, case: &mut Case) {
        match *self {
            Step::Count(count) => case.count = count,
            Step::Root(root) => case.root = root,
            Step::Words(words) => case.words.truncate(words),
            Step::Row(at) => drop(case.rows.drain(at..(at + 3).min(case.rows.len()))),
            Step::Instead(from, to) => {
                if case.root == from as u64 {
                    case.root = to as u64;
                }
                renumber(case, |child| if child == from { to } else { child });
                remove(case, from);
            }
            Step::Without(at) => remove(case, at),
            Step::Word(at, word) => case.words[at] = word,
            Step::RowWord(at, word) => case.rows[at] = word,
        }
    }
}

/// Takes a node out. What points past it follows.
fn remove(case: &mut Case, at: usize) {
    renumber(case, |child| if child > at { child - 1 } else { child });
    case.words.drain(NODE_WORDS * at..NODE_WORDS * (at + 1));
    case.count -= 1;
    if case.root > at as u64 {
        case.root -= 1;
    }
}

fn renumber(case: &mut Case, to: impl Fn(usize) -> usize) {
    for at in 0..nodes(case) {
        let mut node = node_at(&case.words, at);
        if let Some(uses) = node.uses() {
            node.left = if uses.left { to(node.left) } else { node.left };
            node.right = if uses.right { to(node.right) } else { node.right };
            case.words[NODE_WORDS * at] = node.words()[0];
        }
    }
}
