//! Evaluation under rows, from the manual's meanings.

use crate::words::*;
use crate::{Evaluated, Probe, Slip, check, manual, number::*};

/// Words a row: the two words of an input, and its value.
const ROW_WORDS: usize = 3;

pub(crate) fn evaluate(probe: &impl Probe, words: &[u64], count: u64, root: u64, rows: &[u64]) -> Evaluated {
    let refused = |number, place: usize| Evaluated { number, place: place as u64, value: 0 };
    let checked = check::check(probe, words, count, root);
    if checked.number != DONE {
        return refused(checked.number, checked.place as usize);
    }
    let (root, count) = (root as usize, count as usize);
    let top = || match probe.slips(Slip::TopOverAllNodes) {
        true => (0..count).any(|index| node_at(words, index).kind == TOP),
        false => {
            let reached = check::reachable(words, root);
            (0..=root).any(|index| reached[index] && node_at(words, index).kind == TOP)
        }
    };
    if probe.slips(Slip::TopBeforeRows) && top() {
        return refused(TOP_REACHABLE, 0);
    }
    if let Some(row) = bad_row(probe, words, root, rows) {
        let place = if probe.slips(Slip::RowPlaceInWords) { ROW_WORDS * row } else { row };
        return refused(BAD_ROW, place);
    }
    let missing = missing_input(probe, words, root, rows);
    if let Some(index) = missing.filter(|_| probe.slips(Slip::MissingBeforeTop)) {
        return refused(MISSING_INPUT, index);
    }
    if top() {
        return refused(TOP_REACHABLE, 0);
    }
    if let Some(index) = missing {
        return refused(MISSING_INPUT, index);
    }
    Evaluated { number: DONE, place: 0, value: value_at(probe, words, root, rows) }
}

/// The number of the first bad row.
fn bad_row(probe: &impl Probe, words: &[u64], root: usize, rows: &[u64]) -> Option<usize> {
    let used = |key: &[u64]| (0..=root).any(|index| words[NODE_WORDS * index..][..NODE_WORDS] == *key);
    rows.chunks(ROW_WORDS).position(|row| {
        let &[first, second, value] = row else { return !probe.slips(Slip::ShortRowPasses) };
        let key = Node::from_words(first, second);
        let good = fits(value, key.size)
            || SIZES.contains(&key.size) && probe.slips(Slip::LargeRowPasses)
            || !SIZES.contains(&key.size) && probe.slips(Slip::OddRowPasses)
            || probe.slips(Slip::RowsJudgedOnUse) && !used(&row[..NODE_WORDS]);
        !good || probe.slips(Slip::OtherRowRefused) && !key.is_input()
    })
}

/// The value of the first row with an input's words.
fn row_value(probe: &impl Probe, input: Node, rows: &[u64]) -> Option<u64> {
    let key = |mut node: Node| {
        if probe.slips(Slip::RowsIgnoreSize) {
            node.size = 1;
        }
        if probe.slips(Slip::RowsIgnoreSpace) {
            node.space = 0;
        }
        node
    };
    let serves = |row: &&[u64]| key(Node::from_words(row[0], row[1])) == key(input);
    let mut serving = rows.chunks_exact(ROW_WORDS).filter(serves);
    let row = if probe.slips(Slip::LastRowCounts) { serving.next_back() } else { serving.next() };
    row.map(|row| row[2])
}

/// The first input without a row, left before right.
fn missing_input(probe: &impl Probe, words: &[u64], at: usize, rows: &[u64]) -> Option<usize> {
    let node = node_at(words, at);
    if node.is_leaf() {
        return (node.is_input() && row_value(probe, node, rows).is_none()).then_some(at);
    }
    let left = || missing_input(probe, words, node.left, rows);
    let right = || if node.is_unary() { None } else { missing_input(probe, words, node.right, rows) };
    if probe.slips(Slip::MissingRightFirst) {
        right().or_else(left)
    } else if probe.slips(Slip::MissingLowestFirst) {
        left().into_iter().chain(right()).min()
    } else {
        left().or_else(right)
    }
}

/// The value of a tree without Top whose inputs all have a row.
fn value_at(probe: &impl Probe, words: &[u64], at: usize, rows: &[u64]) -> u64 {
    let node = node_at(words, at);
    if node.kind == CONST {
        return node.payload;
    }
    if node.is_input() {
        return row_value(probe, node, rows).expect("a row for every input");
    }
    let from = node_at(words, node.left).size;
    let a = value_at(probe, words, node.left, rows);
    let b = if node.is_unary() { 0 } else { value_at(probe, words, node.right, rows) };
    match node.kind {
        SBORROW if probe.slips(Slip::SborrowOtherWay) => manual::value(SBORROW, node.size, from, b, a),
        SIGN_EXTEND if probe.slips(Slip::ExtendFillsZeros) => a,
        kind => manual::value(kind, node.size, from, a, b),
    }
}
