//! Rows for the inputs of an arena, whole or not.

use crate::Builder;
use reference::words::*;

type Row = [u64; 3];

/// Rows for every input, in some order, then perhaps disturbed.
pub fn rows(b: &mut Builder) -> Vec<u64> {
    let mut rows: Vec<Row> = Vec::new();
    for index in 0..b.nodes.len() {
        let [first, second] = b.nodes[index].words();
        if b.nodes[index].is_input() && !rows.iter().any(|row| row[..2] == [first, second]) {
            let value = b.value(b.nodes[index].size);
            rows.insert(b.rng.below(rows.len() + 1), [first, second, value]);
        }
    }
    let cut = disturb(b, &mut rows);
    let mut words = rows.concat();
    words.truncate(words.len() - cut.min(words.len()));
    words
}

/// Disturbs the rows, and answers how many words are missing at their end.
fn disturb(b: &mut Builder, rows: &mut Vec<Row>) -> usize {
    let at = b.rng.below(rows.len() + 1);
    let row = rows.get(at).or(rows.first()).copied();
    match (b.rng.below(24), row) {
        (0, _) => rows.clear(),
        (1..=2, Some(_)) => {
            rows.remove(at.min(rows.len() - 1));
        }
        // The same input again, with another value.
        (3..=4, Some([first, second, value])) => rows.insert(at, [first, second, value ^ 1]),
        (5, Some([first, second, value])) => rows.push([first, second, value ^ 1]),
        // A value that does not fit, if some does not.
        (6..=7, Some([first, second, value])) => {
            let size = Node::from_words(first, second).size;
            rows.insert(at, [first, second, if size == 8 { value } else { mask(size) + 1 }]);
        }
        // The input's place at another size, good or not.
        (8..=9, Some([first, second, _])) => {
            let mut node = Node::from_words(first, second);
            node.size = b.rng.pick(&[0, 1, 2, 3, 4, 8, 16]);
            let [first, second] = node.words();
            if b.rng.one_in(2) {
                rows.retain(|row| row[1] != second);
            }
            rows.insert(at.min(rows.len()), [first, second, b.rng.below(200) as u64]);
        }
        // The input's offset in another space.
        (10, Some([first, second, value])) => {
            let other = [first ^ 3, second, value ^ 1];
            if b.rng.one_in(2) {
                rows.retain(|row| row[..2] != [first, second]);
            }
            rows.insert(at.min(rows.len()), other);
        }
        // A row of no input.
        (11..=12, _) => {
            let [first, second] = b.nodes[b.rng.below(b.nodes.len())].words();
            rows.insert(at, [first, second, b.rng.below(3) as u64]);
        }
        (13, _) => rows.insert(at, [b.rng.word(), b.rng.word(), b.rng.word()]),
        (14..=15, _) => return b.rng.range(1, 2),
        _ => {}
    }
    0
}
