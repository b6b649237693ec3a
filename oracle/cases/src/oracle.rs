//! What the three calls must answer, and the first place where a simplifier does not.

use crate::Case;
use reference::words::*;
use reference::{Checked, Evaluated, Model, Simplified, Simplifier, capacity, number, reachable};

/// The original Rust behind the model's refusals. The model evaluates, from the manual. Without
/// value.rs the model answers alone.
pub struct Oracle;

impl Simplifier for Oracle {
    fn check(&self, words: &[u64], count: u64, root: u64) -> Checked {
        Model(()).check(words, count, root)
    }

    fn simplify(&self, words: &mut [u64], count: u64, root: u64) -> Simplified {
        let checked = self.check(words, count, root);
        if checked.number != number::DONE {
            return Simplified { number: checked.number, place: checked.place, root: 0, count };
        }
        let old = count as usize;
        let Some(rewritten) = original::numbered::simplify(words, old, root as usize) else {
            return Model(()).simplify(words, count, root);
        };
        let room = capacity(words.len());
        if rewritten.nodes.len() > room {
            words[NODE_WORDS * old..NODE_WORDS * room].fill(0);
            return Simplified { number: number::NO_ROOM, place: 0, root: 0, count };
        }
        for (index, node) in rewritten.nodes.iter().enumerate().skip(old) {
            words[NODE_WORDS * index..][..NODE_WORDS].copy_from_slice(node);
        }
        let (root, count) = (rewritten.root as u64, rewritten.nodes.len() as u64);
        Simplified { number: number::DONE, place: 0, root, count }
    }

    fn evaluate(&self, words: &[u64], count: u64, root: u64, rows: &[u64]) -> Evaluated {
        Model(()).evaluate(words, count, root, rows)
    }
}

/// All that the three calls answer and leave to a case.
#[derive(Clone, Debug, PartialEq)]
pub struct Outcome {
    pub checked: Checked,
    pub simplified: Simplified,
    /// The words after simplify.
    pub words: Vec<u64>,
    pub evaluated: Evaluated,
}

impl Oracle {
    pub fn outcome(&self, case: &Case) -> Outcome {
        let mut words = case.words.clone();
        let simplified = self.simplify(&mut words, case.count, case.root);
        let checked = self.check(&case.words, case.count, case.root);
        let evaluated = self.evaluate(&case.words, case.count, case.root, &case.rows);
        Outcome { checked, simplified, words, evaluated }
    }
}

/// The first thing in which a simplifier answers a case other than expected. What comes after it is
/// not run: a wrong check may let pass what never ends.
pub fn difference(case: &Case, expected: &Outcome, subject: &dyn Simplifier) -> Option<String> {
    let Case { count, root, rows, .. } = case;
    let mut words = case.words.clone();

    let checked = subject.check(&words, *count, *root);
    if checked != expected.checked {
        return Some(format!("check answers {checked:?}, expected {:?}", expected.checked));
    }
    if let Some(at) = first_difference(&words, &case.words) {
        return Some(format!("check writes word {at}"));
    }
    let simplified = subject.simplify(&mut words, *count, *root);
    if simplified != expected.simplified {
        return Some(format!("simplify answers {simplified:?}, expected {:?}", expected.simplified));
    }
    if let Some(at) = first_difference(&words, &expected.words) {
        return Some(format!(
            "simplify leaves {:#018x} in word {at}, expected {:#018x}",
            words[at], expected.words[at]
        ));
    }
    words.copy_from_slice(&case.words);
    let evaluated = subject.evaluate(&words, *count, *root, rows);
    if evaluated != expected.evaluated {
        return Some(format!("evaluate answers {evaluated:?}, expected {:?}", expected.evaluated));
    }
    if let Some(at) = first_difference(&words, &case.words) {
        return Some(format!("evaluate writes word {at}"));
    }
    None
}

fn first_difference(words: &[u64], expected: &[u64]) -> Option<usize> {
    // The words were lent to a library: they are read anew, whatever a compiler knows of them.
    let words = std::hint::black_box(words);
    if words == expected { None } else { (0..words.len()).find(|&at| words[at] != expected[at]) }
}

/// What is promised of a result and does not hold, asked of the simplifier itself. The outcome is
/// its own.
pub fn promise_broken(case: &Case, outcome: &Outcome, subject: &dyn Simplifier) -> Option<String> {
    if outcome.simplified.number != number::DONE {
        return None;
    }
    let Simplified { root, count, .. } = outcome.simplified;
    let mut words = outcome.words.clone();
    if subject.check(&words, count, root).number != number::DONE {
        return Some("the result does not pass the check".into());
    }
    let again = subject.simplify(&mut words, count, root);
    if again != outcome.simplified || words != outcome.words {
        return Some(format!("simplified again, the result gives {again:?}"));
    }
    let old = node_at(&words, case.root as usize);
    let new = node_at(&words, root as usize);
    let reached = reachable(&case.words, case.root as usize);
    let reaches = |is: fn(Node) -> bool| (0..reached.len()).any(|at| reached[at] && is(node_at(&words, at)));
    let top = reaches(|node| node.kind == TOP);
    if top != (new.kind == TOP) {
        return Some("the result is Top and none was reachable, or the other way round".into());
    }
    if !top && new.size != old.size {
        return Some("the result has another size".into());
    }
    if !top && !reaches(Node::is_input) && new.kind != CONST {
        return Some("a tree without inputs did not become a constant".into());
    }
    if outcome.evaluated.number == number::DONE {
        let value = subject.evaluate(&words, count, root, &case.rows);
        if value != outcome.evaluated {
            return Some(format!("the result evaluates to {value:?}, the tree to {:?}", outcome.evaluated));
        }
    }
    None
}

/// How often each answer was met.
#[derive(Default)]
pub struct Met {
    check: [u64; 11],
    simplify: [u64; 11],
    evaluate: [u64; 11],
}

impl Met {
    pub fn note(&mut self, outcome: &Outcome) {
        self.check[outcome.checked.number as usize] += 1;
        self.simplify[outcome.simplified.number as usize] += 1;
        self.evaluate[outcome.evaluated.number as usize] += 1;
    }

    /// Two lines: the answers of simplify and of evaluate.
    pub fn lines(&self) -> String {
        let line = |name: &str, met: &[u64; 11]| {
            let answers = (0..met.len()).filter(|&number| met[number] > 0);
            let words: Vec<_> = answers.map(|number| format!("{number}: {}", met[number])).collect();
            format!("{name:9} {}", words.join(", "))
        };
        format!("{}\n{}", line("simplify", &self.simplify), line("evaluate", &self.evaluate))
    }

    /// The answers that no call gave.
    pub fn missed(&self) -> Vec<usize> {
        let met = |number: usize| self.check[number] + self.simplify[number] + self.evaluate[number] > 0;
        (0..self.check.len()).filter(|&number| !met(number)).collect()
    }
}
