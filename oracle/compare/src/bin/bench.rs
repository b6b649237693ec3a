//! How long simplify takes: the library, the original Rust and the model, on the same trees, in turn.
//!
//! The library and the model are handed words, and check them first. The original is handed a tree
//! that is built already, of the standard library's `Rc`, and checks nothing: a refusal has no time
//! of the original.

use cases::{Builder, Options, Rng, SEED};
use compare::Library;
use original::plain::Tree;
use reference::words::*;
use reference::{Model, Simplified, Simplifier, number};
use std::hint::black_box;
use std::time::{Duration, Instant};

const USAGE: &str = "bench [--seed S]";
/// Trees of a shape, each measured as often as its batch takes.
const TREES: usize = 5;
const ROUNDS: usize = 7;
const BATCH: Duration = Duration::from_millis(15);

/// An arena with room, its count and root.
struct Input {
    words: Vec<u64>,
    count: u64,
    root: u64,
}

/// A shape of input: its name, what simplify answers, and how it is made for so many nodes.
type Shape = (&'static str, u64, fn(&mut Builder, usize) -> usize);

const SHAPES: [Shape; 6] = [
    ("typical", number::DONE, typical),
    ("visited often", number::DONE, visited_often),
    ("last node bad", number::NOT_WELL_FORMED, last_bad),
    ("tree too large", number::TOO_MANY_NODES, too_large),
    ("path too long", number::PATH_TOO_LONG, too_deep),
    ("no room", number::NO_ROOM, visited_often),
];

fn main() {
    let options = Options::read(USAGE, &["seed"], &[]);
    let seed = options.number("seed", SEED);
    println!("microseconds a call, the median of {ROUNDS} rounds over {TREES} trees of seed {seed}");
    println!(
        "{:15} {:>5} {:>10} {:>10} {:>10}   library/original library/model",
        "", "nodes", "library", "original", "model"
    );
    for (name, answer, make) in SHAPES {
        for nodes in [100, 1000, 4000] {
            let inputs = (0..).filter_map(|index| input(seed, index, nodes, answer, make));
            row(name, nodes, answer, inputs.take(TREES).collect());
        }
    }
}

/// An input of a shape that simplify answers as it should.
fn input(
    seed: u64,
    index: u64,
    nodes: usize,
    answer: u64,
    make: fn(&mut Builder, usize) -> usize,
) -> Option<Input> {
    let mut b = Builder::new(Rng::new(seed, index));
    let root = make(&mut b, nodes) as u64;
    let mut words: Vec<u64> = b.nodes.iter().flat_map(|node| node.words()).collect();
    let count = b.nodes.len();
    let room = if answer == number::NO_ROOM { 20 } else { MAX_CAPACITY };
    words.resize(NODE_WORDS * (count + room).min(MAX_CAPACITY), 0);
    let input = Input { words, count: count as u64, root };
    let mut trial = input.words.clone();
    (Model(()).simplify(&mut trial, input.count, root).number == answer).then_some(input)
}

/// Measures the three in turn and prints a line.
fn row(name: &str, nodes: usize, answer: u64, mut inputs: Vec<Input>) {
    let (mut library, mut original, mut model) = (Vec::new(), Vec::new(), Vec::new());
    for _ in 0..ROUNDS {
        let (mut l, mut o, mut m) = (0.0, 0.0, 0.0);
        for input in &mut inputs {
            let Input { words, count, root } = input;
            l += time(|| run(&Library, words, *count, *root));
            m += time(|| run(&Model(()), words, *count, *root));
            if answer == number::DONE
                && let Some(tree) = Tree::new(words, *root as usize)
            {
                o += time(|| tree.simplified());
            }
        }
        let trees = TREES as f64;
        library.push(l / trees);
        original.push(o / trees);
        model.push(m / trees);
    }
    let [l, o, m] = [library, original, model].map(median);
    let (original, ratio) = match o > 0.0 {
        true => (format!("{o:.1}"), format!("{:.2}", l / o)),
        false => ("-".into(), "-".into()),
    };
    println!("{name:15} {nodes:5} {l:10.1} {original:>10} {m:10.1}   {ratio:>16} {:>13.2}", l / m);
}

fn run(simplifier: &impl Simplifier, words: &mut [u64], count: u64, root: u64) -> Simplified {
    simplifier.simplify(black_box(words), count, root)
}

/// The microseconds of a call.
fn time<R>(mut call: impl FnMut() -> R) -> f64 {
    let start = Instant::now();
    let mut calls = 0;
    while start.elapsed() < BATCH {
        for _ in 0..4 {
            black_box(call());
        }
        calls += 4;
    }
    start.elapsed().as_secs_f64() * 1e6 / calls as f64
}

fn median(mut times: Vec<f64>) -> f64 {
    times.sort_by(f64::total_cmp);
    times[times.len() / 2]
}

/// Random trees of all kinds, each used three times, joined two by two to one tree of about so many
/// unfolded nodes.
fn typical(b: &mut Builder, nodes: usize) -> usize {
    let (mut parts, mut total) = (Vec::new(), 0);
    while total + 10 < nodes / 3 {
        let (before, budget) = (b.nodes.len(), b.rng.range(2, 40));
        let part = b.tree(8, budget);
        if total + unfolded(b, part) < nodes / 3 {
            total += unfolded(b, part) + 1;
            parts.extend([part; 3]);
        } else {
            b.nodes.truncate(before);
        }
    }
    for at in 1..parts.len() {
        parts.swap(at, b.rng.below(at + 1));
    }
    while parts.len() > 1 {
        let pairs = parts.chunks(2).map(|pair| {
            let kind = b.rng.pick(&[ADD, SUB, MUL, XOR, OR]);
            if pair.len() == 2 { b.push(Node::op(kind, 8, pair[0], pair[1])) } else { pair[0] }
        });
        parts = pairs.collect();
    }
    parts[0]
}

/// A tree that no rule changes, under a tower of constants: each step visits the tree again.
fn visited_often(b: &mut Builder, nodes: usize) -> usize {
    let high = (nodes / 5).min(100);
    let half = unchanged(b, (nodes - 2 * high) / 2);
    let mut at = b.push(Node::op(MUL, 8, half, half));
    for _ in 0..high {
        let value = b.rng.range(1, 1000) as u64;
        let constant = b.push(Node::constant(8, value));
        at = b.push(Node::op(ADD, 8, at, constant));
    }
    at
}

/// A balanced tree of products of inputs.
fn unchanged(b: &mut Builder, nodes: usize) -> usize {
    if nodes < 3 {
        return b.input(8);
    }
    let (left, right) = (unchanged(b, (nodes - 1) / 2), unchanged(b, nodes / 2));
    b.push(Node::op(MUL, 8, left, right))
}

fn last_bad(b: &mut Builder, nodes: usize) -> usize {
    let root = unchanged(b, nodes - 1);
    b.push(Node { space: 1, ..Node::constant(8, 0) });
    root
}

/// Twice as many nodes as a tree may have, from many nodes or few.
fn too_large(b: &mut Builder, nodes: usize) -> usize {
    let mut at = unchanged(b, nodes - nodes.min(14));
    for _ in 0..14 {
        at = b.push(Node::op(ADD, 8, at, at));
    }
    at
}

fn too_deep(b: &mut Builder, nodes: usize) -> usize {
    let at = unchanged(b, nodes.saturating_sub(130).max(1));
    (0..130).fold(at, |at, _| b.push(Node::op(INT_2COMP, 8, at, 0)))
}

fn unfolded(b: &Builder, at: usize) -> usize {
    let mut nodes = vec![0usize; at + 1];
    for index in 0..=at {
        let node = b.nodes[index];
        let left = if node.is_leaf() { 0 } else { nodes[node.left] };
        let right = if node.is_leaf() || node.is_unary() { 0 } else { nodes[node.right] };
        nodes[index] = left.saturating_add(right).saturating_add(1);
    }
    nodes[at]
}
