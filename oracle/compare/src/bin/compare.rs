//! Runs seeded random cases through the library and the oracle and compares everything: number,
//! place, root, count, value and every word of the slice. The first difference is made small.

use cases::{
    CASES, Case, Met, Options, Oracle, Outcome, SEED, case, difference, promise_broken, shrink, smt,
};
use compare::Library;
use reference::words::{KINDS, NODE_WORDS, TOP, node_at};
use reference::{Model, Simplifier, Tally, number, program};
use std::io::{IsTerminal, Write};
use std::path::Path;
use std::time::{Duration, Instant};

const USAGE: &str = "compare [--cases N] [--seed S] [--first I]
  compares N cases of a seed, from case I on
compare --exhaustive
  compares all cases of a few small forms
compare --file FILE
  runs the oracle, not the library, on a file of the program: its line, then its nodes
compare --smt N [--seed S]
  writes N of the library's results as questions to an SMT solver";

/// Where the first difference is written, as a file that the program reads: from the repository's
/// root, and from here.
const DIFFERENCE: &str = "oracle/target/difference";
const ROOT: &str = concat!(env!("CARGO_MANIFEST_DIR"), "/../..");

fn main() {
    let options = Options::read(USAGE, &["cases", "seed", "first", "file", "smt"], &["exhaustive"]);
    let seed = options.number("seed", SEED);
    if !original::PRESENT {
        eprintln!("no value.rs: the model answers for the original");
    }
    if let Some(path) = options.text("file") {
        return run_file(path);
    }
    if options.has("smt") {
        return write_questions(seed, options.number("smt", 0));
    }
    if options.has("exhaustive") {
        return compare("of all small forms", cases::exhaustive().zip(0..), None);
    }
    let (first, cases) = (options.number("first", 0), options.number("cases", CASES));
    let numbered = (first..first + cases).map(|index| (case(seed, index), index));
    compare(&format!("of seed {seed}"), numbered, Some(cases));
}

/// Compares numbered cases, and ends the program at the first difference.
fn compare(of: &str, cases: impl Iterator<Item = (Case, u64)>, all: Option<u64>) {
    let watched = Model(Tally::default());
    let (mut met, mut progress) = (Met::default(), Progress::new(all));
    for (case, index) in cases {
        let expected = Oracle.outcome(&case);
        met.note(&expected);
        if let Some(found) = difference(&case, &expected, &watched) {
            println!("case {index} {of}: the model differs from the original: {found}");
            std::process::exit(1);
        }
        if let Some(found) = wrong(&case, &expected) {
            println!("case {index} {of}: {found}");
            report(&case);
            std::process::exit(1);
        }
        progress.step();
    }
    println!("{}", met.lines());
    let (rules, endings, missed) = watched.0.met();
    println!("{rules} of {endings} endings of rules met {missed:?}; answers not met {:?}", met.missed());
    println!("{} cases {of}, no difference, {:.0} cases a second", progress.done, progress.a_second());
}

/// What the library does wrong on a case.
fn wrong(case: &Case, expected: &Outcome) -> Option<String> {
    difference(case, expected, &Library).or_else(|| promise_broken(case, expected, &Library))
}

fn differs(case: &Case) -> bool {
    wrong(case, &Oracle.outcome(case)).is_some()
}

/// Makes a difference small and prints it, as a file for the program if the program shows it.
fn report(case: &Case) {
    let shown = |case: &Case| case.as_program().is_some_and(|case| differs(&case));
    let by_program = shown(case);
    let small = if by_program { shrink(case, shown) } else { shrink(case, differs) };
    let run = if by_program { small.as_program().expect("it was shown") } else { small.clone() };
    let found = wrong(&run, &Oracle.outcome(&run)).expect("a shrunk case differs");
    println!("\nmade small: {found}");
    println!("slice of {} words, count {}, root {}", run.words.len(), run.count, run.root);
    print_nodes(&small.words, small.words.len() / NODE_WORDS, small.count);
    if small.words.len() % NODE_WORDS == 1 {
        println!("      {:016x}", small.words[small.words.len() - 1]);
    }
    for row in run.rows.chunks(3) {
        println!("row   {}", row.iter().map(|word| format!("{word:016x}")).collect::<Vec<_>>().join(" "));
    }
    if !by_program {
        return println!("the program does not show it: its arena is 2,048 nodes of zeros, without rows");
    }
    let file = program::write(&small.words, small.count, small.root);
    println!("the library answers {}", program::line(program::run(&Library, &file).0));
    println!("expected            {}", program::line(program::run(&Oracle, &file).0));
    match std::fs::write(Path::new(ROOT).join(DIFFERENCE), file) {
        Ok(()) => println!("./simplify < {DIFFERENCE}"),
        Err(error) => println!("{DIFFERENCE}: {error}"),
    }
}

fn run_file(path: &str) {
    let file = std::fs::read(path).unwrap_or_else(|error| {
        eprintln!("{path}: {error}");
        std::process::exit(1)
    });
    let (answer, words) = program::run(&Oracle, &file);
    println!("{}", program::line(answer));
    print_nodes(&words, answer.count as usize, answer.count);
}

/// The nodes of an arena, with the names of those below the count.
fn print_nodes(words: &[u64], nodes: usize, count: u64) {
    for at in 0..nodes.min(words.len() / NODE_WORDS) {
        let node = node_at(words, at);
        let [first, second] = node.words();
        let name = match node.uses() {
            Some(_) if at as u64 >= count => String::new(),
            Some(_) => format!("  {} of {}", KINDS[node.kind as usize].name, node.size),
            None => String::from("  ?"),
        };
        println!("{at:4}  {first:016x} {second:016x}{name}");
    }
}

/// Writes results of the library as questions, for cases in which something was rewritten.
fn write_questions(seed: u64, wanted: u64) {
    let mut out = std::io::stdout().lock();
    let mut write = |text: &str| out.write_all(text.as_bytes()).expect("the questions can be written");
    write("(set-logic QF_BV)\n");
    let mut written = 0;
    for index in 0.. {
        if written == wanted {
            return;
        }
        let Case { mut words, count, root, .. } = case(seed, index);
        let answer = Library.simplify(&mut words, count, root);
        let rewritten = answer.number == number::DONE && answer.root != root;
        if rewritten && answer.count < 200 && node_at(&words, answer.root as usize).kind != TOP {
            write(&smt::question(&words, root as usize, answer.root as usize));
            written += 1;
        }
    }
}

/// A line that says how far the run is and how fast.
struct Progress {
    done: u64,
    all: String,
    start: Instant,
    shown: Instant,
    every: Duration,
}

impl Progress {
    fn new(all: Option<u64>) -> Progress {
        let every = Duration::from_secs(if std::io::stderr().is_terminal() { 1 } else { 10 });
        let all = all.map_or(String::new(), |all| format!(" of {all}"));
        Progress { done: 0, all, start: Instant::now(), shown: Instant::now(), every }
    }

    fn a_second(&self) -> f64 {
        self.done as f64 / self.start.elapsed().as_secs_f64()
    }

    fn step(&mut self) {
        self.done += 1;
        if self.done.is_multiple_of(256) && self.shown.elapsed() >= self.every {
            eprintln!("{}{} cases, {:.0} cases a second", self.done, self.all, self.a_second());
            self.shown = Instant::now();
        }
    }
}
