//! Records what the repository's own replay is held to: files of the program, each after its length
//! in two bytes, most significant first, and the lines that the program prints. First 01's examples
//! with 01's lines, then a sample of random cases with the oracle's.

use cases::{Case, Example, Options, Oracle, Rng, SEED, case, paper};
use reference::words::{KINDS, NODE_WORDS, node_at};
use reference::{Model, RULES, Rule, Simplifier, Tally, number, program, reachable};
use std::collections::HashSet;
use std::path::Path;

const USAGE: &str = "vectors --out CRATE [--records N] [--bytes B] [--seed S]
  writes CRATE/data/vectors and CRATE/stdout: 01's examples, and N records in at most B bytes";

/// The answers that the program can give: its count is never above its capacity, and it evaluates
/// nothing.
const ANSWERS: [u64; 8] = [
    number::DONE,
    number::ROOT_NOT_BELOW_COUNT,
    number::NOT_WELL_FORMED,
    number::NOT_WELL_SIZED,
    number::TOO_MANY_NODES,
    number::PATH_TOO_LONG,
    number::NO_ROOM,
    number::BAD_FILE,
];
/// How often each ending of a rule is wanted, and how often each answer.
const ENDINGS: usize = 6;
const REPEATS: usize = 3;
/// One record in so many may be a refusal, beyond that.
const REFUSALS: usize = 6;
/// How many cases are looked through, first for what is wanted and then for short ones.
const CASES: u64 = 200_000;

fn main() {
    let options = Options::read(USAGE, &["out", "records", "bytes", "seed"], &[]);
    let Some(out) = options.text("out") else {
        eprintln!("usage: {USAGE}");
        std::process::exit(2);
    };
    if !original::PRESENT {
        eprintln!("no value.rs: there is nothing to record");
        std::process::exit(1);
    }
    let seed = options.number("seed", SEED);

    let mut sample = Sample::default();
    for example in paper() {
        sample.example(&example);
    }
    let records = sample.lines.len() + options.number("records", 1000) as usize;
    let bytes = sample.vectors.len() + options.number("bytes", 1 << 17) as usize;
    for index in 0..CASES {
        // The longer the search, the longer a file that is taken.
        sample.offer(&file(seed, index), |sample, shows, len| {
            sample.lacks(shows) && len <= 100 + index as usize / 20
        });
    }
    for index in 0..CASES {
        let left = records.saturating_sub(sample.lines.len());
        let share = bytes.saturating_sub(sample.vectors.len()) / left.max(1);
        sample.offer(&file(seed, index), |sample, shows, len| {
            left > 0 && sample.may_have(shows) && len + 2 <= share
        });
    }
    let missed = sample.missed();
    for (group, last) in &sample.groups {
        println!("{group}: up to line {last}");
    }
    println!("{} records, {} bytes; not recorded: {missed:?}", sample.lines.len(), sample.vectors.len());
    let write = |name: &str, content: &[u8]| {
        let path = Path::new(out).join(name);
        let folder = path.parent().expect("a file is in a folder");
        std::fs::create_dir_all(folder).and_then(|()| std::fs::write(&path, content)).unwrap_or_else(
            |error| {
                eprintln!("{}: {error}", path.display());
                std::process::exit(1);
            },
        );
    };
    write("data/vectors", &sample.vectors);
    write("stdout", (sample.lines.join("\n") + "\n").as_bytes());
    std::process::exit((!missed.is_empty() || sample.lines.len() < records) as i32);
}

/// A case as a file of the program, seldom a bad one, mostly with nothing beside the tree.
fn file(seed: u64, index: u64) -> Vec<u8> {
    let mut rng = Rng::new(!seed, index);
    let case = case(seed, index);
    let good = Model(()).check(&case.words, case.count, case.root).number == number::DONE;
    let Case { words, count, root, .. } = if good && !rng.one_in(10) { tree_alone(case) } else { case };
    let nodes = (words.len() / NODE_WORDS).min(program::ARENA_WORDS / NODE_WORDS) as u64;
    let mut file = program::write(&words, count.min(nodes), root.min(u32::MAX as u64));
    if rng.one_in(20) {
        match rng.below(4) {
            0 => file.truncate(rng.below(file.len() + 1)),
            1 => file.push(0),
            2 => file[rng.below(4)] = rng.below(256) as u8,
            _ => file.extend([0; 16]),
        }
    }
    file
}

/// Only the nodes that the root reaches, in their order.
fn tree_alone(case: Case) -> Case {
    let reached = reachable(&case.words, case.root as usize);
    let mut moved = vec![0; reached.len()];
    let mut words = Vec::new();
    for at in (0..reached.len()).filter(|&at| reached[at]) {
        moved[at] = words.len() / NODE_WORDS;
        let mut node = node_at(&case.words, at);
        if !node.is_leaf() {
            (node.left, node.right) = (moved[node.left], moved[node.right]);
        }
        words.extend(node.words());
    }
    let count = (words.len() / NODE_WORDS) as u64;
    Case { words, count, root: count - 1, rows: Vec::new() }
}

/// What a record shows: an answer, and how the rules of its run ended.
struct Shows {
    answer: u64,
    endings: Vec<(u64, Rule)>,
}

#[derive(Default)]
struct Sample {
    vectors: Vec<u8>,
    lines: Vec<String>,
    files: HashSet<Vec<u8>>,
    shows: Vec<Shows>,
    /// 01's groups, each with its last line.
    groups: Vec<(&'static str, usize)>,
}

impl Sample {
    /// Takes in an example of 01. The oracle must agree with its line.
    fn example(&mut self, example: &Example) {
        let line = program::line(program::run(&Oracle, &example.file).0);
        if line != example.line {
            eprintln!(
                "{}: 01 says {}, the oracle {line}: {:02x?}",
                example.group, example.line, example.file
            );
            std::process::exit(1);
        }
        self.offer(&example.file, |_, _, _| true);
        match self.groups.last_mut() {
            Some((group, last)) if *group == example.group => *last = self.lines.len(),
            _ => self.groups.push((example.group, self.lines.len())),
        }
    }

    /// Takes a file in that it does not have and wants, by what the file shows and its length.
    fn offer(&mut self, file: &[u8], wants: impl Fn(&Sample, &Shows, usize) -> bool) {
        let (answer, _) = program::run(&Oracle, file);
        let watched = Model(Tally::default());
        program::run(&watched as &dyn Simplifier, file);
        let done = answer.number == number::DONE;
        let endings = endings().filter(|&(kind, rule)| done && watched.0.of(kind, rule) > 0).collect();
        let shows = Shows { answer: answer.number, endings };
        if wants(self, &shows, file.len()) && self.files.insert(file.to_vec()) {
            self.vectors.extend((file.len() as u16).to_be_bytes());
            self.vectors.extend(file);
            self.lines.push(program::line(answer));
            self.shows.push(shows);
        }
    }

    fn with_answer(&self, answer: u64) -> usize {
        self.shows.iter().filter(|shows| shows.answer == answer).count()
    }

    fn with_ending(&self, ending: (u64, Rule)) -> usize {
        self.shows.iter().filter(|shows| shows.endings.contains(&ending)).count()
    }

    /// Whether something is shown that the sample has too little of.
    fn lacks(&self, shows: &Shows) -> bool {
        self.with_answer(shows.answer) < REPEATS
            || shows.endings.iter().any(|&ending| self.with_ending(ending) < ENDINGS)
    }

    /// Whether a record may fill the sample up: a run in which a rule ended, or one of the refusals.
    fn may_have(&self, shows: &Shows) -> bool {
        let sampled = &self.shows[self.groups.last().map_or(0, |&(_, last)| last)..];
        let refusals = sampled.iter().filter(|shows| shows.answer != number::DONE).count();
        !shows.endings.is_empty() || shows.answer != number::DONE && refusals < sampled.len() / REFUSALS
    }

    /// What the sample does not have at all.
    fn missed(&self) -> Vec<String> {
        let answers = ANSWERS.iter().filter(|&&answer| self.with_answer(answer) == 0);
        let rules = endings().filter(|&ending| self.with_ending(ending) == 0);
        let name = |(kind, rule): (u64, Rule)| format!("{} {rule:?}", KINDS[kind as usize].name);
        answers.map(|answer| format!("answer {answer}")).chain(rules.map(name)).collect()
    }
}

/// Every ending of a kind's rule.
fn endings() -> impl Iterator<Item = (u64, Rule)> {
    RULES.iter().flat_map(|&(kind, rules)| rules.iter().map(move |&rule| (kind, rule)))
}
