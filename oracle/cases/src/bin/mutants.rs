//! Does the comparison bite? First the model without a mistake against the original, over all the
//! cases; then which case tells each wrong simplifier apart.

use cases::{CASES, Met, Options, Oracle, SEED, case, difference};
use reference::{Model, Slip, Tally};
use std::time::Instant;

const USAGE: &str = "mutants [--cases N] [--seed S] [--right]\n  --right: the model without a mistake only";

fn main() {
    let options = Options::read(USAGE, &["cases", "seed"], &["right"]);
    let (cases, seed) = (options.number("cases", CASES), options.number("seed", SEED));
    if !original::PRESENT {
        println!("no value.rs: the model stands for the original");
    }
    let right = Model(Tally::default());
    let mut alive: Vec<Slip> = if options.has("right") { Vec::new() } else { Slip::ALL.to_vec() };
    let all = alive.len();
    let (mut met, mut latest) = (Met::default(), 0);
    let start = Instant::now();
    for index in 0..cases {
        let case = case(seed, index);
        let expected = Oracle.outcome(&case);
        met.note(&expected);
        if let Some(found) = difference(&case, &expected, &right) {
            println!("case {index} of seed {seed}: the model differs from the original: {found}");
            std::process::exit(1);
        }
        alive.retain(|&slip| match difference(&case, &expected, &Model(slip)) {
            None => true,
            Some(found) => {
                println!("{:26} case {index:6}: {found}", format!("{slip:?}"));
                latest = index;
                false
            }
        });
    }
    let a_second = cases as f64 / start.elapsed().as_secs_f64();
    println!("{}", met.lines());
    let (rules, of, missed) = right.0.met();
    println!("{rules} of {of} endings of rules met {missed:?}; answers not met {:?}", met.missed());
    println!(
        "{cases} cases of seed {seed}: the model agrees with the original; {a_second:.0} cases a second"
    );
    if all > 0 {
        println!(
            "{} of {all} wrong simplifiers told apart, the last by case {latest}; left: {alive:?}",
            all - alive.len()
        );
    }
    std::process::exit(!alive.is_empty() as i32);
}
