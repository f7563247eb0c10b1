//! `compare usi|bus|arbitration|night|catalogue|all [--seed S] [--count N]`: the proved library against the model on random inputs.

use linked::Guarded;
use rehearsal_model::compare::{run, Comparison, Difference, COMPARISONS};
use std::process::ExitCode;

const USAGE: &str = "usage: compare usi|bus|arbitration|night|catalogue|all [--seed S] [--count N]";

/// What the command line asks for.
struct Options {
    word: String,
    seed: u64,
    count: Option<u64>,
}

fn main() -> ExitCode {
    let options = match options() {
        Ok(options) => options,
        Err(problem) => {
            eprintln!("compare: {problem}\n{USAGE}");
            return ExitCode::FAILURE;
        }
    };
    println!("seed {}", options.seed);
    let asked = |comparison: &&Comparison| options.word == "all" || options.word == comparison.word;
    for comparison in COMPARISONS.iter().filter(asked) {
        if let Err((seed, difference)) = compare(comparison, &options) {
            report(comparison, seed, &difference);
            return ExitCode::FAILURE;
        }
    }
    ExitCode::SUCCESS
}

fn options() -> Result<Options, String> {
    let mut arguments = std::env::args().skip(1);
    let word = arguments.next().ok_or("nothing asked")?;
    if !["usi", "bus", "arbitration", "night", "catalogue", "all"].contains(&word.as_str()) {
        return Err(format!("no comparison `{word}`"));
    }
    let mut options = Options { word, seed: 1, count: None };
    while let Some(name) = arguments.next() {
        let value = arguments.next().and_then(|value| value.parse().ok());
        let value = value.ok_or(format!("no number after `{name}`"))?;
        match name.as_str() {
            "--seed" => options.seed = value,
            "--count" => options.count = Some(value),
            _ => return Err(format!("no option `{name}`")),
        }
    }
    Ok(options)
}

fn compare(comparison: &Comparison, options: &Options) -> Result<(), (u64, Difference)> {
    let count = options.count.unwrap_or(comparison.count);
    let counts = run(comparison, &Guarded, options.seed, count)?;
    print!("{}", counts.lines());
    println!("compared {count} {}: all equal", comparison.cases);
    Ok(())
}

fn report(comparison: &Comparison, seed: u64, difference: &Difference) {
    println!("DIFFERENCE in {}", comparison.cases);
    println!("inputs:  {}", difference.inputs);
    println!("model:   {}", difference.model);
    println!("library: {}", difference.other);
    let word = comparison.word;
    println!("again:   cargo run --release -p linked --bin compare -- {word} --seed {seed} --count 1");
}
