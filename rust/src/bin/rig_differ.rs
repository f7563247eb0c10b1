//! `rig_differ PROGRAM [--seed S] [--count N] [--kind KIND] [--status-by-last-line]`: runs PROGRAM, a `rig`, on N
//! pseudo-random inputs of each kind and compares its standard output with the mirror's.

use rehearsal_model::compare::Counts;
use rehearsal_model::rig::differ::{Differ, Difference};
use rehearsal_model::rig::inputs::{Kind, KINDS};
use std::io;
use std::process::ExitCode;
use std::sync::atomic::{AtomicBool, Ordering};
use std::thread;
use std::time::Instant;

const USAGE: &str = "usage: rig_differ PROGRAM [--seed S] [--count N] [--kind KIND] [--status-by-last-line]";

/// How many programs run at a time.
const THREADS: usize = 2;

/// A difference, with the kind and the seed that repeat it.
type Found = (Kind, u64, Difference);

/// What one thread counted and found.
type Share = (Counts, Option<Found>);

/// What the command line asks for.
struct Options {
    program: String,
    seed: u64,
    count: u64,
    kinds: Vec<Kind>,
    status_by_last_line: bool,
}

fn main() -> ExitCode {
    match options().and_then(|options| compare(&options)) {
        Ok(true) => ExitCode::SUCCESS,
        Ok(false) => ExitCode::FAILURE,
        Err(problem) => {
            eprintln!("rig_differ: {problem}\n{USAGE}");
            ExitCode::FAILURE
        }
    }
}

fn options() -> Result<Options, String> {
    let mut arguments = std::env::args().skip(1);
    let program = arguments.next().ok_or("no program")?;
    let mut options =
        Options { program, seed: 1, count: 1000, kinds: KINDS.to_vec(), status_by_last_line: false };
    while let Some(name) = arguments.next() {
        if name == "--status-by-last-line" {
            options.status_by_last_line = true;
            continue;
        }
        let value = arguments.next().ok_or(format!("nothing after `{name}`"))?;
        let number = value.parse().map_err(|_| format!("no number after `{name}`"));
        match name.as_str() {
            "--seed" => options.seed = number?,
            "--count" => options.count = number?,
            "--kind" => options.kinds = vec![Kind::named(&value).ok_or(format!("no kind `{value}`"))?],
            _ => return Err(format!("no option `{name}`")),
        }
    }
    Ok(options)
}

/// True if all runs are equal; the runs are shared out among threads.
fn compare(options: &Options) -> Result<bool, String> {
    println!("seed {}", options.seed);
    let begin = Instant::now();
    let stop = &AtomicBool::new(false);
    let shares: Vec<Result<Share, io::Error>> = thread::scope(|scope| {
        let threads: Vec<_> =
            (0..THREADS).map(|thread| scope.spawn(move || share(options, thread, stop))).collect();
        threads.into_iter().map(|thread| thread.join().expect("a thread of the comparison")).collect()
    });
    let mut counts = Counts::default();
    let mut found = Vec::new();
    for share in shares {
        let (counted, difference) = share.map_err(|problem| format!("{}: {problem}", options.program))?;
        counts.merge(counted);
        found.extend(difference);
    }
    if !found.is_empty() {
        report(options, found)?;
        return Ok(false);
    }
    print!("{}", counts.lines());
    println!("{:.1} s", begin.elapsed().as_secs_f64());
    println!("compared {} runs: all equal", options.count * options.kinds.len() as u64);
    Ok(true)
}

/// Every run of one thread, until a thread finds a difference; only then its folder is kept.
fn share(options: &Options, thread: usize, stop: &AtomicBool) -> Result<Share, io::Error> {
    let differ = Differ::new(&options.program, options.status_by_last_line, thread)?;
    let mut counts = Counts::default();
    for kind in &options.kinds {
        for index in (thread as u64..options.count).step_by(THREADS) {
            if stop.load(Ordering::Relaxed) {
                break;
            }
            let seed = options.seed.wrapping_add(index);
            if let Err(difference) = differ.compare(kind, seed, &mut counts) {
                stop.store(true, Ordering::Relaxed);
                return Ok((counts, Some((*kind, seed, difference))));
            }
        }
    }
    differ.remove_folder()?;
    Ok((counts, None))
}

/// The difference of the least seed; the folders of the others are removed.
fn report(options: &Options, mut found: Vec<Found>) -> Result<(), String> {
    found.sort_by_key(|found| found.1);
    for (_, _, other) in &found[1..] {
        std::fs::remove_dir_all(&other.folder).map_err(|problem| problem.to_string())?;
    }
    let (kind, seed, difference) = &found[0];
    let folder = difference.folder.display();
    println!("DIFFERENCE in {}: {}", kind.word, difference.problem);
    println!("arguments: {} ({:?})", difference.arguments, difference.source);
    println!("input:     {folder}/input, with tonight, expected, output and errors beside it");
    println!("again:     rig_differ {} --seed {seed} --count 1 --kind {}", options.program, kind.word);
    Ok(())
}
