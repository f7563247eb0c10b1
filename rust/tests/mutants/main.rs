//! Deliberately wrong models: each is the model with one edit of its source, and its answers to a script of the
//! case programs must differ from the stored ones, in the case that is there for it.

use std::collections::BTreeMap;
use std::fs::{create_dir_all, read_to_string, write};
use std::path::{Path, PathBuf};
use std::process::Command;

/// One edit: `old`, found once in `file`, becomes `new`; the cases whose headings start with `case` must catch it.
#[derive(Debug)]
struct Mutant {
    case: String,
    file: String,
    old: String,
    new: String,
}

/// A file of the model: its path in src/ without `.rs`, and its text.
#[derive(Clone)]
struct Source {
    name: &'static str,
    text: String,
}

impl Source {
    /// The module of the model that it is, or is in.
    fn module(&self) -> &'static str {
        self.name.split('/').next().unwrap_or(self.name)
    }

    fn uses(&self, module: &str) -> bool {
        self.text.contains(&format!("crate::{module}::"))
    }
}

/// The sources of each case program.
const USI: &[&str] = &["refusal", "module", "module/i2c", "module/spi", "cases", "cases/usi"];
const BUS: &[&str] = &["refusal", "module", "module/i2c", "module/spi", "bus", "cases", "cases/bus"];
const ARBITRATION: &[&str] = &[
    "refusal",
    "module",
    "module/i2c",
    "module/spi",
    "arbitration",
    "arbitration/runner",
    "cases",
    "cases/arbitration",
];

#[test]
fn usi_mutants_are_caught() {
    check("usi", USI, include_str!("usi.diff"));
}

#[test]
fn bus_mutants_are_caught() {
    check("bus", BUS, include_str!("bus.diff"));
}

#[test]
fn arbitration_mutants_are_caught() {
    check("arbitration", ARBITRATION, include_str!("arbitration.diff"));
}

/// Builds all mutants into one program, runs it on the script, and compares the answers case by case.
fn check(program: &str, sources: &[&'static str], edits: &str) {
    let mutants: Vec<Mutant> = edits.split("\n@ ").skip(1).map(mutant).collect();
    let folder = Path::new(env!("CARGO_TARGET_TMPDIR")).join(program);
    let sources: Vec<Source> = sources.iter().map(|name| used(program, name)).collect();
    write_model(&folder, "right", &sources, &sources.iter().map(Source::module).collect::<Vec<_>>());
    for (index, mutant) in mutants.iter().enumerate() {
        write_mutant(&folder, &sources, index, mutant);
    }
    run(&build(&folder, program, mutants.len()), &script(program, "stdin"), &folder);
    let right = cases(&text(&script(program, "stdout")));
    let survivors = (0..mutants.len()).filter(|index| {
        let wrong = cases(&text(&folder.join(format!("{index}.answers"))));
        assert!(!wrong.is_empty(), "panics: {:#?}", mutants[*index]);
        let mut meant = right.iter().filter(|(heading, _)| heading.starts_with(&mutants[*index].case));
        meant.all(|(heading, answers)| wrong.get(heading) == Some(answers))
    });
    let survivors: Vec<&Mutant> = survivors.map(|index| &mutants[index]).collect();
    assert!(survivors.is_empty(), "not caught: {survivors:#?}");
}

/// Reads an edit: `file | case`, then the lines of a diff.
fn mutant(edit: &str) -> Mutant {
    let (title, diff) = edit.split_once('\n').unwrap();
    let (file, case) = title.split_once(" | ").unwrap();
    let side = |signs: [char; 2]| {
        let lines = diff.lines().filter_map(|line| line.strip_prefix(signs));
        lines.fold("\n".to_string(), |text, line| text + line + "\n")
    };
    Mutant { case: case.into(), file: file.into(), old: side([' ', '-']), new: side([' ', '+']) }
}

/// A source without what the program does not use: the other case programs, and what tells an outcome beforehand.
fn used(program: &str, name: &'static str) -> Source {
    let text = text(&Path::new(env!("CARGO_MANIFEST_DIR")).join(format!("src/{name}.rs")));
    let others = ["usi", "bus", "arbitration"].into_iter().filter(|other| *other != program);
    let text = others.fold(text.replace("pub mod outcome;\n", ""), |text, other| {
        text.replace(&format!("mod {other};\n"), "").replace(&format!("pub use {other}::{other};\n"), "")
    });
    Source { name, text }
}

/// The model with one edit.
fn write_mutant(folder: &Path, sources: &[Source], index: usize, mutant: &Mutant) {
    let mut sources = sources.to_vec();
    let edited = sources.iter_mut().find(|source| mutant.file == format!("{}.rs", source.name));
    let edited = edited.unwrap_or_else(|| panic!("{} is no source of the program", mutant.file));
    let found = edited.text.matches(&mutant.old).count();
    assert_eq!(found, 1, "{}: {:?} is not there once", mutant.file, mutant.old);
    edited.text = edited.text.replace(&mutant.old, &mutant.new);
    let edited = edited.module();
    write_model(folder, &format!("mutant_{index}"), &sources, &others(&sources, edited));
}

/// The modules that are not the right model's: the edited one, and those that use one of these.
fn others(sources: &[Source], edited: &'static str) -> Vec<&'static str> {
    let mut others = vec![edited];
    let next = |others: &[&str]| {
        let mut left = sources.iter().filter(|source| !others.contains(&source.module()));
        left.find(|source| others.iter().any(|other| source.uses(other))).map(Source::module)
    };
    while let Some(module) = next(&others) {
        others.push(module);
    }
    others
}

/// A model as a module of the program, with these modules of its own; the right model lends it the rest, which is so
/// compiled once.
fn write_model(folder: &Path, model: &str, sources: &[Source], own: &[&str]) {
    let mut modules = String::new();
    for source in sources {
        let (name, is_own) = (source.name, own.contains(&source.module()));
        if is_own {
            let path = folder.join(model).join(format!("{name}.rs"));
            create_dir_all(path.parent().unwrap()).unwrap();
            write(path, source.text.replace("crate::", &format!("crate::{model}::"))).unwrap();
        }
        if !name.contains('/') {
            let place = if is_own { "mod " } else { "use crate::right::" };
            modules += &format!("pub {place}{name};\n");
        }
    }
    write(folder.join(model).join("mod.rs"), modules).unwrap();
}

/// One program that writes the answers of each mutant to a file; one that panics answers case by case, and nothing
/// where it panics.
fn build(folder: &Path, program: &str, count: usize) -> PathBuf {
    let mut source = "#![allow(warnings)]\nmod right;\n".to_string();
    let mut calls = String::new();
    for index in 0..count {
        source += &format!("mod mutant_{index};\n");
        calls += &format!("    answer({index}, mutant_{index}::cases::{program});\n");
    }
    source += "fn answer(index: usize, answers: fn(&str) -> Result<String, String>) {\n\
        \x20   let mut arguments = std::env::args().skip(1);\n\
        \x20   let script = std::fs::read_to_string(arguments.next().unwrap()).unwrap();\n\
        \x20   let ask = |text: &str| std::panic::catch_unwind(|| answers(text).unwrap());\n\
        \x20   let each = || script.split_inclusive('\\n').fold(vec![String::new()], |mut cases, line| {\n\
        \x20       if line.starts_with('#') { cases.push(String::new()); }\n\
        \x20       cases.last_mut().unwrap().push_str(line);\n\
        \x20       cases\n\
        \x20   });\n\
        \x20   let one_by_one = |_| each().iter().map(|case| ask(case).unwrap_or_default()).collect();\n\
        \x20   let text = ask(&script).unwrap_or_else(one_by_one);\n\
        \x20   std::fs::write(format!(\"{}/{index}.answers\", arguments.next().unwrap()), text).unwrap();\n}\n";
    write(folder.join("main.rs"), format!("{source}fn main() {{\n{calls}}}\n")).unwrap();
    let built = folder.join("mutants");
    let rustc = std::env::var_os("RUSTC").unwrap_or("rustc".into());
    let mut command = Command::new(rustc);
    command.args(["--edition", "2021", "-C", "debuginfo=0", "-o"]).arg(&built).arg(folder.join("main.rs"));
    assert!(command.status().unwrap().success(), "the mutants of {program} do not compile");
    built
}

fn run(program: &Path, script: &Path, folder: &Path) {
    let output = Command::new(program).arg(script).arg(folder).output().unwrap();
    assert!(output.status.success());
}

fn script(program: &str, file: &str) -> PathBuf {
    Path::new(env!("CARGO_MANIFEST_DIR")).join(format!("../crates/cases_{program}/{file}"))
}

fn text(path: &Path) -> String {
    read_to_string(path).unwrap_or_else(|problem| panic!("{}: {problem}", path.display()))
}

/// The answers of each case, by its heading.
fn cases(answers: &str) -> BTreeMap<String, String> {
    let mut cases = BTreeMap::new();
    for case in answers.split("# ").skip(1) {
        let (heading, answers) = case.split_once('\n').unwrap();
        cases.insert(heading.to_string(), answers.to_string());
    }
    cases
}
