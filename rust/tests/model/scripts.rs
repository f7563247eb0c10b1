//! The scripts of the case programs: their stored answers are the model's, and they keep within their sizes.

use rehearsal_model::cases::{arbitration, bus, usi};
use rehearsal_model::rig::answer;
use std::fs::read_to_string;

fn stored(program: &str, file: &str) -> String {
    let path = format!("{}/../crates/cases_{program}/{file}", env!("CARGO_MANIFEST_DIR"));
    read_to_string(&path).unwrap_or_else(|problem| panic!("{path}: {problem}"))
}

fn check(program: &str, answers: fn(&str) -> Result<String, String>) {
    let script = stored(program, "stdin");
    assert!(script.len() < 60_000, "script of {program}");
    assert!(script.lines().all(|line| line.len() < 4_000), "a line of {program}");
    assert_eq!(answers(&script).unwrap(), stored(program, "stdout"), "answers of {program}");
}

#[test]
fn usi_answers_are_stored() {
    check("usi", usi);
}

#[test]
fn bus_answers_are_stored() {
    check("bus", bus);
}

#[test]
fn arbitration_answers_are_stored() {
    check("arbitration", arbitration);
}

/// The program's own stored answer under the gate: its arguments, with its files by their whole names, and its
/// standard input where there is one.
#[test]
fn the_programs_own_answers_are_stored() {
    own_answer_is_stored("rig");
    own_answer_is_stored("rig_clash");
    own_answer_is_stored("rig_match");
}

fn own_answer_is_stored(program: &str) {
    let file = |name: &str| format!("{}/../crates/{program}/{name}", env!("CARGO_MANIFEST_DIR"));
    let words = read_to_string(file("args")).expect("args");
    let whole = |word: &str| {
        let data = file(&format!("data/{word}"));
        if std::path::Path::new(&data).exists() {
            data
        } else {
            word.to_string()
        }
    };
    let arguments: Vec<Vec<u8>> = words.split_whitespace().map(|word| whole(word).into_bytes()).collect();
    let input = std::fs::read(file("stdin")).unwrap_or_default();
    let stored = std::fs::read(file("stdout")).expect("stdout");
    assert!(answer(&arguments, &mut &input[..]).output == stored, "answers of {program}");
}

fn top() -> String {
    format!("{}/..", env!("CARGO_MANIFEST_DIR"))
}

/// The stored answers to the shipped examples: each name in tests/expected, and what belongs in it.
fn examples() -> Vec<(String, Vec<u8>)> {
    let mut answers = Vec::new();
    for entry in std::fs::read_dir(format!("{}/examples", top())).unwrap() {
        let entry = entry.unwrap();
        if entry.file_type().unwrap().is_dir() {
            continue; // programs that link the library
        }
        let file = entry.file_name().into_string().unwrap();
        let (_, kind) = file.rsplit_once('.').unwrap();
        let words: &[(&str, &str)] = match kind {
            "loads" => &[
                ("clash", "clash"),
                ("table", "clash --table"),
                ("whole", "clash --registers --wave"),
                ("night", "night"),
            ],
            "corrections" => &[("corrected", "clash --corrections")],
            "trace" => &[("decode", "decode"), ("sort", "sort")],
            "vcd" => &[("decode", "decode")],
            "events" => &[("encode", "encode")],
            "session" => &[("session", "session")],
            _ => panic!("examples/{file}: no kind of file"),
        };
        for (name, words) in words {
            let mut arguments: Vec<Vec<u8>> = words.split(' ').map(Into::into).collect();
            let path = format!("{}/examples/{file}", top());
            if kind == "corrections" {
                arguments.push(path.replace(".corrections", ".loads").into_bytes());
                arguments.insert(2, path.into_bytes());
            } else {
                arguments.insert(1, path.into_bytes());
            }
            answers.push((format!("{name}.{file}"), answer(&arguments, &mut std::io::empty()).output));
        }
    }
    answers.extend(drawings());
    answers.extend(matches());
    answers.sort();
    answers
}

/// The files of examples of which a load is drawn, and that load.
const DRAWN: [(&str, &str); 2] = [("p8", "p8"), ("restarts", "cut-in")];

/// Each of them as its block, and as an SVG document alone.
fn drawings() -> Vec<(String, Vec<u8>)> {
    let mut answers = Vec::new();
    for (file, load) in DRAWN {
        let path = format!("{}/examples/{file}.loads", top());
        let drawn = |words: &[&str]| {
            let arguments: Vec<Vec<u8>> = words.iter().map(|&word| word.into()).collect();
            answer(&arguments, &mut std::io::empty()).output
        };
        answers.push((format!("draw.{file}.loads"), drawn(&["draw", &path, load])));
        let mut document = drawn(&["draw", &path, load, "--svg"]);
        let end = b"</svg>\n";
        let last_line = document.windows(end.len()).position(|bytes| bytes == end).unwrap() + end.len();
        document.truncate(last_line);
        answers.push((format!("draw.{file}.svg"), document));
    }
    answers
}

/// Each trace beside loads of the same name, held against them as `./rig match` does it.
fn matches() -> Vec<(String, Vec<u8>)> {
    let entries = std::fs::read_dir(format!("{}/examples", top())).unwrap();
    let files: Vec<String> = entries.map(|entry| entry.unwrap().file_name().into_string().unwrap()).collect();
    let names = files.iter().filter_map(|file| file.strip_suffix(".trace"));
    let pairs = names.filter(|name| files.contains(&format!("{name}.loads")));
    pairs.map(|name| (format!("match.{name}.trace"), matched(name))).collect()
}

/// The rehearsal of the loads and the events of the trace, matched.
fn matched(name: &str) -> Vec<u8> {
    let path = |kind: &str| format!("{}/examples/{name}.{kind}", top());
    let (loads, trace) = (path("loads"), path("trace"));
    let printed = |words: &[&str], mut input: &[u8]| {
        let arguments: Vec<Vec<u8>> = words.iter().map(|&word| word.into()).collect();
        answer(&arguments, &mut input).output
    };
    let capture = printed(&["decode", &trace, "--thin"], &[]);
    let is_read = ["ok", "look"].contains(&first_of_last_line(&capture).as_str());
    if !is_read {
        return capture;
    }
    let rehearsal = printed(&["clash", &loads, "--wave"], &[]);
    printed(&["match"], &[rehearsal, capture].concat())
}

fn first_of_last_line(output: &[u8]) -> String {
    let text = String::from_utf8_lossy(output).into_owned();
    let last = text.lines().next_back().unwrap_or_default();
    last.split(' ').next().unwrap_or_default().to_string()
}

/// The picture of the front page.
fn front() -> String {
    format!("{}/docs/arbitration.svg", top())
}

fn stored_drawing() -> Vec<u8> {
    std::fs::read(format!("{}/tests/expected/draw.p8.svg", top())).unwrap()
}

fn stored_names() -> Vec<String> {
    let entries = std::fs::read_dir(format!("{}/tests/expected", top())).unwrap();
    let mut names: Vec<String> =
        entries.map(|entry| entry.unwrap().file_name().into_string().unwrap()).collect();
    names.sort();
    names
}

#[test]
fn the_examples_are_stored() {
    let examples = examples();
    assert_eq!(stored_names(), examples.iter().map(|(name, _)| name.clone()).collect::<Vec<_>>());
    for (name, answer) in examples {
        let stored = std::fs::read(format!("{}/tests/expected/{name}", top())).unwrap();
        assert!(answer == stored, "{name}");
    }
}

#[test]
fn the_picture_of_the_front_page_is_drawn() {
    assert!(std::fs::read(front()).unwrap() == stored_drawing(), "docs/arbitration.svg");
}

/// Stores them anew: `cargo test --test model scripts:: -- --ignored`.
#[test]
#[ignore]
fn store_the_examples() {
    for name in stored_names() {
        std::fs::remove_file(format!("{}/tests/expected/{name}", top())).unwrap();
    }
    for (name, answer) in examples() {
        std::fs::write(format!("{}/tests/expected/{name}", top()), answer).unwrap();
    }
    std::fs::write(front(), stored_drawing()).unwrap();
}

#[test]
fn a_script_that_makes_no_sense_is_an_error() {
    for script in ["tock", "write 078", "write 078 100", "sample", ""] {
        assert_eq!(usi(script).is_err(), !script.is_empty(), "{script}");
    }
    assert!(bus("decode 3 1").is_err() && bus("fill").is_err() && bus("long 1 2 3").is_err());
    assert!(arbitration("run 1 1 0 9").is_err() && arbitration("run 1 1 x 90").is_err());
}
