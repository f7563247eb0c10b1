//! `rig_inputs SEED KIND INDEX [--arguments | --corrections]`: prints one pseudo-random input file for `rig`, or the
//! arguments or the file of corrections that go with it.

use rehearsal_model::rig::differ::argument_text;
use rehearsal_model::rig::inputs::{Case, Kind, KINDS};
use std::io::{stdout, Write};
use std::process::ExitCode;

fn main() -> ExitCode {
    let arguments: Vec<String> = std::env::args().skip(1).collect();
    let words: Vec<&str> = arguments.iter().map(String::as_str).collect();
    let (case, part) = match words[..] {
        [seed, kind, index] => (case(seed, kind, index), ""),
        [seed, kind, index, part @ ("--arguments" | "--corrections")] => (case(seed, kind, index), part),
        _ => (None, ""),
    };
    let Some(case) = case else {
        eprintln!("usage: rig_inputs SEED KIND INDEX [--arguments | --corrections]; KIND is one of");
        eprintln!("  {}", KINDS.map(|kind| kind.word).join(" "));
        return ExitCode::FAILURE;
    };
    let text = match part {
        "--arguments" => {
            format!("{}  (input: {:?})\n", argument_text(&case.arguments), case.source).into_bytes()
        }
        "--corrections" => case.tonight,
        _ => case.input,
    };
    match stdout().write_all(&text) {
        Ok(()) => ExitCode::SUCCESS,
        Err(_) => ExitCode::FAILURE,
    }
}

fn case(seed: &str, kind: &str, index: &str) -> Option<Case> {
    let seed: u64 = seed.parse().ok()?;
    let index: u64 = index.parse().ok()?;
    Some(Kind::named(kind)?.draw(seed.wrapping_add(index), b"FILE", b"TONIGHT"))
}
