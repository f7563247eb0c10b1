//! The comparison: equal with itself; a program that is wrong in any way is found.

use std::fs::{create_dir_all, remove_dir_all, set_permissions, write, Permissions};
use std::os::unix::fs::PermissionsExt;
use std::path::{Path, PathBuf};
use std::process::Command;

const MODEL: &str = env!("CARGO_BIN_EXE_rig_model");

/// Whether all runs were equal, and what was printed.
fn differ(program: &str, options: &[&str]) -> (bool, String) {
    let output = Command::new(env!("CARGO_BIN_EXE_rig_differ")).arg(program).args(options).output().unwrap();
    (output.status.success(), String::from_utf8(output.stdout).unwrap())
}

/// A shell script as the program; `rig` stands for the model.
fn script(name: &str, body: &str) -> PathBuf {
    let path = Path::new(env!("CARGO_TARGET_TMPDIR")).join(name);
    write(&path, format!("#!/bin/sh\nrig() {{ '{MODEL}' \"$@\"; }}\n{body}\n")).unwrap();
    set_permissions(&path, Permissions::from_mode(0o755)).unwrap();
    path
}

/// The wrong program is found, with these words, and the input is kept.
fn check_found(name: &str, body: &str, options: &[&str], words: &str) {
    let (equal, output) = differ(script(name, body).to_str().unwrap(), options);
    assert!(!equal && output.contains(words), "{output}");
    let (_, after) = output.split_once("input:     ").unwrap();
    let input = Path::new(after.split_once(',').unwrap().0);
    assert!(input.is_file());
    remove_dir_all(input.parent().unwrap()).unwrap();
}

#[test]
fn the_model_is_equal_to_itself() {
    let (equal, output) = differ(MODEL, &["--count", "40", "--seed", "77"]);
    assert!(equal && output.ends_with("compared 560 runs: all equal\n"), "{output}");
}

#[test]
fn wrong_programs_are_found() {
    check_found("nothing", "true", &[], "the last line is none of ok, look, refused, error");
    check_found("crash", "kill -SEGV $$", &[], "signal: 11");
    check_found("status", "rig \"$@\"; exit 1", &[], "exit status: 1 where 0 is right");
    check_found("word", "rig \"$@\" | sed 's/ACK/NAK/'", &["--kind", "decode"], "NAK");
    check_found("more", "echo; rig \"$@\"", &["--kind", "encode"], "line 1 of the output");
    check_found("end", "printf 'ok 1 load'", &["--kind", "clash"], "the last line is none of");
}

#[test]
fn loads_have_a_program_of_their_own() {
    create_dir_all(Path::new(env!("CARGO_TARGET_TMPDIR")).join("two")).unwrap();
    script("two/rig_clash", "rig \"$@\"");
    let wrong = script("two/rig", "echo ok");
    script("two/rig_match", "rig \"$@\"");
    for kind in ["clash", "draw", "match", "night"] {
        let (equal, output) = differ(wrong.to_str().unwrap(), &["--count", "20", "--kind", kind]);
        assert!(equal, "{output}");
    }
    check_found("two/rig", "echo ok", &["--kind", "decode"], "program: `ok\\n`");
}

#[test]
fn the_status_by_the_last_line() {
    let body = "text=$(rig \"$@\" | tr -d '\\000'; echo .)\nprintf '%s' \"${text%.}\"\n\
        case \"$(printf '%s' \"${text%.}\" | tail -n 1)\" in\n\
        ok*) exit 0;; refused*) exit 1;; look*) exit 3;; esac\nexit 2";
    let path = script("wrapper", body);
    let options = ["--status-by-last-line", "--count", "20", "--kind", "session"];
    let (equal, output) = differ(path.to_str().unwrap(), &options);
    assert!(equal, "{output}");
    check_found("plain", "rig \"$@\"", &options, "where 2 is right");
}
