//! The command line of `rig`: what is asked, and what is wrong with it.

use super::rig;
use rehearsal_model::rig::answer;

fn error(arguments: &[&[u8]]) -> Vec<u8> {
    let arguments: Vec<Vec<u8>> = arguments.iter().map(|argument| argument.to_vec()).collect();
    let output = answer(&arguments, &mut &b""[..]).output;
    output.strip_prefix(b"error ").unwrap().strip_suffix(b"\n").unwrap().to_vec()
}

#[test]
fn commands() {
    assert_eq!(
        rig("", ""),
        "error expected a command: clash, decode, draw, dump, encode, match, night, session or sort\n"
    );
    for word in ["Clash", "run", "--table", "help", "-h"] {
        let commands = "clash, decode, draw, dump, encode, match, night, session or sort";
        let expected = format!("error unknown command '{word}': expected {commands}\n");
        assert_eq!(rig(&format!("{word} x"), ""), expected);
    }
}

#[test]
fn files_and_options() {
    for arguments in ["clash", "decode", "clash --table", "decode --room 5", "clash --table --wave"] {
        let expected = "error expected a file, or - for standard input\n";
        assert_eq!(rig(arguments, ""), expected, "{arguments}");
    }
    let cases = [
        ("clash --room", "expected a number after --room"),
        ("decode - --room x", "expected a number after --room, not 'x'"),
        ("encode --room -1", "expected a number after --room, not '-1'"),
        ("clash --room --table", "expected a number after --room, not '--table'"),
        ("decode a b", "a second file 'b': decode reads one"),
        ("session - -", "- stands twice: standard input is read once"),
        ("decode - --table", "unknown option '--table' for decode"),
        ("encode --wave", "unknown option '--wave' for encode"),
        ("session --room 5", "unknown option '--room' for session"),
        ("clash --brief x", "unknown option '--brief' for clash"),
        ("clash x --", "unknown option '--' for clash"),
        ("clash - --corrections", "expected a file after --corrections"),
        ("clash - --room 5 --corrections", "expected a file after --corrections"),
        ("clash - --corrections -", "- stands twice: standard input is read once"),
        ("clash --corrections - x -", "- stands twice: standard input is read once"),
        ("clash --corrections - --corrections - x", "- stands twice: standard input is read once"),
        ("clash --corrections --table", "expected a file, or - for standard input"),
        ("decode --corrections x -", "unknown option '--corrections' for decode"),
        ("encode --corrections x", "unknown option '--corrections' for encode"),
        ("session --corrections x", "unknown option '--corrections' for session"),
        ("clash - --table --wave", "--table goes with neither --registers nor --wave"),
        ("decode - --standard --fast", "--standard does not go with --fast"),
        ("decode - --thin --fast", "--thin goes with neither --standard nor --fast"),
        ("decode --standard - --thin", "--thin goes with neither --standard nor --fast"),
        ("decode --standard --fast - --thin", "--standard does not go with --fast"),
        ("decode --thin --fast", "expected a file, or - for standard input"),
        ("clash - --thin", "unknown option '--thin' for clash"),
        ("sort --thin -", "unknown option '--thin' for sort"),
        ("match x", "unexpected 'x' after match"),
        ("match - -", "unexpected '-' after match"),
        ("match --corrections", "unexpected '--corrections' after match"),
        ("clash --registers - --table", "--table goes with neither --registers nor --wave"),
    ];
    for (arguments, words) in cases {
        assert_eq!(rig(arguments, ""), format!("error {words}\n"), "{arguments}");
    }
}

#[test]
fn options_stand_anywhere() {
    let (input, refused) = ("load a\nboard 90", "refused 8: 1 load: 1 refused\n");
    for arguments in ["clash - --table --room 22", "clash --room 22 - --wave", "clash --table --room 022 -"] {
        assert!(rig(arguments, input).ends_with(refused), "{arguments}");
    }
    for arguments in ["clash - --room 23", "clash - --room 99999999999999999999999"] {
        assert!(
            rig(arguments, input).ends_with("\nok 1 load: 1 sent, 1 without an ack line\n"),
            "{arguments}"
        );
    }
}

#[test]
fn long_arguments() {
    let long = [b'a'; 4097];
    assert_eq!(error(&[&long]), b"an argument is longer than 4096 bytes");
    assert_eq!(error(&[b"decode", &long]), b"an argument is longer than 4096 bytes");
    assert_eq!(error(&[b"match", &long]), b"an argument is longer than 4096 bytes");
    assert_eq!(error(&[b"decode", b"--room", &long]), b"an argument is longer than 4096 bytes");
    let name = &long[..4096];
    assert_eq!(error(&[b"decode", name]), [b"cannot open ", name, b": the name is too long"].concat());
    let quoted = format!(
        "unknown command '{}..': expected clash, decode, draw, dump, encode, match, night, session or sort",
        "a".repeat(32)
    );
    assert_eq!(error(&[&long[..33]]), quoted.as_bytes());
}

#[test]
fn words_are_quoted_printable() {
    let expected =
        b"unknown command 'a?b??c\xE9': expected clash, decode, draw, dump, encode, match, night, session or sort";
    assert_eq!(error(&[b"a\x01b\x7F\nc\xE9"]), expected);
}

#[test]
fn files_that_cannot_be_read() {
    let folder = env!("CARGO_MANIFEST_DIR");
    let missing = format!("{folder}/none\u{1}\u{7f}\u{e9}");
    let expected = format!("cannot open {folder}/none??\u{e9}: no such file");
    assert_eq!(error(&[b"encode", missing.as_bytes()]), expected.as_bytes());
    let expected = format!("cannot read {folder}: it is a directory");
    assert_eq!(error(&[b"session", folder.as_bytes()]), expected.as_bytes());
    let below = format!("{folder}/Cargo.toml/x");
    assert_eq!(
        error(&[b"decode", below.as_bytes()]),
        format!("cannot open {below}: error number 20").as_bytes()
    );
    assert_eq!(error(&[b"decode", b""]), b"cannot open : no such file");
}

#[test]
fn a_file_by_its_name() {
    let script = format!("{}/../crates/cases_usi/stdin", env!("CARGO_MANIFEST_DIR"));
    let commands = std::fs::read_to_string(&script).unwrap();
    assert_eq!(rig(&format!("session {script}"), ""), rig("session", commands));
}
