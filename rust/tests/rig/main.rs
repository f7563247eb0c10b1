//! The mirror of the program `rig`: its text, its refusals and errors, its inputs and the comparison.

mod arguments;
mod captures;
mod clash;
mod clash_files;
mod clash_table;
mod corrections;
mod decode;
mod differ;
mod draw;
mod encode;
mod gaps;
mod inputs;
mod matching;
mod matching_input;
mod night;
mod refusals;
mod restarts;
mod session;
mod sort;
mod svg;

use rehearsal_model::rig::answer;

/// Two loads of three boards.
const NIGHT: &str = "\
boards p q r
load x first
board p 50 26
board q 50 26 FF
board r -
ack all
load y
board p 62
board q -
board r 90 00
ack 0 0
expect p 1/1
end 2
";

/// What the bus shows of P8.
const P8_WAVE: &str = r#"  carried 90 ACK, 0F ACK
  byte 0   S|90               |0F                 P
            1 0 0 1 0 0 0 0 A 0 0 0 0 1 1 1 1 A
  scl     ""\/\/\/\/\/\/\/\/\/\/\/\/\/\/\/\/\/\/\/"
  sda     "\/"\.../"\................./"""""""\.../
  lost                              ^ 0 first
"#;

/// As many names as a file may have boards.
const SIXTEEN: [&str; 16] =
    ["q", "r", "s", "t", "u", "v", "w", "x", "y", "z", "qq", "rr", "ss", "tt", "uu", "vv"];

/// What the mirror prints for these arguments, split at blanks, with this standard input.
fn rig(arguments: &str, input: impl AsRef<[u8]>) -> String {
    let arguments: Vec<Vec<u8>> = arguments.split_whitespace().map(|word| word.into()).collect();
    String::from_utf8(answer(&arguments, &mut input.as_ref()).output).unwrap()
}

/// The last line.
fn last(arguments: &str, input: impl AsRef<[u8]>) -> String {
    rig(arguments, input).lines().next_back().unwrap_or_default().to_string()
}

/// Each input gives this last line and no other.
fn check_errors(arguments: &str, cases: &[(&str, &str)]) {
    for (input, error) in cases {
        assert_eq!(rig(arguments, input), format!("error {error}\n"), "{arguments}: {input:?}");
    }
}
