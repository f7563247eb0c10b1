//! `rig draw`: the labelled waveform of one load, which loads it is of, and its arguments.

use super::{rig, P8_WAVE, SIXTEEN};

pub const P8: &str =
    "boards first second\nload p8 two boards\nboard first 90 12\nboard second 90 0F\nack 0 0\nend 1\n";

const P8_HEAD: &str = r#"load p8 two boards
  WON    1 second  90 0F                    sent 2 of 2 bytes
  lost   0 first   90 12                    byte 1 bit 3: sends 1, the bus is 0; 2 bytes still to send
"#;

/// The waveform of load x of the boards p and q, without the line of the carried bytes.
fn wave(lines: &str) -> String {
    let output = rig("draw - x", format!("boards p q\nload x\n{lines}\nend 1\n"));
    let (_, rest) = output.split_once("\n  carried ").expect(&output);
    let (_, wave) = rest.split_once('\n').expect(&output);
    let last = wave.trim_end_matches('\n').rfind('\n').expect(&output) + 1;
    wave[..last].to_string()
}

#[test]
fn p8() {
    assert_eq!(rig("draw - p8", P8), format!("{P8_HEAD}{P8_WAVE}ok 1 load: 1 sent\n"));
    assert_eq!(rig("clash - --wave", P8), format!("{P8_HEAD}{P8_WAVE}ok 1 load: 1 sent\n"));
}

#[test]
fn a_message_in_parts() {
    let expected = r#"  byte 0   S|50                Sr|52                 P
            0 1 0 1 0 0 0 0 A    0 1 0 1 0 0 1 0 A
  scl     ""\/\/\/\/\/\/\/\/\/\/"\/\/\/\/\/\/\/\/\/\/"
  sda     "\../"\./"\........./"\../"\./"\.../"\...../
  lost                                     ^ 1 q
"#;
    assert_eq!(wave("board p 50 / 52\nboard q 50 / 56\nack all"), expected);
}

/// A repeated START after the third byte still belongs to its row.
#[test]
fn a_restart_at_the_end_of_a_row() {
    let expected = r#"  byte 0   S|50               |01               |02                Sr
            0 1 0 1 0 0 0 0 A 0 0 0 0 0 0 0 1 A 0 0 0 0 0 0 1 0 A
  scl     ""\/\/\/\/\/\/\/\/\/\/\/\/\/\/\/\/\/\/\/\/\/\/\/\/\/\/\/\/"
  sda     "\../"\./"\......................./"\............./"\.../"\
  byte 3  |FE                 P
          1 1 1 1 1 1 1 0 N
  scl     \/\/\/\/\/\/\/\/\/\/"
  sda     /"""""""""""""\./"\./
"#;
    assert_eq!(wave("board p 50 01 02 / FE\nboard q -\nack 0 0 0 1"), expected);
}

#[test]
fn a_message_that_is_cut() {
    let expected = r#"  byte 0   S|50               |FF                 P
            0 1 0 1 0 0 0 0 A 1 1 1 1 1 1 1 1 N
  scl     ""\/\/\/\/\/\/\/\/\/\/\/\/\/\/\/\/\/\/\/"
  sda     "\../"\./"\........./"""""""""""""""""\./
"#;
    assert_eq!(wave("board p 50 FF / 52\nboard q -\nack 0 1 0"), expected);
}

#[test]
fn seven_bytes_are_three_rows() {
    let expected = r#"  byte 0   S|50               |01               |02
            0 1 0 1 0 0 0 0 A 0 0 0 0 0 0 0 1 A 0 0 0 0 0 0 1 0 A
  scl     ""\/\/\/\/\/\/\/\/\/\/\/\/\/\/\/\/\/\/\/\/\/\/\/\/\/\/\/
  sda     "\../"\./"\......................./"\............./"\...
  byte 3  |03               |04               |05
          0 0 0 0 0 0 1 1 A 0 0 0 0 0 1 0 0 A 0 0 0 0 0 1 0 1 A
  scl     \/\/\/\/\/\/\/\/\/\/\/\/\/\/\/\/\/\/\/\/\/\/\/\/\/\/\/
  sda     ............/"""\.........../"\.............../"\./"\.
  lost                                  ^ 1 q
  byte 6  |06                 P
          0 0 0 0 0 1 1 0 A
  scl     \/\/\/\/\/\/\/\/\/\/"
  sda     ........../"""\...../
"#;
    assert_eq!(wave("board p 50 01 02 03 04 05 06\nboard q 50 01 02 03 06\nack all"), expected);
}

#[test]
fn an_undecided_load() {
    let expected = r#"  byte 0   S|90                 P
            1 0 0 1 0 0 0 0 N
  scl     ""\/\/\/\/\/\/\/\/\/\/"
  sda     "\/"\.../"\......./"\./
"#;
    assert_eq!(wave("board p 90 12\nboard q 90 0F\nack 1 0"), expected);
}

#[test]
fn the_old_form() {
    let loads = "load p8\nboard 90 12\nboard 90 0F\nack 0 0\nload other\nboard 90\n";
    let expected = r#"load p8
  WON    1  90 0F                    sent 2 of 2 bytes
  lost   0  90 12                    byte 1 bit 3: sends 1, the bus is 0; 2 bytes still to send
  carried 90 ACK, 0F ACK
  byte 0   S|90               |0F                 P
            1 0 0 1 0 0 0 0 A 0 0 0 0 1 1 1 1 A
  scl     ""\/\/\/\/\/\/\/\/\/\/\/\/\/\/\/\/\/\/\/"
  sda     "\/"\.../"\................./"""""""\.../
  lost                              ^ 0
"#;
    assert_eq!(rig("draw - p8", loads), format!("{expected}ok 1 load: 1 sent\n"));
    assert!(rig("draw - p8 --svg", loads).contains("\n<text x=\"392\" y=\"140\">0 lost</text>\n</svg>\nok "));
    let twice = format!("{loads}{loads}");
    assert_eq!(rig("draw - p8", &twice), format!("{expected}{expected}ok 2 loads: 2 sent\n"));
    assert_eq!(rig("draw - p8 --svg", &twice).matches("<title>p8</title>").count(), 2);
}

#[test]
fn several_losers_in_one_row() {
    let messages = ["02 00", "80", "42", "22", "12", "0A", "06"];
    let mut lines = String::new();
    for (index, name) in SIXTEEN.iter().enumerate() {
        let message = if index == 15 { "80 00" } else { messages.get(index).unwrap_or(&"-") };
        lines += &format!("board {name} {message}\n");
    }
    let loads = format!("boards {}\nload x\n{lines}ack all\nend 1\n", SIXTEEN.join(" "));
    let expected = r#"
  byte 0   S|02               |00                 P
            0 0 0 0 0 0 1 0 A 0 0 0 0 0 0 0 0 A
  scl     ""\/\/\/\/\/\/\/\/\/\/\/\/\/\/\/\/\/\/\/"
  sda     "\............/"\......................./
  lost      ^ 1 r
  lost        ^ 2 s
  lost          ^ 3 t
  lost            ^ 4 u
  lost              ^ 5 v
  lost                ^ 6 w
  lost      ^ 15 vv
ok 1 load: 1 sent
"#;
    let output = rig("draw - x", &loads);
    assert!(output.ends_with(expected), "{output}");
    let svg = rig("draw - x --svg", &loads);
    assert!(svg.contains("height=\"240\""), "{svg}");
    assert!(svg.contains(
        "\n<text x=\"104\" y=\"140\">1 r lost</text>\n<text x=\"128\" y=\"154\">2 s lost</text>\n"
    ));
    assert!(
        svg.ends_with("\n<text x=\"104\" y=\"224\">15 vv lost</text>\n</svg>\nok 1 load: 1 sent\n"),
        "{svg}"
    );
}

/// Of one load alone, with what is wrong anywhere in the file.
#[test]
fn one_load_of_many() {
    let loads = "boards p q\nload one\nboard p 90\nboard q -\nack all\nload two\nboard p 50\nboard q 50 22\nack all\n\
        load three\nboard p 5\nboard q -\nload four\nboard p 52\nboard q -\nack 1\nend 4\n";
    let wrong = "! line 11: load three: expected bytes of two hexadecimal digits, not '5'\n";
    let two =
        "load two\n  refused 16: p (line 7) ends with 50, acknowledged, where q (line 8) goes on with 22\n";
    let refused = "error 2 loads: 1 refused, 1 in error\n";
    assert_eq!(rig("draw - two", loads), format!("{two}{wrong}{refused}"));
    assert_eq!(rig("draw - two --svg", loads), format!("{wrong}{refused}"));
    let three = format!("{wrong}load three\n  ERROR: not rehearsed\nerror 1 load: 1 in error\n");
    assert_eq!(rig("draw - three", loads), three);
    assert_eq!(rig("draw --svg - three", loads), format!("{wrong}error 1 load: 1 in error\n"));
    let four = rig("draw - four", loads);
    assert!(four.starts_with(&format!("{wrong}load four\n  WON    0 p  52   ")), "{four}");
    assert!(four.ends_with("\nerror 2 loads: 1 cut, 1 in error\n"), "{four}");
    let right = loads.replace("board p 5\n", "board p 54\n");
    assert!(rig("draw - four", &right).ends_with("/\nlook 1 load: 1 cut\n"));
    assert_eq!(rig("draw - two --svg", &right), "refused 16: 1 load: 1 refused\n");
    let none = "! no load 'five' in the files\nerror 0 loads: 1 fault outside the loads\n";
    assert_eq!(rig("draw - five", &right), none);
    assert_eq!(rig("draw - five --svg", &right), none);
    assert_eq!(rig("draw - five", loads), format!("{wrong}error 1 load: 1 in error\n"));
}

#[test]
fn corrections_are_drawn() {
    let folder = env!("CARGO_TARGET_TMPDIR");
    let tonight = format!("{folder}/draw.corrections");
    std::fs::write(&tonight, "load p8\nboard first 90 0E\nend 1\n").unwrap();
    let output = rig(&format!("draw --corrections {tonight} - p8"), P8);
    assert!(
        output.starts_with("load p8 two boards\n  corrected 0 first\n  WON    0 first   90 0E "),
        "{output}"
    );
    assert!(output.ends_with(
        "\n  lost                                      ^ 1 second\nok 1 load: 1 sent, 1 corrected\n"
    ));
    let nothing = "; nothing is rehearsed\nerror 0 loads: 1 fault outside the loads\n";
    let output = rig(&format!("draw - p8 --svg --corrections {folder}"), P8);
    assert_eq!(output, format!("! cannot read {folder}: it is a directory{nothing}"));
}

#[test]
fn the_words_of_the_command_line() {
    let cases = [
        ("draw", "expected a file, or - for standard input"),
        ("draw --svg", "expected a file, or - for standard input"),
        ("draw x", "expected a load after the file"),
        ("draw --svg - --corrections y", "expected a load after the file"),
        ("draw x y z", "unexpected 'z' after the load"),
        ("draw - x -", "unexpected '-' after the load"),
        ("draw x - -", "unexpected '-' after the load"),
        ("draw x y --vcd", "unknown option '--vcd' for draw"),
        ("draw x y z --vcd", "unexpected 'z' after the load"),
        ("draw x --room 5 y", "unknown option '--room' for draw"),
        ("draw x y --wave", "unknown option '--wave' for draw"),
        ("draw x y --trace z", "unknown option '--trace' for draw"),
        ("draw x y --corrections", "expected a file after --corrections"),
        ("draw --corrections - - x", "- stands twice: standard input is read once"),
        ("draw - x --corrections -", "- stands twice: standard input is read once"),
        ("clash - --svg", "unknown option '--svg' for clash"),
        ("night - --svg", "unknown option '--svg' for night"),
    ];
    for (arguments, words) in cases {
        assert_eq!(rig(arguments, ""), format!("error {words}\n"), "{arguments}");
    }
    let dash = P8.replace("load p8 two boards", "load -");
    assert!(rig("draw - -", &dash).starts_with("load -\n  WON "));
    assert_eq!(rig("draw --svg - p8 --svg", P8), rig("draw - --svg p8", P8));
    let missing = "! cannot open none: no such file\n";
    let fault = "! no load 'x' in the files\nerror 0 loads: 2 faults outside the loads\n";
    assert_eq!(rig("draw none x", ""), format!("{missing}{fault}"));
}
