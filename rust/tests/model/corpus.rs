//! The dumps of tests/dumps: what is printed of each is stored beside it, for those made by hand by their names too.

use rehearsal_model::rig::answer;
use rehearsal_model::rig::differ::verdict;
use std::collections::BTreeSet;
use std::fs::{read, read_dir};

const FOLDER: &str = concat!(env!("CARGO_MANIFEST_DIR"), "/../tests/dumps");

/// The names of the files with this ending.
fn names(ending: &str) -> BTreeSet<String> {
    let files = read_dir(FOLDER).unwrap().map(|entry| entry.unwrap().file_name().into_string().unwrap());
    files.filter_map(|file| file.strip_suffix(ending).map(str::to_string)).collect()
}

fn stored(name: &str, ending: &str) -> Vec<u8> {
    read(format!("{FOLDER}/{name}{ending}")).unwrap()
}

fn decoded(text: &[u8]) -> Vec<u8> {
    answer(&[b"decode".to_vec(), b"-".to_vec()], &mut &text[..]).output
}

#[test]
fn each_is_said_to_be_what_is_stored() {
    let dumps = names(".vcd");
    assert_eq!(dumps, names(".expected"));
    for name in dumps {
        let (output, expected) = (decoded(&stored(&name, ".vcd")), stored(&name, ".expected"));
        assert!(output == expected, "{name}: {}", output.escape_ascii());
    }
}

/// `refused_24_reg` is refused by 24, `read_crlf` is read, and `lines_x` is no dump.
#[test]
fn each_made_by_hand_keeps_what_its_name_says() {
    let mut numbers = BTreeSet::new();
    for name in names(".vcd") {
        let begins = |beginning: &str| stored(&name, ".expected").starts_with(beginning.as_bytes());
        match name.split('_').collect::<Vec<_>>()[..] {
            ["refused", number, ..] => {
                assert!(begins(&format!("refused {number} byte ")), "{name}");
                numbers.insert(number.to_string());
            }
            ["read", ..] => assert!(begins("# a Value Change Dump "), "{name}"),
            ["lines", ..] => assert!(begins("error line "), "{name}"),
            _ => {}
        }
    }
    assert_eq!(numbers.into_iter().collect::<Vec<_>>(), ["20", "21", "22", "23", "24", "25", "27"]);
}

/// Cut at any byte there is a last line, and what was read is refused by 23 unless it is cut after a line.
#[test]
fn each_beginning_has_an_answer() {
    for name in names(".vcd") {
        let text = stored(&name, ".vcd");
        let is_read = stored(&name, ".expected").starts_with(b"#");
        for length in 0..text.len() {
            let output = decoded(&text[..length]);
            assert!(verdict(&output).is_some(), "{name} {length}");
            let known = text[..length].iter().any(|byte| !b" \t\r\n".contains(byte));
            if is_read && known && text[length - 1] != b'\n' {
                let expected = format!("refused 23 byte {length} (line ");
                assert!(
                    output.starts_with(expected.as_bytes()),
                    "{name} {length}: {}",
                    output.escape_ascii()
                );
            }
        }
    }
}
