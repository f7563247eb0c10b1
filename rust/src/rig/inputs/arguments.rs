//! Arguments: the right ones for a file, and any command line.

use super::{tonight, Source};
use crate::arbitration::LEVELS;
use crate::random::Random;
use crate::rig::text::{bytes_of, text_of};

/// The command with its file and options in any order that `rig` takes.
pub fn proper(random: &mut Random, command: &str, source: Source, file: &[u8]) -> Vec<Vec<u8>> {
    let mut parts: Vec<Vec<Vec<u8>>> = Vec::new();
    let may_be_left_out = command == "encode" || command == "session";
    match source {
        Source::File => parts.push(vec![file.to_vec()]),
        _ if may_be_left_out && random.once_in(2) => {}
        _ => parts.push(vec![b"-".to_vec()]),
    }
    if command == "clash" {
        parts.extend(shown(random));
    }
    if ["clash", "night"].contains(&command) && random.once_in(8) {
        parts.push(vec![another(random, file)]);
    }
    if command == "decode" && random.once_in(2) {
        parts.extend(modes(random));
    }
    if ["clash", "decode", "encode"].contains(&command) && random.once_in(4) {
        parts.push(vec![b"--room".to_vec(), room(random, command).into_bytes()]);
    }
    let turn = random.below(parts.len().max(1));
    parts.rotate_left(turn);
    let mut arguments = vec![command.as_bytes().to_vec()];
    arguments.extend(parts.concat());
    arguments
}

/// `draw` with its file and a load of it, and `--svg` half of the time.
pub fn draw(random: &mut Random, source: Source, file: &[u8], input: &[u8]) -> Vec<Vec<u8>> {
    let file = if source == Source::File { file } else { b"-" };
    let mut arguments = vec![b"draw".to_vec(), file.to_vec(), load_of(random, input)];
    if random.once_in(2) {
        let place = random.between(1, arguments.len());
        arguments.insert(place, b"--svg".to_vec());
    }
    arguments
}

/// The name of a load of this file; now and then one that may not be there.
fn load_of(random: &mut Random, input: &[u8]) -> Vec<u8> {
    let mut names = tonight::after(&text_of(input), "load", 1);
    names.retain(|name| !name.contains(['\0', '#']));
    if names.is_empty() || random.once_in(12) {
        return random.pick(&["upload-00", "upload-01", "?", "x", "-", ""]).into();
    }
    bytes_of(&names[random.below(names.len())])
}

/// How a record is read; now and then two that do not go together.
fn modes(random: &mut Random) -> Vec<Vec<Vec<u8>>> {
    let modes: &[&str] = match random.below(24) {
        0 => &["--standard", "--fast"],
        1 => &["--thin", "--fast"],
        2 => &["--standard", "--thin"],
        3 if random.once_in(2) => &["--fast", "--thin", "--standard"],
        3..=6 => &["--standard"],
        7..=11 => &["--fast"],
        _ => &["--thin"],
    };
    modes.iter().map(|mode| vec![mode.as_bytes().to_vec()]).collect()
}

/// The table, or what a block may show beyond the boards.
fn shown(random: &mut Random) -> Vec<Vec<Vec<u8>>> {
    let options: &[&str] = match random.below(8) {
        0..=2 => &["--table"],
        3 => &["--registers"],
        4 => &["--wave"],
        5 => &["--wave", "--registers"],
        6 => return vec![trace(random)],
        _ => &[],
    };
    options.iter().map(|option| vec![option.as_bytes().to_vec()]).collect()
}

/// The trace of a load that may be there.
fn trace(random: &mut Random) -> Vec<Vec<u8>> {
    let name = random.pick(&["upload-00", "upload-00", "upload-01", "n0", "x", "upload-0"]);
    vec![b"--trace".to_vec(), name.as_bytes().to_vec()]
}

/// A second file: the same again, standard input, or one that cannot be read.
fn another(random: &mut Random, file: &[u8]) -> Vec<u8> {
    match random.below(4) {
        0 => file.to_vec(),
        1 => b"-".to_vec(),
        2 => b"/".to_vec(),
        _ => [file, b".missing"].concat(),
    }
}

/// A file of corrections before the files or after them; now and then none, or one that cannot be read.
pub fn correct(random: &mut Random, arguments: &mut Vec<Vec<u8>>, file: &[u8], tonight: &[u8]) {
    let name = match random.below(48) {
        0 => another(random, file),
        1 => random.pick(&["", "--table", "/", "--room"]).into(),
        _ => tonight.to_vec(),
    };
    let place = random.pick(&[1, arguments.len()]);
    arguments.splice(place..place, [b"--corrections".to_vec(), name]);
    if random.once_in(48) {
        arguments.push(b"--corrections".to_vec());
    }
}

/// Rooms about what is needed, and about the most that is lent.
fn room(random: &mut Random, command: &str) -> String {
    if command == "clash" && random.once_in(3) {
        return (LEVELS + 1 - random.below(3)).to_string();
    }
    let rooms: &[&str] = match command {
        "clash" => &["0", "22", "23", "41", "59", "99999999999999999999"],
        "decode" => &["0", "1", "2", "3", "5", "8", "13", "4096", "4097", "99999999999999999999"],
        _ => &["0", "1", "22", "23", "40", "77", "0100", "4095", "4096", "4097", "99999999999999999999"],
    };
    random.pick(rooms).to_string()
}

/// A short file that three of the commands take.
pub fn text(random: &mut Random) -> Vec<u8> {
    let texts = [
        "",
        "# nothing\n",
        "load a\nboard 90\n",
        "boards q\nload x\nboard q 90\nack all\nend 1\n",
        "0 3\n5 1\n",
        "START\nA0 ACK\nSTOP\n",
        "tick\nlines\n",
        "$var wire 1 ! scl $end $var wire 1 \" sda $end $enddefinitions $end\n#0 1! 1\"\n#5 0\"\n",
    ];
    random.pick(&texts).as_bytes().to_vec()
}

/// Up to five arguments: commands, options, files that are there or not, and words that are neither.
pub fn any(random: &mut Random, file: &[u8], tonight: &[u8]) -> Vec<Vec<u8>> {
    let mut arguments = Vec::new();
    if !random.once_in(24) {
        arguments.push(first(random));
    }
    for _ in 0..random.below(5) {
        arguments.push(match random.below(24) {
            0..=4 => file.to_vec(),
            5..=7 => random
                .pick(&[
                    "--table",
                    "--table",
                    "--wave",
                    "--registers",
                    "--trace",
                    "--svg",
                    "--standard",
                    "--fast",
                    "--thin",
                ])
                .into(),
            8..=9 => b"--room".to_vec(),
            10 => b"--corrections".to_vec(),
            11 => tonight.to_vec(),
            12..=14 => random.pick(&["0", "23", "4096", "x", "99999999999999999999", "5x"]).into(),
            15 => b"-".to_vec(),
            16 => random
                .pick(&[
                    "clash", "decode", "draw", "dump", "encode", "match", "night", "session", "sort", "help",
                ])
                .into(),
            17 => [file, b"/below"].concat(),
            18 => [file, b".missing"].concat(),
            19 => random.pick(&["/", ".", "..", ""]).into(),
            20 => random.pick(&["--brief", "--", "-x", "--tabl", "--tables", "--room=5", "--ROOM"]).into(),
            21 => [random.pick(&["", "--"]).into(), long(random)].concat(),
            _ => odd_word(random),
        });
    }
    arguments
}

fn first(random: &mut Random) -> Vec<u8> {
    match random.below(24) {
        0 => vec![b'c'; random.pick(&[32, 33, 4096, 4097])],
        1 => odd_word(random),
        2 => random.pick(&["", "Clash", "CLASH", "clashes", "cl", "--help", "-h", "-", "help"]).into(),
        3..=5 => b"decode".to_vec(),
        6 => b"draw".to_vec(),
        7 => b"dump".to_vec(),
        8..=11 => b"encode".to_vec(),
        12..=13 => b"night".to_vec(),
        14..=15 => b"session".to_vec(),
        16 => b"sort".to_vec(),
        17 => b"match".to_vec(),
        _ => b"clash".to_vec(),
    }
}

fn long(random: &mut Random) -> Vec<u8> {
    vec![random.pick(b"aZ/"); random.pick(&[30, 31, 32, 33, 255, 256, 4095, 4096, 4097, 9000])]
}

/// A word with control bytes and bytes above 7F in it; never the name of a file.
fn odd_word(random: &mut Random) -> Vec<u8> {
    let mut word = random.pick(&["odd", "--odd"]).as_bytes().to_vec();
    word.extend((0..random.below(6)).map(|_| random.byte().max(1)));
    word
}
