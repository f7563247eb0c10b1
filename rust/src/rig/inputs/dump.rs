//! Files for `rig decode` that are Value Change Dumps: as tools write them, spoilt, too long, or not from the first byte.

use super::decode::{draw_levels, draw_stamps};
use crate::compare::dump_reader;
use crate::random::Random;

/// How a tool writes its dumps.
struct Manner {
    identifiers: [&'static str; 2],
    names: [&'static str; 2],
    /// What stands between the words of a stamp.
    parting: &'static str,
    /// A stamp has the values of both wires, whether they changed or not.
    both: bool,
    /// One word in so many is wrong.
    spoiling: usize,
}

/// A dump in some tool's manner, or a text of the comparison's; a few begin late or are about as long as may be.
pub fn text(random: &mut Random) -> Vec<u8> {
    let mut bytes = match random.below(4) {
        0 => dump_reader::draw(random).1,
        _ => written(random),
    };
    if random.once_in(32) {
        let byte = random.pick(b"\n\n x");
        bytes.resize(random.pick(&[59_999, 60_000, 60_001, 65_536, 150_000]), byte);
    }
    let front = front(random);
    bytes.splice(0..0, front);
    bytes
}

/// What stands before a dump: nothing mostly, blanks, about as many as may stand there, or a line of another kind.
fn front(random: &mut Random) -> Vec<u8> {
    match random.below(24) {
        0..=1 => (0..random.below(20)).map(|_| random.pick(b" \t\r\n")).collect(),
        2 => {
            vec![random.pick(b"\n\n\n \t\r"); random.pick(&[4094, 4095, 4096, 4097, 59_999, 60_000, 60_001])]
        }
        3 => random.pick(&["# a dump\n", "5 3\n", "ok 1 sample\n", "\u{feff}", "\u{b}", "x", "#0\n"]).into(),
        _ => Vec::new(),
    }
}

fn draw_manner(random: &mut Random) -> Manner {
    let plain = ["!", "\""];
    Manner {
        identifiers: random.pick(&[plain, plain, ["#", "$"], ["0", "1"], ["n0", "n1"], ["x", "xx"]]),
        names: random.pick(&[["scl", "sda"], ["I2C SCL", "I2C SDA"], ["D0", "D1"], ["scl [0]", "\u{e9}"]]),
        parting: random.pick(&["\n", "\n", " "]),
        both: random.once_in(8),
        spoiling: random.pick(&[2, 60, 1_000_000, 1_000_000]),
    }
}

/// A record as a dump; now and then one of about 4,096 samples, each of which changes a level.
fn written(random: &mut Random) -> Vec<u8> {
    let (stamps, levels): (Vec<u64>, Vec<u64>) = if random.once_in(48) {
        (0..random.between(4095, 4098) as u64).map(|stamp| (stamp, stamp % 2)).unzip()
    } else {
        let levels = draw_levels(random);
        (draw_stamps(random, levels.len()), levels)
    };
    let manner = draw_manner(random);
    let mut text = definitions(random, &manner);
    values(random, &manner, &mut text, stamps.iter().copied().zip(levels));
    if random.once_in(4) {
        text += &format!("#{}\n", stamps.last().map_or(0, |last| last + 100));
    }
    match random.below(24) {
        0 => drop(text.pop()),
        1..=3 => text = text.replace('\n', "\r\n"),
        4 => text = text.replace(' ', "\t"),
        _ => {}
    }
    text.into_bytes()
}

/// One of the texts of a list, in which `|` stands between two.
fn one_of(random: &mut Random, list: &'static str) -> &'static str {
    random.pick(&list.split('|').collect::<Vec<_>>())
}

/// Everything up to `$enddefinitions`, and what tools write before the first stamp.
fn definitions(random: &mut Random, manner: &Manner) -> String {
    let mut text = String::new();
    if random.once_in(2) {
        text += "$date Mon Nov 16 10:00:00 2026 $end\n$version an analyser $end\n";
        text += one_of(random, "|$comment\n  2 channels, $endless # x!\n$end\n");
    }
    text += one_of(
        random,
        "$timescale 100 ns $end\n|$timescale 100 ns $end\n|$timescale 100ns $end\n|$timescale\n\t1us\n$end\n\
         |$timescale 10 ps $end\n|$timescale 1 fs $end\n|$timescale 1 ms $end\n$timescale 100 s $end\n|",
    );
    let (before, after) = random.pick(&[("", ""), ("$scope module top $end\n", "$upscope $end\n")]);
    text += before;
    for (wire, name) in manner.names.into_iter().enumerate() {
        let mut spoilt = || random.once_in(8 * manner.spoiling);
        let kind = if spoilt() { "reg" } else { "wire" };
        let size = if spoilt() { "8" } else { "1" };
        let identifier = manner.identifiers[if spoilt() { 0 } else { wire }];
        text += &format!("$var {kind} {size} {identifier} {name} $end\n");
    }
    if random.once_in(4 * manner.spoiling) {
        text += one_of(
            random,
            "$var wire 1 % third $end\n|$timescale 2 ns $end\n|$scope class x $end\n|$upscope\n|0 3\n|#5\n\
             |$attrbegin misc 07 $end\n",
        );
    }
    text += after;
    text + "$enddefinitions $end\n" + one_of(random, "|||$dumpall\n$end\n|$comment none $end\n")
}

/// Each sample's stamp and what changed; sections, comments and stamps that change nothing among them.
fn values(
    random: &mut Random,
    manner: &Manner,
    text: &mut String,
    samples: impl Iterator<Item = (u64, u64)>,
) {
    let section = random.pick(&["", "", "$dumpvars"]);
    let mut before = None;
    for (stamp, level) in samples {
        let mut words = vec![format!("#{stamp}")];
        let values = [0, 1].map(|wire| format!("{}{}", level >> wire & 1, manner.identifiers[wire]));
        let changed = |wire: u64| before.is_none_or(|before: u64| (before ^ level) >> wire & 1 == 1);
        let shown = [0, 1].map(|wire| manner.both || changed(wire));
        words.extend(values.into_iter().zip(shown).filter(|(_, shown)| *shown).map(|(value, _)| value));
        if before.is_none() && !section.is_empty() {
            words.insert(1, section.to_string());
            words.push("$end".to_string());
        }
        if random.once_in(40) {
            aside(random, manner, &mut words);
        }
        if random.once_in(60 * manner.spoiling) {
            spoil(random, &mut words);
        }
        *text += &words.join(manner.parting);
        text.push('\n');
        before = Some(level);
    }
}

/// What else stands under a stamp: a comment, an empty section, a value in a section, the same values once more.
fn aside(random: &mut Random, manner: &Manner, words: &mut Vec<String>) {
    let added = match random.below(4) {
        0 => "$comment a mark $end".to_string(),
        1 => one_of(random, "$dumpoff $end|$dumpon $end|$dumpall $end|$dumpvars\n$end").to_string(),
        2 => format!("$dumpall {}{} $end", random.below(2), random.pick(&manner.identifiers)),
        _ => words[1..].join(" "),
    };
    words.push(added);
}

/// A word that cannot stand there is put in, or in the place of another.
fn spoil(random: &mut Random, words: &mut Vec<String>) {
    const WORDS: &str = "x!|z\"|X#|Z|b1 !|r1.5 !|1%|0|#|#x|#0|#4294967296|$var|$end|$date|$dumpvars|$comment\
        |1!1!|\u{1}\u{7f}|1a-wire-with-a-name-of-many-bytes-in-all";
    let word = one_of(random, WORDS).to_string();
    let place = random.below(words.len() + 1);
    if place < words.len() && random.once_in(2) {
        words[place] = word;
    } else {
        words.insert(place, word);
    }
}
