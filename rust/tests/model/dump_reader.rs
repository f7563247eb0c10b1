//! The dump reader by its rules: what is read, each refusal with its place, and which of two wins.

use rehearsal_model::compare::dump_reader::draw;
use rehearsal_model::dump::text;
use rehearsal_model::dump_reader::{read, record, Record, LONGEST};
use rehearsal_model::random::Random;
use rehearsal_model::refusal::{Reason, Refusal};
use std::collections::BTreeMap;

const CASE: &[u8] = include_bytes!("../../../examples/case.vcd");
const WIRES: &str = "$var wire 1 ! scl $end\n$var wire 1 \" sda $end\n";

/// Values after sound definitions.
fn with_values(values: &str) -> String {
    format!("{WIRES}$enddefinitions $end\n{values}")
}

fn accepted(text: &str) -> Record {
    record(text.as_bytes()).unwrap_or_else(|refusal| panic!("{refusal:?} in {text:?}"))
}

fn samples(values: &str) -> (Vec<u32>, Vec<u8>) {
    let Record { stamps, levels, .. } = accepted(&with_values(values));
    (stamps, levels)
}

fn refusal(text: &str) -> Refusal {
    record(text.as_bytes()).expect_err(text)
}

/// The text is refused at the word marked by `^`, which is no part of it.
fn refused(reason: Reason, marked: &str) {
    let place = marked.find('^').expect("a mark");
    assert_eq!(refusal(&marked.replacen('^', "", 1)), reason.at(place), "{marked:?}");
}

/// The same of values.
fn value_refused(reason: Reason, marked: &str) {
    refused(reason, &with_values(marked));
}

/// Two sound samples stand after these definitions.
fn scaled(definitions: &str) -> u64 {
    accepted(&format!("{definitions}{}", with_values("#5 1! 1\"\n"))).timescale
}

#[test]
fn what_is_written_reads_back() {
    let record = record(CASE).expect("is read");
    assert_eq!(record, Record { stamps: vec![5, 9], levels: vec![3, 1], timescale: 100_000_000 });
    let again = text(&record.stamps, &record.levels);
    assert_eq!(again.as_bytes(), CASE);
}

#[test]
fn the_rest_of_the_slices_stays() {
    let (mut stamps, mut levels) = ([7; 4], [8; 3]);
    assert_eq!(read(CASE, &mut stamps, &mut levels), Ok((2, 100_000_000)));
    assert_eq!((stamps, levels), ([5, 9, 7, 7], [3, 1, 8]));
}

#[test]
fn four_bytes_part_words_and_no_other() {
    let parted = with_values("#5 1! 1\"\n").replace(' ', "\t\r ");
    assert_eq!(accepted(&parted).levels, [3]);
    refused(Reason::Form, "^$var\u{b}wire 1 ! scl $end\n");
    refused(Reason::Form, "^$var\u{c}wire 1 ! scl $end\n");
}

#[test]
fn notes_are_skipped_to_a_whole_end() {
    for word in ["$date", "$version", "$comment"] {
        let note = format!("{word} $endless $var \u{ff} # $end\n{}", with_values("#5 1! 1\"\n"));
        assert_eq!(accepted(&note).levels, [3]);
    }
    assert_eq!(refusal("$date $endless\n"), Reason::CutText.at(15));
}

#[test]
fn timescales() {
    assert_eq!(scaled(""), 0);
    assert_eq!(scaled("$timescale 1 fs $end "), 1);
    assert_eq!(scaled("$timescale 10ps $end "), 10_000);
    assert_eq!(scaled("$timescale 100\tus $end "), 100_000_000_000);
    assert_eq!(scaled("$timescale 1ms $end $timescale 100 s $end "), 100_000_000_000_000_000);
    assert_eq!(scaled("$timescale 100 s $end $timescale 1ns $end "), 1_000_000);
    for wrong in [
        "^01 ns", "^2 ns", "^1000 ns", "^ns", "1 ^NS", "^1NS", "1 ^$end", "^$end", "1 ns ^ns", "1ns ^1",
        "^1.ns",
    ] {
        refused(Reason::Form, &format!("$timescale {wrong} $end\n"));
    }
}

#[test]
fn scopes() {
    for kind in ["begin", "fork", "function", "module", "task"] {
        assert_eq!(scaled(&format!("$scope {kind} \u{ff}# $end $scope {kind} x $end $upscope $end ")), 0);
    }
    assert_eq!(scaled("$upscope $end $upscope $end "), 0);
    for wrong in ["^class x $end", "^$end", "module ^$end", "module ^$x $end", "module x ^y $end"] {
        refused(Reason::Form, &format!("$scope {wrong}\n"));
    }
    refused(Reason::Form, "$upscope ^x $end\n");
}

#[test]
fn wires() {
    assert_eq!(scaled("$comment third $end "), 0);
    let named = "$var wire 001 $x I2C SCL [0] \u{ff} $end $var wire 1 $end1 sda $end\n\
        $enddefinitions $end #1 0$x 1$end1\n";
    assert_eq!(accepted(named).levels, [2]);
    refused(Reason::Wires, &format!("{WIRES}^$var wire 1 # third $end\n"));
    for wrong in ["^reg 1 ! x", "wire ^2 ! x", "wire ^0 ! x", "wire ^1x ! x", "^$end", "wire ^$end"] {
        refused(Reason::Wires, &format!("$var {wrong} $end\n"));
    }
    refused(Reason::Wires, "$var wire 1 ! scl $end $var wire 1 ^! sda $end\n");
    for wrong in ["^$end", "^\u{e9} x $end", "^\u{7f} x $end", "! ^$end", "! ^$x $end", "! x ^$x $end"] {
        refused(Reason::Form, &format!("$var wire 1 {wrong}\n"));
    }
    refused(Reason::Wires, "^$enddefinitions $end\n");
    refused(Reason::Wires, "$var wire 1 ! scl $end ^$enddefinitions $end\n");
    refused(Reason::Form, &format!("{WIRES}$enddefinitions ^#5 $end\n"));
}

#[test]
fn no_other_word_stands_among_the_definitions() {
    for word in ["x!", "0!", "#5", "#4294967296", "$end", "$dumpvars", "$endless", "text"] {
        refused(Reason::Form, &format!("{WIRES}^{word} \n"));
    }
}

#[test]
fn stamps() {
    assert_eq!(samples("#004294967295 1! 1\"\n"), (vec![u32::MAX], vec![3]));
    value_refused(Reason::StampNotRising, "#5 1! 1\" ^#5\n");
    value_refused(Reason::StampNotRising, "#5 1! 1\" ^#4\n");
    value_refused(Reason::StampNotRising, "#5 1! ^#5\n");
    value_refused(Reason::Wires, "#5 1! ^#6\n");
    value_refused(Reason::Wires, "#5 1\" ^#4294967296\n");
    value_refused(Reason::LargeStamp, "^#4294967296\n");
    value_refused(Reason::LargeStamp, "#5 1! 1\" ^#99999999999999999999999999999999\n");
    value_refused(Reason::StampNotRising, "#5 1! 1\" ^#00000000000000000000000000000005\n");
    for wrong in ["#", "#5x", "#-5", "#x", "##5", "# 5"] {
        value_refused(Reason::Form, &format!("^{wrong}\n"));
    }
}

#[test]
fn values() {
    value_refused(Reason::Undeclared, "#5 ^1#\n");
    value_refused(Reason::Undeclared, "^1#\n");
    value_refused(Reason::Undeclared, "#5 ^1!!\n");
    value_refused(Reason::Undeclared, "#5 ^1\u{ff}\n");
    value_refused(Reason::Form, "^1!\n");
    for letter in ["x", "X", "z", "Z"] {
        value_refused(Reason::UnknownValue, &format!("^{letter}!\n"));
        value_refused(Reason::UnknownValue, &format!("#5 ^{letter}#\n"));
        value_refused(Reason::Form, &format!("#5 ^{letter} !\n"));
    }
    for wrong in
        ["0", "1", "b1", "B0", "r1.5", "R1", "!", "2!", "$end", "$date", "$enddefinitions", "$scope", "-!"]
    {
        value_refused(Reason::Form, &format!("#5 ^{wrong} \n"));
    }
    value_refused(Reason::Wires, "#5 ^$var\n");
}

#[test]
fn sections() {
    assert_eq!(samples("#5 $dumpvars 1! 0\" $end\n"), (vec![5], vec![1]));
    for word in ["$dumpall", "$dumpon", "$dumpoff"] {
        assert_eq!(samples(&format!("#5 1! 0\" {word} $end #7 {word} 0! $end\n")), (vec![5, 7], vec![1, 0]));
    }
    value_refused(Reason::Form, "$dumpvars ^1! $end\n");
    value_refused(Reason::Form, "$dumpvars ^#5 $end\n");
    value_refused(Reason::LargeStamp, "$dumpvars ^#4294967296 $end\n");
    value_refused(Reason::StampNotRising, "#5 $dumpvars ^#5 $end\n");
    value_refused(Reason::Wires, "#5 $dumpvars ^#6 $end\n");
    value_refused(Reason::Form, "#5 1! 1\" $dumpvars ^#6 $end\n");
    value_refused(Reason::Wires, "#5 $dumpvars ^$var $end\n");
    value_refused(Reason::Form, "#5 $dumpvars ^$comment $end\n");
    value_refused(Reason::Form, "#5 $dumpvars ^$dumpoff $end\n");
    value_refused(Reason::UnknownValue, "$dumpvars ^x! $end\n");
}

#[test]
fn a_text_that_ends_too_early() {
    assert_eq!(refusal(""), Reason::Wires.at(0));
    assert_eq!(refusal("\n"), Reason::Wires.at(1));
    assert_eq!(refusal(" "), Reason::CutText.at(1));
    assert_eq!(refusal(WIRES), Reason::Wires.at(WIRES.len()));
    for text in ["$date x\n", "$timescale\n", "$scope module\n", "$var wire 1 ! x\n", "$upscope\n"] {
        assert_eq!(refusal(text), Reason::CutText.at(text.len()));
    }
    for values in ["", "#5\n", "#5 1!\n", "#5 0\"\n"] {
        let text = with_values(values);
        assert_eq!(refusal(&text), Reason::Wires.at(text.len()));
    }
    for values in
        ["#5 1! 1\" ", "#5 1! 1\"\n#", "#5 1! 1\"\nx!", "#5 1! 1\" $comment x\n", "#5 1! 1\" $dumpall\n"]
    {
        let text = with_values(values);
        assert_eq!(refusal(&text), Reason::CutText.at(text.len()));
    }
    value_refused(Reason::Form, "#5 1! ^1 x!");
    for length in 0..CASE.len() {
        let cut = record(&CASE[..length]);
        assert_eq!(cut.is_ok(), [136, 139].contains(&length), "{length}");
    }
}

#[test]
fn samples_by_net_effect() {
    assert_eq!(samples("#5 0! 1! 1\" #6 0! 1! #7 $comment x $end #8 0\"\n"), (vec![5, 8], vec![3, 1]));
    assert_eq!(samples("#0 1! 1\" #9\n"), (vec![0], vec![3]));
}

#[test]
fn the_limits() {
    let mut many = with_values("#0 0! 0\"\n");
    for stamp in 1..4096 {
        many += &format!("#{stamp} {}!\n", stamp % 2);
    }
    let (mut stamps, mut levels) = ([9; 4097], [9; 4097]);
    assert_eq!(read(many.as_bytes(), &mut stamps, &mut levels), Ok((4096, 0)));
    assert_eq!(read(many.as_bytes(), &mut stamps[..4095], &mut levels), Err(Reason::ShortBuffer.refusal()));
    assert_eq!(read(many.as_bytes(), &mut stamps, &mut levels[..4095]), Err(Reason::ShortBuffer.refusal()));
    let more = format!("{many}#4096 0!\n");
    assert_eq!(read(more.as_bytes(), &mut [], &mut []), Err(Reason::TooManySamples.refusal()));
    let faulty = format!("{more}x!\n");
    let place = more.len();
    assert_eq!(read(faulty.as_bytes(), &mut [], &mut []), Err(Reason::UnknownValue.at(place)));
    let long = format!("{}{}", " ".repeat(LONGEST), "x");
    assert_eq!(read(long.as_bytes(), &mut [], &mut []), Err(Reason::LongText.refusal()));
    let full = format!("{:>1$}", with_values("#5 1! 1\"\n"), LONGEST);
    assert_eq!(accepted(&full).levels, [3]);
}

/// Every refusal occurs, and what is read is written and read again as the same record.
#[test]
fn texts_reach_every_answer() {
    let mut answers = BTreeMap::new();
    for seed in 0..20_000 {
        let (_, text_drawn) = draw(&mut Random::new(seed));
        let (mut stamps, mut levels) = (vec![0; 5000], vec![0; 5000]);
        let answer = read(&text_drawn, &mut stamps, &mut levels);
        *answers.entry(answer.map_or_else(|refusal| refusal.number(), |_| 0)).or_insert(0) += 1;
        if let Ok((count, _)) = answer {
            let again = record(text(&stamps[..count], &levels[..count]).as_bytes()).expect("is read");
            assert_eq!((&again.stamps[..], &again.levels[..]), (&stamps[..count], &levels[..count]));
            assert_eq!(again.timescale, 100_000_000);
        }
    }
    let reached: Vec<u8> = answers.keys().copied().collect();
    assert_eq!(reached, [0, 6, 20, 21, 22, 23, 24, 25, 26, 27], "{answers:?}");
}
