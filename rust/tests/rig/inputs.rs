//! The pseudo-random inputs: always the same, never without a proper last line, and they reach every answer.

use rehearsal_model::rig::answer;
use rehearsal_model::rig::differ::{verdict, write_anew};
use rehearsal_model::rig::inputs::{Kind, Source, KINDS};
use rehearsal_model::rig::matching::rules;
use std::path::Path;
use std::sync::{Arc, Mutex, PoisonError};

/// What the mirror prints of a case, and the input where a test looks at it.
struct Told {
    input: Vec<u8>,
    output: Vec<u8>,
}

/// The first cases of each kind: tests that ask for the same ones share them.
static TOLD: [Mutex<Vec<Arc<Told>>>; KINDS.len()] = [const { Mutex::new(Vec::new()) }; KINDS.len()];

/// The case of this seed; all before it are told first.
fn told(kind: &Kind, seed: u64) -> Arc<Told> {
    let place = KINDS.iter().position(|other| other.word == kind.word).unwrap();
    let mut cases = TOLD[place].lock().unwrap_or_else(PoisonError::into_inner);
    for seed in cases.len() as u64..=seed {
        cases.push(Arc::new(tell(kind, seed)));
    }
    cases[seed as usize].clone()
}

/// A file that is not there: the input stands in for it. The corrections are in a file of the kind's own.
fn tell(kind: &Kind, seed: u64) -> Told {
    let tonight = format!("{}/tonight.{}", env!("CARGO_TARGET_TMPDIR"), kind.word);
    let case = kind.draw(seed, b"-", tonight.as_bytes());
    if case.names(tonight.as_bytes()) {
        write_anew(Path::new(&tonight), &case.tonight).unwrap();
    }
    let output = answer(&case.arguments, &mut &case.input[..]).output;
    Told { input: if kind.word == "match" { case.input } else { Vec::new() }, output }
}

#[test]
fn the_same_again() {
    for kind in KINDS {
        let draw = |seed| kind.draw(seed, b"FILE", b"TONIGHT");
        let (first, second) = (draw(5), draw(5));
        assert_eq!((&first.input, &first.arguments), (&second.input, &second.arguments), "{}", kind.word);
        assert_eq!(first.tonight, second.tonight, "{}", kind.word);
        assert!((0..50).any(|seed| draw(seed).input != first.input), "{}", kind.word);
        let named = |seed| kind.word == "match" || draw(seed).arguments.contains(&b"FILE".to_vec());
        assert!((0..50).any(named) && (0..50).any(|seed| draw(seed).source != Source::File));
    }
}

#[test]
fn every_last_line_is_of_the_right_kind() {
    for kind in KINDS {
        for seed in 0..1500 {
            let output = &told(&kind, seed).output;
            assert!(verdict(output).is_some(), "{} {seed}: {}", kind.word, output.escape_ascii());
        }
    }
}

/// Every text of these must occur in some output of the kind.
fn check_reach(word: &str, texts: &[&str]) {
    check_reach_within(20_000, word, texts);
}

/// Within so many cases.
fn check_reach_within(cases: u64, word: &str, texts: &[&str]) {
    let kind = Kind::named(word).unwrap();
    let mut missing = texts.to_vec();
    for seed in 0..cases {
        if missing.is_empty() {
            return;
        }
        let told = told(&kind, seed);
        let output = String::from_utf8_lossy(&told.output);
        missing.retain(|text| !output.contains(text));
    }
    assert!(missing.is_empty(), "{word}: {missing:?}");
}

#[test]
fn clash_blocks_reach_every_answer() {
    let texts = "  WON    |  in     |  lost   |  silent |: sends 1, the bus is 0; |  UNDECIDED between \
        |CUT after |not acknowledged; | not acknowledged\n|  note: no ack line|  NOT AS EXPECTED\
        |  regs   |  carried |  byte 0   S|  byte 63 |  scl     |  sda     |  lost    |  refused 8: |every board is silent|refused 12: no board\
        |boards, and at most|has no bytes|bytes, and at most|which is odd|, the longest|neither 0 nor 1\
        |goes on with|  ERROR: not rehearsed|restarts after|ends with| ends\n| / |restarts with| ACK / |  WON    10 |  WON     9|  in     15 |  lost   15 |  lost    0 \
        |  silent 15 |  silent  0 |  regs   15 |  regs    0 |has 65 bytes|sent 64 of 64 bytes";
    check_reach("clash", &texts.split('|').collect::<Vec<_>>());
}

#[test]
fn clash_tables_reach_every_answer() {
    let texts = " sent\n|sent, no ack line|CUT at byte |not sent\n|, the last\n|UNDECIDED at byte|EXPECTED \
        |REFUSED 8: too|REFUSED 12: every|REFUSED 12: no board|REFUSED 12: 17 boards|REFUSED 13: \
        |REFUSED 14: | restarts with | begins | restarts in |acknowledges for |: acknowledge |REFUSED 16: |ERROR: not rehearsed|~ |~\n\
        |! cannot open|! cannot read|\nsee | and 1 more|\nok |\nlook |\nrefused 1|\nerror | in error\
        | undecided| not as expected|faults outside";
    check_reach("clash", &texts.split('|').collect::<Vec<_>>());
}

#[test]
fn clash_files_reach_every_error() {
    let texts =
        "; the file is not read|expected boards or load first|more than 16 boards|expected boards and\
        |expected a name of 1 to 16|is named twice|expected load or end|a second boards line\
        |expected a name of 1 to 32 bytes\n|expected a name of 1 to 32 bytes, not|: a title needs\
        |the title is longer|this name was taken|more than 4096 loads\
        |expected load, board, ack, expect or end|expected load, board or ack|boards must stand\
        |expected board NAME|no board '|a second line for board|expected nothing after\
        |expected bytes of two|expected bytes of one or two|/ needs a byte before it and one after it\n|a second ack line|expected all, or\
        |a second expect line|expected expect NAME N/M\n|expected expect NAME N/M, not|no line for board\
        |this load may be cut short|expected end N, the number of loads\n\
        |expected end N, the number of loads, not|end says|after end (line|! the file ends without\
        |! no load in the file|: longer than|: a byte that is no";
    check_reach("clash", &texts.split('|').collect::<Vec<_>>());
}

#[test]
fn corrections_reach_every_answer() {
    let texts = "  corrected 0 |, 1 |\n  refused 1| corrected\n| corrected, 1 fault|is in none of the files\
        |: no board '|; nothing is rehearsed|! cannot open|! cannot read|corrections: the file ends without\
        |expected load or end, not|expected load, board or end|has no board line\
        |expected a name of 1 to 32 bytes;|expected a name of 1 to 32 bytes, not|expected load NAME, one word\
        |this name was taken on line|more than 256 corrections|expected board NAME and its bytes, or - for none;\
        |expected a name of 1 to 16 bytes|a second line for board|expected nothing after -|two hexadecimal digits\
        |bytes, and at most 64 may be sent;|/ needs a byte before it and one after it;|expected end N, the number of loads;|number of loads, not\
        |: end says|: after end (line|: longer than 4096 bytes;|: a byte that is no text;";
    check_reach("clash", &texts.split('|').collect::<Vec<_>>());
}

#[test]
fn nights_reach_every_answer() {
    let texts = "  round 1  |  round 9  |  round  1  |  round  9  |  round 10  |  round 16  |sent by 0\n|sent by 0 \
        |sent by 15 |, 15 |, 11, |  silent 0 |  silent  0 |  silent 15 |  note: no ack line|  NOT AS EXPECTED| / \
        |  corrected 0 |  refused 12: every|refused 12: no board|boards, and at most|has no bytes\
        |bytes, and at most|begins with|restarts with|, the longest|neither 0 nor 1\
        |is 1, and in a night every byte is acknowledged\n|ends with|restarts after|goes on with| ends\n\
        |  ERROR: not rehearsed|file |\nsee | and 1 more|\nok |\nlook |\nrefused 43: |\nrefused 16: |\nerror \
        | not as expected| without an ack line| corrected\n|is in none of the files|; nothing is rehearsed\
        |more than 4096 loads|! cannot open|! cannot read|! no load in the file";
    check_reach("night", &texts.split('|').collect::<Vec<_>>());
}

#[test]
fn drawings_reach_every_answer() {
    let texts = "  WON    |  UNDECIDED between |  corrected 0 |  refused 1|  ERROR: not rehearsed|  note: no ack line\
        |  NOT AS EXPECTED|  carried |  byte 0   S|  byte 3 |  byte 63 |  lost    |^ 0\n|^ 0 |^ 15 | Sr|^ 3 b&<c>\n\
        |<svg xmlns|width=\"720\"|width=\"960\"|height=\"142\"|>Sr</text>|>N</text>|>byte 63</text>\
        |>0 lost</text>|>15 |b&amp;&lt;c&gt; lost|upload-00 1 &lt; 2 &amp;&amp; 2 &gt; 1; \"x\"</title>|m??moire<\
        |! no load '|! line |! corrections|; nothing is rehearsed|! cannot open|! cannot read|\nok 1 load: 1 sent\n|\nlook \
        |\nrefused 1|\nerror |2 loads: ";
    check_reach("draw", &texts.split('|').collect::<Vec<_>>());
}

#[test]
fn decode_inputs_reach_every_answer() {
    let texts = "refused 4 sample |refused 5: |refused 6: |refused 7 sample |refused 8: |: expected STAMP\
        |: the stamp is|: the level is|: longer than|: a byte that is no|cut byte|repeated START\
        |write ACK|read NACK| 0 events| 1 event | 0 samples| 1 sample,|, frame open, 0 bits\
        |1 bit pending, value 0|8 bits pending|note: no sample| doubtful\n|cut byte doubtful|1 long gap\
        |long gaps|1 cut byte,|cut bytes|no byte in any|\ngap |ok |look |looks like an event list\
        |--thin goes with neither|: more than 65536 samples| in 65536 samples";
    check_reach("decode", &texts.split('|').collect::<Vec<_>>());
}

/// A capture of more samples than a record may have, of which fewer are left.
#[test]
fn thinned_captures_are_decoded() {
    let kind = Kind::named("decode").unwrap();
    let is_long = |seed| {
        let told = told(&kind, seed);
        let output = String::from_utf8_lossy(&told.output);
        let (_, samples) = output.rsplit_once(" in ").unwrap_or_default();
        let samples = samples.split(' ').next().and_then(|count| count.parse::<u32>().ok());
        samples.is_some_and(|count| count > 4096) && output.contains(" ACK\n")
    };
    assert!((0..2000).any(is_long));
}

/// All four endings, and frames of every kind.
#[test]
fn matches_reach_every_answer() {
    let texts = "\nok |\nlook |\nrefused 1|\nerror | as rehearsed, 1 byte, won by | bytes, won by \
        | bytes, cut, won by | undecided between |, message of |, waiting since frame 2\nframe\
        | bit 7: rehearsed |: rehearsed ACK, bus NACK|: rehearsed NACK, bus ACK|: rehearsed STOP, bus \
        |, bus STOP|rehearsed repeated START, bus |, bus repeated START|, bus cut byte|, bus nothing\
        |'s bytes\n|; those are board |not rehearsed: no byte\n|not rehearsed: cut byte\
        |not rehearsed: 90 ACK\n| NACK / | ACK / |, cut byte\n|not on the bus: upload-00\n\
        |waiting since frame 1\nnot on|no rehearsal: upload-00, refused|no rehearsal: upload-00, in error\
        |note: no sample|1 long gap| as rehearsed, 1 waited| different| not rehearsed; \
        |: again-upload-00 as |1 load not on the bus|1 message not on the bus\
        |1 load and 1 message not on the bus| loads and | loads refused| load in error|won by board 0\
        |message of board 1, board 2|expected what rig decode prints, not 'refused'|0 frames\
        |the rehearsal has no last line|the capture has no last line|a byte that is no text\
        |: longer than 4096|! line |'s bytes; doubtful\n|; the message of board | in upload-00\n\
        | in upload-00; doubtful\n|waiting since frame 1; doubtful\n|won by board 0; doubtful\n|ACK; doubtful\n\
        | in error, 1 fault in the loads\n|; 1 fault in the loads\n| faults in the loads\n";
    check_reach_within(3000, "match", &texts.split('|').collect::<Vec<_>>());
    check_reach("match", &["error the rehearsal is too long to be kept: name a load", ": more than 4096"]);
}

/// Each of the six rules tells many frames: some come twice, are missing or stand in another's place.
#[test]
fn matches_reach_every_rule() {
    let kind = Kind::named("match").unwrap();
    let mut frames = [0; 7];
    for seed in 0..3000 {
        rules(&told(&kind, seed).input).into_iter().for_each(|rule| frames[rule] += 1);
    }
    assert!(frames[1..].iter().all(|&count| count > 150), "{frames:?}");
}

/// A record that crossed, as decode and dump tell it.
#[test]
fn crossed_records_reach_every_answer() {
    let texts = "it; its stamp is that of line |it; lines 1 and 2 look|it; lines 1 to 2 and 3 to 4 look\
        |it; lines 1 and 2 to |it; lines 1 to 2 and 3 look";
    check_reach("decode", &texts.split('|').collect::<Vec<_>>());
    check_reach("dump", &texts.split('|').collect::<Vec<_>>());
}

#[test]
fn sort_inputs_reach_every_answer() {
    let texts = "refused 4 sample |refused 5: |; line 1 has no level|refused 6: |): its stamp is that of line \
        |: expected STAMP|: the stamp is|: the level is|: longer than|: a byte that is no|looks like an event list\
        |looks like a Value Change Dump|look 0 samples|ok 1 sample, all in order|ok 2 samples, 1 out of order\
        | samples, all in order| out of order|ok 4096 samples, |ok 4096 samples, all|ok 4095 samples, \
        | 4095 out of order";
    check_reach("sort", &texts.split('|').collect::<Vec<_>>());
}

#[test]
fn dumps_reach_every_answer() {
    let texts =
        "# a Value Change Dump whose stamps count 1|whose stamps count 100 ns\n|count 10 ps\n|count 1 fs\n\
        |count 100 s\n|count 1 us\n|with no timescale\n|; capture from where|: export the capture again\
        |; dump only the two wires|; the file may be cut|; declare SCL, then SDA|; choose a coarser\
        |: more than 4096 samples; dump a shorter|60000 bytes; dump a shorter|; export a Value Change Dump\
        |'; declare SCL|at its first stamp; declare SCL|(line 1): |(line 7): |..'; dump only|'??'; export\
        | (stamp |--standard needs stamps that count 100 ns, and this dump counts |--fast needs\
        |and this dump has no timescale|looks like a Value Change Dump|: longer than";
    check_reach("decode", &texts.split('|').collect::<Vec<_>>());
    check_reach("dump", &["looks like a Value Change Dump"]);
}

#[test]
fn encode_inputs_reach_every_answer() {
    let texts = "refused 6: |refused 8: |refused 9: |refused 10: |refused 11: |: expected start N\
        |: expected gap N|: an even address|: more than 4096 events|: expected START|: longer than\
        |: a byte that is no|ok 1 sample|ok 23 samples|looks like a trace|looks like a file of loads";
    check_reach("encode", &texts.split('|').collect::<Vec<_>>());
}

#[test]
fn session_inputs_reach_every_answer() {
    let texts = "\nrefused 1: the|\nrefused 2: a|\nrefused 3: the|\nrefused 4: a|expected power or\
        |expected read A|expected write A|expected readw|expected writew|expected sample|expected tick\
        |expected lines|expected help|unknown command|longer than|a byte that is no\
        |commands refused, the|not understood, the|ok 0 commands|ok 1 command\n|scl=low|sda=low\
        |stretch=1|pull=3|ok power [";
    check_reach("session", &texts.split('|').collect::<Vec<_>>());
    let texts = "sclk=low sdo=low|sclk=low sdo=high|sclk=low sdo=released|sclk=high sdo=low\
        |sclk=high sdo=high|sclk=high sdo=released|sclk=released sdo=low|sclk=released sdo=high\
        |sclk=released sdo=released|sclk=0 sdo=0|sclk=0 sdo=1|sclk=0 sdo=-|sclk=1 sdo=0|sclk=1 sdo=1\
        |sclk=1 sdo=-|sclk=- sdo=0|sclk=- sdo=1|sclk=- sdo=-|phase=0 seen=1 scl=1 sda=1 stretch=0 sclk=1\
        |\nrefused 17: a";
    check_reach("session", &texts.split('|').collect::<Vec<_>>());
}

#[test]
fn command_lines_reach_every_answer() {
    let texts =
        "expected a command|unknown command '|expected a file|number after --room\n|number after --room, not\
        |unknown option '--brief'|unknown option '--odd|longer than 4096|no such file|it is a directory\
        |the name is too long|a second file '|--table goes with|aaaa..'\
        |expected a file after --corrections|unknown option '--corrections'|unknown option '--table' for night\
        |unknown option '--room' for night|unknown option '--room' for sort|: sort reads one\
        |expected a load after the file|unexpected '|unknown option '--svg' for\
        |unknown option '--table' for draw|unknown option '--thin' for|after match|the rehearsal has no last line";
    check_reach("arguments", &texts.split('|').collect::<Vec<_>>());
}
