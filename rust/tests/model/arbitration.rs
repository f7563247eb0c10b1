//! P8 to P12, the run list, the lent table, and the runner against the outcome from messages alone.

use crate::lent::LENT;
use rehearsal_model::arbitration::outcome::{first_difference, least, outcome};
use rehearsal_model::arbitration::runner::run;
use rehearsal_model::arbitration::{
    arbitrate, levels_for, Message, Outcome, Request, Run, LEVELS, MASTERS, MESSAGE_BYTES,
};
use rehearsal_model::compare::arbitration::draw_request;
use rehearsal_model::module::Module;
use rehearsal_model::packed::Asked;
use rehearsal_model::random::Random;
use rehearsal_model::refusal::{Reason, Refusal};

/// The call with room for all but perhaps the table.
fn ask_with(messages: &[&[u8]], acks: &[u8], table: &mut [Module]) -> Result<Run, Refusal> {
    let messages: Vec<Message> = messages.iter().map(|bytes| Message::of_one_part(bytes)).collect();
    ask_messages(&messages, acks, table)
}

fn ask_messages(messages: &[Message], acks: &[u8], table: &mut [Module]) -> Result<Run, Refusal> {
    let Asked { bytes, parts, counts, acks } = Asked::new(messages, acks.to_vec());
    let (mut carried, mut levels) = ([0; MESSAGE_BYTES], [0; LEVELS]);
    arbitrate(&bytes, &parts, &counts, &acks, &mut carried, &mut levels, table)
}

fn ask(messages: &[&[u8]], acks: &[u8]) -> Result<Run, Refusal> {
    ask_with(messages, acks, &mut [LENT; MASTERS])
}

/// P8 and a table of so many entries.
fn p8(entries: usize) -> (Result<Run, Refusal>, Vec<Module>) {
    let mut table = vec![LENT; entries];
    (ask_with(&[&[0x90, 0x12], &[0x90, 0x0F]], &[0, 0], &mut table), table)
}

#[test]
fn p8_the_larger_message_loses_at_12() {
    let (run, table) = p8(3);
    let run = run.unwrap();
    assert_eq!(run.outcome.carried, [0x90, 0x0F]);
    assert_eq!(run.outcome.remaining[..3], [false, true, false]);
    assert_eq!(run.outcome.positions[..2], [12, 0]);
    assert_eq!(table[0].registers, [0xC0, 0x4D, 0x22, 0x80, 0x0F, 0x00]);
    assert_eq!(table[1].registers, [0xC8, 0x45, 0x22, 0x00, 0xFF, 0x00]);
    assert_eq!(table[2], LENT);
}

/// The first two entries do not depend on what the table held, nor on how long it is; the others stay.
#[test]
fn a_table_of_any_length() {
    let (run, two) = p8(2);
    assert!(run.is_ok() && !two.contains(&LENT));
    let mut powered_up = vec![Module::power_up(0, 0); 2];
    assert_eq!(ask_with(&[&[0x90, 0x12], &[0x90, 0x0F]], &[0, 0], &mut powered_up), run);
    assert_eq!(powered_up, two);
    for entries in 3..40 {
        let (longer, table) = p8(entries);
        assert_eq!((longer, &table[..2]), (run.clone(), &two[..]));
        assert!(table[2..].iter().all(|module| *module == LENT));
    }
}

/// Messages and acknowledges that are refused.
type Refused<'a> = (&'a [&'a [u8]], &'a [u8], Refusal);

/// Too short a table is 8, after 12 to 16; a refusal leaves it as it was.
#[test]
fn a_table_that_stays() {
    for entries in [0, 1] {
        let (refused, table) = p8(entries);
        assert_eq!((refused, table), (Err(Reason::ShortBuffer.refusal()), vec![LENT; entries]));
    }
    let seventeen = [&[0x90][..]; MASTERS + 1];
    let refused: [Refused; 6] = [
        (&[], &[], Reason::MasterCount.refusal()),
        (&seventeen, &[0], Reason::MasterCount.refusal()),
        (&[&[0x90], &[]], &[0], Reason::MessageLength.at(1)),
        (&[&[0x90], &[0x91]], &[0], Reason::ReadMessage.at(1)),
        (&[&[0x90]], &[2], Reason::Acknowledges.refusal()),
        (&[&[0x90], &[0x90, 0x00]], &[0, 0], Reason::Undecided.refusal()),
    ];
    for (messages, acks, refusal) in refused {
        for entries in [0, 1, 2, MASTERS, MASTERS + 2] {
            let mut table = vec![LENT; entries];
            assert_eq!(ask_with(messages, acks, &mut table), Err(refusal));
            assert_eq!(table, vec![LENT; entries]);
        }
    }
}

#[test]
fn final_hidden_state_of_winner_and_loser() {
    let (_, table) = p8(2);
    let [loser, winner] = [table[0], table[1]];
    assert!(winner.latch && winner.enable && winner.phase && !winner.stretch);
    assert!(!loser.enable && loser.phase && !loser.stretch);
    assert!([loser, winner].iter().all(|module| module.seen && module.scl && module.sda));
}

#[test]
fn p9_p11_a_byte_not_acknowledged_ends_it() {
    for messages in [[&[0x90, 0x12][..], &[0x90, 0x0F]], [&[0x90], &[0x90, 0x00]]] {
        let run = ask(&messages, &[1, 0]).unwrap();
        assert_eq!(run.outcome.carried, [0x90]);
        assert_eq!(run.outcome.remaining[..3], [true, true, false]);
    }
}

#[test]
fn p10_undecided() {
    assert_eq!(ask(&[&[0x90], &[0x90, 0x00]], &[0, 0]), Err(Reason::Undecided.refusal()));
}

#[test]
fn p12_a_smaller_message_decides() {
    let run = ask(&[&[0x90], &[0x90, 0x00], &[0x50]], &[0, 0]).unwrap();
    assert_eq!(run.outcome.carried, [0x50]);
    assert_eq!(run.outcome.remaining[..4], [false, false, true, false]);
    assert_eq!(run.outcome.positions, [0; MASTERS]);
}

#[test]
fn equal_messages_and_one_alone() {
    assert_eq!(ask(&[&[0x90, 7], &[0x90, 7]], &[0, 0]).unwrap().outcome.remaining[..3], [true, true, false]);
    let alone = ask(&[&[0xA0]], &[0]).unwrap();
    assert_eq!(alone.outcome.levels, [3, 1, 2, 3, 0, 1, 2, 3, 0, 1, 0, 1, 0, 1, 0, 1, 0, 1, 0, 1, 0, 1, 3]);
}

#[test]
fn limits_of_messages_and_masters() {
    assert_eq!(ask(&[&[0x90; 64]], &[0; 64]).unwrap().outcome.carried.len(), 64);
    assert_eq!(ask(&[&[0x90], &[0x90; 65]], &[0; 65]), Err(Reason::MessageLength.at(1)));
    assert_eq!(ask(&[&[0x90][..]; 16], &[0]).unwrap().outcome.remaining, [true; 16]);
    assert_eq!(ask(&[&[0x90][..]; 17], &[0]), Err(Reason::MasterCount.refusal()));
    assert_eq!(ask(&[], &[]), Err(Reason::MasterCount.refusal()));
}

/// Sixteen messages of 64 bytes in one part: the first k bytes take 5 + 18k levels, at most 1,157.
#[test]
fn levels_of_the_longest_messages() {
    let message = |master: u8| [vec![0x90; 63], vec![master]].concat();
    let messages: Vec<Vec<u8>> = (0..16).rev().map(message).collect();
    let messages: Vec<&[u8]> = messages.iter().map(Vec::as_slice).collect();
    for k in 1..=64 {
        let mut acks = vec![0; 64];
        acks[k - 1] = 1;
        let outcome = ask(&messages, &acks).unwrap().outcome;
        assert_eq!((outcome.carried.len(), outcome.levels.len()), (k, 5 + 18 * k));
    }
    assert_eq!((levels_for(64, 0), levels_for(1, 0)), (1157, 23));
    let outcome = ask(&messages, &[0; 64]).unwrap().outcome;
    assert_eq!(outcome.levels.len(), levels_for(64, 0));
    assert_eq!(outcome.positions[..3], [9 * 63 + 4, 9 * 63 + 4, 9 * 63 + 4]);
    assert!(outcome.remaining[15] && outcome.positions[14] == 9 * 63 + 7);
}

#[test]
fn refusals_and_places() {
    let wrong_sum = arbitrate(&[0x90, 0x12], &[1], &[1], &[0], &mut [0; 8], &mut [0; 99], &mut [LENT; 2]);
    assert_eq!(wrong_sum, Err(Reason::MessageLength.at(1)));
    assert_eq!(ask(&[&[0x90], &[0x91]], &[0]), Err(Reason::ReadMessage.at(1)));
    assert_eq!(ask(&[&[0x90]], &[2]), Err(Reason::Acknowledges.refusal()));
    assert_eq!(ask(&[&[0x90]], &[0, 0]), Err(Reason::Acknowledges.refusal()));
    for (carried, levels) in [(1, 41), (2, 40)] {
        let (mut carried, mut levels, mut table) = (vec![0; carried], vec![0; levels], [LENT]);
        let short = arbitrate(&[0x90, 0x12], &[2], &[1], &[0, 0], &mut carried, &mut levels, &mut table);
        assert_eq!((short, table), (Err(Reason::ShortBuffer.refusal()), [LENT]));
    }
    let undecided = arbitrate(&[0x90, 0x90, 0x00], &[1, 2], &[1, 1], &[0, 0], &mut [], &mut [], &mut []);
    assert_eq!(undecided, Err(Reason::Undecided.refusal()));
}

/// A message as it is written: `02 / 04`.
fn message(text: &str) -> Message {
    let byte = |word: &str| u8::from_str_radix(word, 16).expect("a byte");
    let part = |part: &str| part.split_whitespace().map(byte).collect();
    Message { parts: text.split('/').map(part).collect() }
}

/// The reply and the final modules.
fn ask_parted(texts: &[&str], acks: &[u8]) -> (Result<Run, Refusal>, Vec<Module>) {
    let messages: Vec<Message> = texts.iter().map(|text| message(text)).collect();
    let mut table = vec![LENT; messages.len()];
    (ask_messages(&messages, acks, &mut table), table)
}

/// 02: each loser writes USICTL1=49h and USICNT=80h at a restart, or it would hold SCL low for good.
#[test]
fn a_loser_at_a_restart() {
    let (run, table) = ask_parted(&["02 / 04", "06 / 04"], &[0, 0]);
    let outcome = run.unwrap().outcome;
    assert_eq!((&outcome.carried[..], outcome.levels.len()), (&[2, 4][..], levels_for(2, 1)));
    assert_eq!((&outcome.remaining[..2], &outcome.positions[..2]), (&[true, false][..], &[0, 5][..]));
    assert_eq!(outcome.levels[20..23], [2, 3, 1]);
    assert_eq!(table[0].registers, [0xC8, 0x45, 0x22, 0x00, 0xFF, 0x00]);
    assert_eq!(table[1].registers, [0xC0, 0x4D, 0x22, 0x80, 0x02, 0x00]);
}

/// The one that lost at the first restart lets go of SCL at the second too.
#[test]
fn a_loser_at_every_restart() {
    let (run, table) = ask_parted(&["02 / 04 / 08", "06 / 04 / 08", "02 / 06 / 08"], &[0, 0, 0]);
    let run = run.unwrap();
    assert_eq!(run.outcome.carried, [2, 4, 8]);
    assert_eq!(run.outcome.levels.len(), levels_for(3, 2));
    assert_eq!(run.outcome.positions[..3], [0, 5, 15]);
    assert_eq!(run.cleared[..4], [3, 3, 3, 0]);
    assert!(table.iter().all(|module| !module.lines().scl && !module.lines().sda));
}

#[test]
fn equal_bytes_in_other_parts() {
    let (undecided, table) = ask_parted(&["02 / 04", "02 04"], &[0, 0]);
    assert_eq!((undecided, table), (Err(Reason::Undecided.refusal()), vec![LENT; 2]));
    let (both_in, _) = ask_parted(&["02 / 04", "02 04"], &[1, 0]);
    let outcome = both_in.unwrap().outcome;
    assert_eq!((&outcome.carried[..], &outcome.remaining[..3]), (&[2][..], &[true, true, false][..]));
}

#[test]
fn a_restart_against_a_stop() {
    assert_eq!(ask_parted(&["02 / 04", "02"], &[0, 0]).0, Err(Reason::Undecided.refusal()));
    assert_eq!(ask_parted(&["02", "02 / 04", "02 04"], &[0, 0]).0, Err(Reason::Undecided.refusal()));
    assert_eq!(ask_parted(&["02 / 04", "02"], &[1, 0]).0.unwrap().outcome.remaining[..2], [true, true]);
    let smaller = ask_parted(&["02 / 04", "02", "00 / 02"], &[0, 0]).0.unwrap().outcome;
    assert_eq!((&smaller.carried[..], &smaller.positions[..3]), (&[0, 2][..], &[6, 6, 0][..]));
}

/// A part's last byte that is not acknowledged is followed by a STOP, not by a restart.
#[test]
fn a_part_that_ends_unacknowledged() {
    let outcome = ask_parted(&["02 / 04"], &[1, 0]).0.unwrap().outcome;
    assert_eq!((&outcome.carried[..], outcome.levels.len()), (&[2][..], levels_for(1, 0)));
    assert_eq!(outcome.levels[20..], [0, 1, 3]);
    let outcome = ask_parted(&["02 / 04"], &[0, 1]).0.unwrap().outcome;
    assert_eq!((outcome.carried.len(), outcome.levels.len()), (2, levels_for(2, 1)));
}

/// Positions count carried bytes, not restarts.
#[test]
fn a_loss_after_a_restart() {
    let outcome = ask_parted(&["02 / 04 / 08 00", "02 / 04 / 08 01"], &[0; 4]).0.unwrap().outcome;
    assert_eq!(outcome.positions[..2], [0, 9 * 3 + 7]);
}

/// 64 parts of one byte each take the most levels, 1,346.
#[test]
fn the_most_levels() {
    let most = Message { parts: vec![vec![0x90]; 64] };
    let mut table = [LENT; MASTERS];
    let outcome = ask_messages(&vec![most; MASTERS], &[0; 64], &mut table).unwrap().outcome;
    assert_eq!((LEVELS, outcome.levels.len()), (1346, 1346));
}

/// What is lent, and the refusal.
type Lent<'a> = (&'a [u8], &'a [u32], &'a [u32], &'a [u8], Refusal);

#[test]
fn refusals_of_parts() {
    let length = |place: usize| Reason::MessageLength.at(place);
    let full = [0x90; 65];
    let cases: [Lent; 14] = [
        (&[], &[], &[], &[], Reason::MasterCount.refusal()),
        (&[2; 17], &[1; 17], &[1; 17], &[0], Reason::MasterCount.refusal()),
        (&[2, 4], &[1, 1], &[1, 0], &[0], length(1)),
        (&[2, 4], &[1, 0, 1], &[1, 2], &[0], length(1)),
        (&[2, 4], &[2, 0], &[2], &[0, 0], length(0)),
        (&[2, 4], &[2], &[1, 1], &[0, 0], length(2)),
        (&[2, 4], &[1, 1], &[1], &[0], length(1)),
        (&[2, 4], &[1, 1], &[u32::MAX], &[0], length(1)),
        (&[2, 4], &[1, u32::MAX, 2], &[1, 2], &[0], length(1)),
        (&full, &[64, 1], &[2], &[0; 65], length(0)),
        (&full, &[64, 1], &[1, 1], &[0; 63], Reason::Acknowledges.refusal()),
        (&[2, 5], &[1, 1], &[2], &[0, 0], Reason::ReadMessage.at(0)),
        (&[2, 4, 2, 5, 1], &[2, 1, 1, 1], &[1, 2, 1], &[], Reason::ReadMessage.at(1)),
        (&[2, 4], &[1, 1], &[2], &[0, 0, 0], Reason::Acknowledges.refusal()),
    ];
    for (bytes, parts, counts, acks, refusal) in cases {
        let mut table = [LENT; 3];
        let refused =
            arbitrate(bytes, parts, counts, acks, &mut [0; MESSAGE_BYTES], &mut [0; LEVELS], &mut table);
        assert_eq!((refused, table), (Err(refusal), [LENT; 3]), "{bytes:X?} {parts:?} {counts:?}");
    }
}

#[test]
fn the_least_of_messages_in_parts() {
    let least = |texts: &[&str]| least(&texts.iter().map(|text| message(text)).collect::<Vec<_>>());
    assert_eq!(least(&["02 04", "02", "02 / 04", "02 / 04"]), (2, 3));
    assert_eq!(least(&["02 / 04 06", "02 / 04 / 06", "02 / 04"]), (1, 2));
    assert_eq!(least(&["02 FF", "02 00 / 00"]), (1, 1));
    let difference = first_difference(&message("02 / 04 / 06"), &message("02 / 04 06")).unwrap();
    assert_eq!((difference.place, difference.is_at_an_ending()), (2, true));
}

/// The runner's answer is the outcome, and each master's writes clear STTIFG and IFG.
fn check_agreement(request: &Request) -> bool {
    let from_steps = run(request);
    let outcome = outcome(request);
    if let Ok((run, _)) = &from_steps {
        assert!(run.cleared[..request.messages.len()].iter().all(|&cleared| cleared == 3), "{request:X?}");
    }
    assert_eq!(from_steps.map(|(run, _)| run.outcome), outcome, "{request:X?}");
    if request.messages.iter().all(|message| message.parts.len() == 1) {
        assert_eq!(outcome, of_one_part_each(request), "{request:X?}");
    }
    outcome.is_ok()
}

/// The rules of before (01's own), for messages of one part: a proper beginning comes before what it begins, and 16
/// is for a least message that is acknowledged throughout and begins another.
fn of_one_part_each(request: &Request) -> Result<Outcome, Refusal> {
    let messages: Vec<Vec<u8>> = request.messages.iter().map(Message::bytes).collect();
    let smallest = messages.iter().min().unwrap();
    let refused_at = (0..smallest.len()).find(|&place| request.acks[place] == 1);
    if refused_at.is_none() && messages.iter().any(|other| other != smallest && other.starts_with(smallest)) {
        return Err(Reason::Undecided.refusal());
    }
    let carried = smallest[..refused_at.map_or(smallest.len(), |place| place + 1)].to_vec();
    let alone = Request {
        messages: vec![Message::of_one_part(&carried)],
        acks: request.acks[..carried.len()].to_vec(),
    };
    let mut expected = outcome(&alone)?;
    expected.remaining = [false; MASTERS];
    for (master, message) in messages.iter().enumerate() {
        let unequal = message.iter().zip(&carried).position(|(own, carried)| own != carried);
        expected.remaining[master] = unequal.is_none();
        expected.arbitration_lost[master] = unequal.is_some();
        expected.positions[master] = unequal
            .map_or(0, |byte| 9 * byte as u16 + (message[byte] ^ carried[byte]).leading_zeros() as u16);
    }
    Ok(expected)
}

#[test]
fn runner_and_outcome_agree() {
    let mut random = Random::new(8);
    let undecided = (0..40_000).filter(|_| !check_agreement(&draw_request(&mut random))).count();
    assert!((2_000..30_000).contains(&undecided), "{undecided}");
}

/// Every message of up to three bytes, each of a few values, in every way of parts.
fn small_messages() -> Vec<Message> {
    let mut messages: Vec<Message> = Vec::new();
    let mut grown = vec![Message::default()];
    for _ in 0..3 {
        let longer = |message: &Message| {
            let mut longer = Vec::new();
            for byte in [0, 2] {
                let mut restarted = message.clone();
                restarted.parts.push(vec![byte]);
                longer.push(restarted);
            }
            for byte in [0, 3] {
                let mut going_on = message.clone();
                if let Some(part) = going_on.parts.last_mut() {
                    part.push(byte);
                    longer.push(going_on);
                }
            }
            longer
        };
        grown = grown.iter().flat_map(longer).collect();
        messages.extend(grown.clone());
    }
    messages
}

#[test]
fn runner_and_outcome_agree_on_all_pairs() {
    let messages = small_messages();
    assert_eq!(messages.len(), 2 + 8 + 32);
    for one in &messages {
        for other in &messages {
            let longest = one.length().max(other.length());
            for bits in 0..1 << longest {
                let acks = (0..longest).map(|place| bits >> place & 1).collect();
                check_agreement(&Request { messages: vec![one.clone(), other.clone()], acks });
            }
        }
    }
}
