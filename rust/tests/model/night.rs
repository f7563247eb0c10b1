//! The night: refusals in their order, rounds one after the other, and the rounds against the order of the messages.

use crate::lent::LENT;
use rehearsal_model::arbitration::{Message, Request, MASTERS};
use rehearsal_model::compare::arbitration::draw_request;
use rehearsal_model::module::Module;
use rehearsal_model::night::{check, night, prediction, run};
use rehearsal_model::packed::Asked;
use rehearsal_model::random::Random;
use rehearsal_model::refusal::{Reason, Refusal};

/// What the registers of a message's master read after its own round.
const CARRIED: [u8; 6] = [0xC8, 0x45, 0x22, 0x00, 0xFF, 0x00];

/// What the lent slice of rounds holds before a call.
const ROUND: u32 = 777;

/// A message as it is written: `02 / 04`.
fn message(text: &str) -> Message {
    let byte = |word: &str| u8::from_str_radix(word, 16).expect("a byte");
    let part = |part: &str| part.split_whitespace().map(byte).collect();
    Message { parts: text.split('/').map(part).collect() }
}

fn messages(texts: &[&str]) -> Vec<Message> {
    texts.iter().map(|text| message(text)).collect()
}

/// The reply, and both slices, of so many entries each.
fn ask(
    texts: &[&str],
    acks: &[u8],
    entries: (usize, usize),
) -> (Result<usize, Refusal>, Vec<u32>, Vec<Module>) {
    let Asked { bytes, parts, counts, acks } = Asked::new(&messages(texts), acks.to_vec());
    let (mut rounds, mut table) = (vec![ROUND; entries.0], vec![LENT; entries.1]);
    let reply = night(&bytes, &parts, &counts, &acks, &mut rounds, &mut table);
    (reply, rounds, table)
}

#[test]
fn the_losers_try_again() {
    let texts = ["90 12", "90 0F", "90 12", "50 01 02", "90 0F"];
    let (count, rounds, table) = ask(&texts, &[0, 0, 0], (7, 6));
    assert_eq!((count, &rounds[..]), (Ok(3), &[3, 2, 3, 1, 2, ROUND, ROUND][..]));
    assert!(table[..5].iter().all(|module| module.registers == CARRIED));
    assert_eq!(table[5], LENT);
}

#[test]
fn one_message_and_sixteen() {
    assert_eq!(ask(&["02"], &[0], (1, 1)).0, Ok(1));
    let texts: Vec<String> = (0..16).map(|place| format!("02 / {:02X}", 2 * (place * 7 % 16))).collect();
    let texts: Vec<&str> = texts.iter().map(String::as_str).collect();
    let (count, rounds, _) = ask(&texts, &[0, 0], (16, 16));
    let expected: Vec<u32> = (0..16).map(|place| place * 7 % 16 + 1).collect();
    assert_eq!((count, rounds), (Ok(16), expected));
}

#[test]
fn messages_with_restarts() {
    let (count, rounds, _) = ask(&["02 / 06", "02 / 04", "00 / 02 / 04"], &[0, 0, 0], (3, 3));
    assert_eq!((count, &rounds[..]), (Ok(3), &[3, 2, 1][..]));
}

/// Each refusal with the shortest slices, and before each later one.
#[test]
fn refusals_in_their_order() {
    let seventeen = ["02"; MASTERS + 1];
    let cases: [(&[&str], &[u8], Refusal); 9] = [
        (&[], &[1], Reason::MasterCount.refusal()),
        (&seventeen, &[2], Reason::MasterCount.refusal()),
        (&["02", "", "03"], &[2], Reason::MessageLength.at(1)),
        (&["02", "02 / 05"], &[1], Reason::ReadMessage.at(1)),
        (&["02", "02 04"], &[1], Reason::Acknowledges.refusal()),
        (&["02", "02 04"], &[0, 1], Reason::NotAcknowledged.refusal()),
        (&["02", "02 04"], &[0, 0], Reason::Undecided.refusal()),
        (&["02 / 04", "02 04"], &[0, 0], Reason::Undecided.refusal()),
        (&["02 04", "02 06"], &[0, 0], Reason::ShortBuffer.refusal()),
    ];
    for (texts, acks, refusal) in cases {
        assert_eq!(ask(texts, acks, (0, 0)), (Err(refusal), vec![], vec![]), "{texts:?}");
        assert_eq!(ask(texts, acks, (1, 1)), (Err(refusal), vec![ROUND], vec![LENT]), "{texts:?}");
    }
    for entries in [(1, 2), (2, 1)] {
        let (refused, rounds, table) = ask(&["02 04", "02 06"], &[0, 0], entries);
        assert_eq!(refused, Err(Reason::ShortBuffer.refusal()));
        assert_eq!((rounds, table), (vec![ROUND; entries.0], vec![LENT; entries.1]));
    }
}

/// 16 is for any two messages, though the least differs from both at a byte; 43 also where the first round does not come
/// to that acknowledge.
#[test]
fn what_an_arbitration_alone_would_carry() {
    assert_eq!(ask(&["00", "02", "02 04"], &[0, 0], (3, 3)).0, Err(Reason::Undecided.refusal()));
    assert_eq!(ask(&["00", "02", "02 / 04"], &[0, 0], (3, 3)).0, Err(Reason::Undecided.refusal()));
    assert_eq!(ask(&["00", "02 04"], &[0, 1], (2, 2)).0, Err(Reason::NotAcknowledged.refusal()));
    assert_eq!(ask(&["00", "02 04"], &[0, 0], (2, 2)).0, Ok(2));
}

/// No round of a night that is not refused is refused; its rounds are those that the order of the messages tells, and
/// every module ends alike.
fn check_night(request: &Request) -> bool {
    if check(request).is_err() {
        return false;
    }
    let night = run(request).unwrap();
    assert_eq!((night.count, night.rounds), prediction(&request.messages), "{request:X?}");
    assert!(night.modules.iter().all(|module| module.registers == CARRIED), "{request:X?}");
    true
}

#[test]
fn rounds_and_order_agree() {
    let mut random = Random::new(14);
    let mut nights = 0;
    for _ in 0..30_000 {
        let Request { messages, acks } = draw_request(&mut random);
        nights += usize::from(check_night(&Request { messages, acks: vec![0; acks.len()] }));
    }
    assert!(nights > 5_000, "{nights}");
}

#[test]
fn rounds_and_order_agree_on_small_nights() {
    let texts = ["00", "02", "02 / 00", "02 00", "02 01", "02 / 02", "00 / 02", "02 00 / 02", "02 00 / 04"];
    let all = messages(&texts);
    let mut nights = 0;
    for place in 0..texts.len().pow(4) {
        let index = |digit: u32| place / texts.len().pow(digit) % texts.len();
        let messages: Vec<Message> = (0..4).map(|digit| all[index(digit)].clone()).collect();
        let longest = messages.iter().map(Message::length).max().unwrap();
        nights += usize::from(check_night(&Request { messages, acks: vec![0; longest] }));
    }
    assert!(nights > 200, "{nights}");
}
