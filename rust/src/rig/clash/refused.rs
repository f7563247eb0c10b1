//! What is said of a refused load: which boards, on which lines, and how many.

use super::boards::Boards;
use super::load::{Board, Load};
use super::rehearsal::acknowledges;
use crate::arbitration::outcome::{first_difference, least, Difference, Symbol};
use crate::arbitration::{Message, MASTERS, MESSAGE_BYTES};
use crate::refusal::{Reason, Refusal};
use crate::rig::arguments::Command;
use crate::rig::text::{counted, parted};

/// The words in a block and those in a row, both without the number.
pub struct Words {
    pub block: String,
    pub row: String,
}

pub fn words(load: &Load, boards: &Boards, refusal: Refusal, command: Command) -> Words {
    let senders = load.senders();
    match refusal.reason {
        Reason::MasterCount => no_or_many(boards, senders.len()),
        Reason::MessageLength => length(boards, senders[refusal.place]),
        Reason::ReadMessage => read(boards, senders[refusal.place]),
        Reason::Acknowledges => acks(load, boards, &senders),
        Reason::Undecided if command == Command::Night => undecided(boards, parting(&senders)),
        Reason::Undecided => undecided(boards, parting_from_the_least(load, &senders)),
        Reason::NotAcknowledged => not_acknowledged(load),
        Reason::BoardsDoNotRise => pair("the boards do not rise", "the boards do not rise"),
        Reason::BoardLengths => pair("the lengths do not fit", "the lengths do not fit"),
        _ => pair("the reply needs more room than was lent", "too little room"),
    }
}

fn pair(block: impl Into<String>, row: impl Into<String>) -> Words {
    Words { block: block.into(), row: row.into() }
}

/// A board with the line it stands on.
fn placed(boards: &Boards, board: &Board) -> String {
    format!("{} (line {})", boards.called(board.number), board.line)
}

fn no_or_many(boards: &Boards, count: usize) -> Words {
    match count {
        0 if boards.are_named() => pair("every board is silent", "every board is silent"),
        0 => pair("no board", "no board"),
        _ => pair(
            format!("{count} boards, and at most {MASTERS} may start together"),
            format!("{count} boards"),
        ),
    }
}

fn length(boards: &Boards, (board, message): (&Board, &Message)) -> Words {
    let (placed, called) = (placed(boards, board), boards.called(board.number));
    match message.length() {
        0 => pair(format!("{placed} has no bytes"), format!("{called} has no bytes")),
        many => pair(
            format!("{placed} has {many} bytes, and at most {MESSAGE_BYTES} may be sent"),
            format!("{called} has {many} bytes"),
        ),
    }
}

/// The first part that is a read: the message begins with it or restarts with it.
fn read(boards: &Boards, (board, message): (&Board, &Message)) -> Words {
    let part = message.read().expect("a part that is a read");
    let (placed, first) = (placed(boards, board), message.parts[part][0]);
    let does = if part == 0 { "begins" } else { "restarts" };
    pair(
        format!("{placed} {does} with {first:02X}, which is odd, a read"),
        format!("{} {does} with {first:02X}", boards.called(board.number)),
    )
}

fn acks(load: &Load, boards: &Boards, senders: &[(&Board, &Message)]) -> Words {
    let acks = acknowledges(load);
    let line = load.acks.as_ref().map_or(0, |acks| acks.line);
    let longest = senders.iter().map(|(_, message)| message.length()).max().unwrap_or(0);
    if acks.len() != longest {
        let first = senders.iter().find(|(_, message)| message.length() == longest).expect("the longest");
        let (count, bytes) = (counted(acks.len(), "acknowledge"), counted(longest, "byte"));
        let placed = placed(boards, first.0);
        return pair(
            format!("{count} (line {line}) for the {bytes} of {placed}, the longest"),
            format!("{count} for {longest}"),
        );
    }
    let index = acks.iter().position(|&ack| ack > 1).expect("an acknowledge above 1");
    let value = acks[index];
    pair(
        format!("acknowledge {index} (line {line}) is {value}, neither 0 nor 1"),
        format!("acknowledge {index} is {value}"),
    )
}

/// In a night: the first acknowledge that is 1. A night has no table.
fn not_acknowledged(load: &Load) -> Words {
    let line = load.acks.as_ref().map_or(0, |acks| acks.line);
    let index = acknowledges(load).iter().position(|&ack| ack == 1).expect("an acknowledge that is 1");
    let why = "and in a night every byte is acknowledged";
    pair(format!("acknowledge {index} (line {line}) is 1, {why}"), "")
}

/// Two boards whose messages part at an ending, the one with the smaller message first, and where they do.
type Parting<'a> = ((&'a Board, &'a Message), &'a Board, Difference);

/// In a clash: the first board with the least message, and the first from which that one parts at an ending that the
/// bus comes to.
fn parting_from_the_least<'a>(load: &Load, senders: &[(&'a Board, &'a Message)]) -> Parting<'a> {
    let acks = acknowledges(load);
    let messages: Vec<Message> = senders.iter().map(|(_, message)| (*message).clone()).collect();
    let least = senders[least(&messages).0];
    let parting = parting_of(least, senders, |difference| difference.is_undecided(&acks));
    parting.expect("a message that parts there")
}

/// In a night: the first board that ends or restarts where the message of another is the greater, and the first such.
fn parting<'a>(senders: &[(&'a Board, &'a Message)]) -> Parting<'a> {
    let is_smaller =
        |difference: &Difference| difference.is_at_an_ending() && difference.one < difference.other;
    let parting = senders.iter().find_map(|&sender| parting_of(sender, senders, is_smaller));
    parting.expect("two messages that part at an ending")
}

/// A board and the first other that parts from it so.
fn parting_of<'a>(
    (board, message): (&'a Board, &'a Message),
    senders: &[(&'a Board, &'a Message)],
    so: impl Fn(&Difference) -> bool,
) -> Option<Parting<'a>> {
    senders.iter().find_map(|&(other, others)| {
        let difference = first_difference(message, others).filter(&so)?;
        Some(((board, message), other, difference))
    })
}

/// What each of the two does where their messages part.
fn undecided(boards: &Boards, ((board, message), other, difference): Parting) -> Words {
    let bytes = parted(&message.beginning(difference.place).parts);
    let does = if difference.one == Symbol::Stop { "ends with" } else { "restarts after" };
    let (goes_on, row) = match (difference.one, difference.other) {
        (Symbol::Stop, Symbol::Byte(next)) => {
            (format!("goes on with {next:02X}"), (board.number, "begins", other.number))
        }
        (_, Symbol::Byte(next)) => {
            (format!("goes on with {next:02X}"), (board.number, "restarts in", other.number))
        }
        _ => ("ends".to_string(), (other.number, "begins", board.number)),
    };
    let (placed, other) = (placed(boards, board), placed(boards, other));
    pair(
        format!("{placed} {does} {bytes}, acknowledged, where {other} {goes_on}"),
        format!("{} {} {}", boards.called(row.0), row.1, boards.called(row.2)),
    )
}
