//! The proved library called from Rust. docs/LINKING.md says how to build it; rehearse.txt is what it must print,
//! worked out by hand from the rules.

mod kanaouvel;

use kanaouvel::{arbitrate, decode, encode, levels_drawn, lost_at, registers, Asked};

const BOARDS: usize = 3;

/// Three messages of two bytes each, one after the other; every message is one part.
const MESSAGES: [u8; 2 * BOARDS] = [0x90, 0x12, 0x90, 0x0F, 0xA0, 0x00];
const WITH_A_READ: [u8; 2 * BOARDS] = [0x90, 0x12, 0x90, 0x0F, 0xA1, 0x00];

fn asked<'a>(bytes: &'a [u8], acks: &'a [u8]) -> Asked<'a> {
    Asked { bytes, parts: &[2; BOARDS], counts: &[1; BOARDS], acks }
}

fn words(refusal: u8) -> &'static str {
    match refusal {
        kanaouvel::READ_MESSAGE => "a read",
        kanaouvel::NOT_ACKNOWLEDGED => "not acknowledged",
        _ => "see include/kanaouvel.h",
    }
}

fn say_module(board: usize, module: u64) {
    let [usictl0, usictl1, usickctl, usicnt, usisrl, _] = registers(module);
    println!(
        "  board {board} is left with USICTL0 {usictl0:02X}, USICTL1 {usictl1:02X}, USICKCTL {usickctl:02X}, \
         USICNT {usicnt:02X}, USISRL {usisrl:02X}"
    );
}

fn rehearse(bytes: &[u8]) {
    let (mut carried, mut levels) = ([0; kanaouvel::MAX_BYTES], [0; kanaouvel::MAX_LEVELS]);
    let (mut modules, mut seats) = ([0; BOARDS], [0; BOARDS]);
    let reply = arbitrate(&asked(bytes, &[0, 0]), &mut carried, &mut levels, &mut modules, &mut seats);
    let refusal = reply.refusal();
    if refusal != 0 {
        println!("  refused by {refusal}, {}, at board {}", words(refusal), reply.place());
        return;
    }
    for (board, seat) in seats.into_iter().enumerate() {
        let stands = match lost_at(seat) {
            Some((byte, bit)) => format!("lost at byte {byte}, bit {bit}"),
            None => "won".to_string(),
        };
        println!("  board {board} sends {:02X} {:02X}: {stands}", bytes[2 * board], bytes[2 * board + 1]);
    }
    print!("  the bus carried");
    for byte in &carried[..reply.count()] {
        print!(" {byte:02X}");
    }
    println!(" in {} levels", levels_drawn(reply.count()));
    say_module(0, modules[0]);
    say_module(1, modules[1]);
}

fn event_text(event: u16) -> String {
    match event {
        0..=255 => format!("{event:02X} acknowledged"),
        256..=511 => format!("{:02X} refused", event - 256),
        kanaouvel::START => "START".to_string(),
        kanaouvel::REPEATED_START => "repeated START".to_string(),
        kanaouvel::STOP => "STOP".to_string(),
        _ => "a cut byte".to_string(),
    }
}

fn draw() {
    let list = [kanaouvel::START, 0xA0, kanaouvel::STOP];
    let (mut stamps, mut levels) = ([0; kanaouvel::MAX_SAMPLES], [0; kanaouvel::MAX_SAMPLES]);
    let samples = encode(&list, 0, 50, &mut stamps, &mut levels).expect("the list is complete");
    let drawn: Vec<String> = levels[..samples].iter().map(u8::to_string).collect();
    println!("  levels {}", drawn.join(" "));
    let mut events = [0; 3];
    let reply = decode(&stamps[..samples], &levels[..samples], &mut events);
    let read: Vec<String> = events[..reply.count()].iter().map(|&event| event_text(event)).collect();
    println!("  read back: {}", read.join(", "));
    let reply = decode(&stamps[..9], &levels[..9], &mut events);
    println!(
        "  of the first 9: {}, and {} bits of value {} in a message that is {}",
        event_text(events[0]),
        reply.pending(),
        reply.value(),
        if reply.open() { "open" } else { "closed" }
    );
}

fn night(acks: &[u8]) {
    let (mut rounds, mut modules) = ([0; BOARDS], [0; BOARDS]);
    let reply = kanaouvel::night(&asked(&MESSAGES, acks), &mut rounds, &mut modules);
    let refusal = reply.refusal();
    if refusal != 0 {
        println!("  refused by {refusal}, {}", words(refusal));
        return;
    }
    for (board, round) in rounds.into_iter().enumerate() {
        println!("  board {board} gets through in round {round} of {}", reply.count());
    }
}

fn main() {
    println!("Three boards start together, every byte is acknowledged.");
    rehearse(&MESSAGES);
    println!("Board 2 sends A1 00 instead.");
    rehearse(&WITH_A_READ);
    println!("START, A0 and STOP are drawn.");
    draw();
    println!("Who lost tries again, until all are through.");
    night(&[0, 0]);
    println!("Nobody acknowledges the second byte.");
    night(&[0, 1]);
}
