//! Damage to a file, and files of random bytes.

use crate::random::Random;
use crate::rig::text::LINE_BYTES;

/// A file, one in four of them damaged in one to three ways.
pub fn some(random: &mut Random, text: fn(&mut Random) -> Vec<u8>) -> Vec<u8> {
    let mut bytes = text(random);
    if random.once_in(4) {
        for _ in 0..random.between(1, 3) {
            one(random, &mut bytes);
        }
    }
    bytes
}

pub fn one(random: &mut Random, bytes: &mut Vec<u8>) {
    let place = random.below(bytes.len() + 1);
    match random.below(16) {
        0..=2 => bytes.truncate(place),
        3..=4 => replace_word(random, bytes),
        5 => insert(bytes, place, &[random.pick(b"\0\x01\x08\x0B\x0C\x1B\x1F\x7F")]),
        6 => insert(bytes, place, &[random.between(0x80, 0xFF) as u8]),
        7 => {
            insert(bytes, place, random.pick(&[&b"\n"[..], b"\r", b"\r\n", b"\n\n", b" ", b"\t", b"#", b":"]))
        }
        8 => *bytes = carriage_returns(bytes),
        9..=10 => long_line(random, bytes, place),
        11 => drop_line(random, bytes),
        12 => double_line(random, bytes),
        13 if place < bytes.len() => bytes[place] = random.byte(),
        14 if place < bytes.len() => drop(bytes.remove(place)),
        15 if random.once_in(4) => bytes.clear(),
        _ => insert(bytes, place, &[random.between(0x20, 0x7E) as u8]),
    }
}

fn insert(bytes: &mut Vec<u8>, place: usize, inserted: &[u8]) {
    bytes.splice(place..place, inserted.iter().copied());
}

/// A word becomes another, a huge number among them.
fn replace_word(random: &mut Random, bytes: &mut Vec<u8>) {
    const WORDS: &str =
        "load board boards ack expect end all - / ok look note: START STOP repeated cut ACK NACK \
        start gap tick 0 1 40 256 65536 4294967295 4294967296 18446744073709551616 0x10 -1 +1 1.5 4/4 \
        $end $var $comment $dumpvars wire x! 1! 0% #5 #4294967296";
    let is_blank = |byte: &u8| b" \t\r\n".contains(byte);
    let from = random.below(bytes.len() + 1);
    let Some(skipped) = bytes[from..].iter().position(|byte| !is_blank(byte)) else { return };
    let first = from + skipped;
    let last = bytes[first..].iter().position(is_blank).map_or(bytes.len(), |length| first + length);
    let words: Vec<&str> = WORDS.split(' ').collect();
    let mut word = random.pick(&words).to_string();
    if random.once_in(8) {
        word = random.pick(&["9", "0", "f", "\u{e9}"]).repeat(random.pick(&[5, 20, 100, 3000]));
    }
    bytes.splice(first..last, word.into_bytes());
}

fn carriage_returns(bytes: &[u8]) -> Vec<u8> {
    bytes.split(|&byte| byte == b'\n').collect::<Vec<_>>().join(&b"\r\n"[..])
}

/// The line at this place becomes about as long as a line may be, or much longer.
fn long_line(random: &mut Random, bytes: &mut Vec<u8>, place: usize) {
    let begin = bytes[..place].iter().rposition(|&byte| byte == b'\n').map_or(0, |newline| newline + 1);
    let end =
        bytes[place..].iter().position(|&byte| byte == b'\n').map_or(bytes.len(), |length| place + length);
    let length = LINE_BYTES + random.pick(&[0, 0, 1, 1, 2, 4096, 4097, 60_000]);
    let mut filling = vec![random.pick(b"   #9x0\r\t\0"); length.saturating_sub(end - begin)];
    if random.once_in(4) && !filling.is_empty() {
        filling[0] = b'#';
    }
    insert(bytes, if random.once_in(4) { begin } else { end }, &filling);
}

/// The lines, each with its newline.
fn lines(bytes: &[u8]) -> Vec<Vec<u8>> {
    bytes.split_inclusive(|&byte| byte == b'\n').map(<[u8]>::to_vec).collect()
}

fn drop_line(random: &mut Random, bytes: &mut Vec<u8>) {
    let mut lines = lines(bytes);
    if !lines.is_empty() {
        lines.remove(random.below(lines.len()));
    }
    *bytes = lines.concat();
}

fn double_line(random: &mut Random, bytes: &mut Vec<u8>) {
    let mut lines = lines(bytes);
    if !lines.is_empty() {
        let line = lines[random.below(lines.len())].clone();
        lines.insert(random.below(lines.len() + 1), line);
    }
    *bytes = lines.concat();
}

/// Random bytes: of all 256, or of a few that make lines, words and numbers.
pub fn bytes(random: &mut Random) -> Vec<u8> {
    let length = match random.below(16) {
        0 => random.below(4),
        1 => random.between(4000, 20_000),
        _ => random.below(400),
    };
    let letters: &[u8] = match random.below(6) {
        0 => b"0123456789 \n",
        1 => b"0123 \t\r\n#abcdefABCDEF:lodk",
        2 => b" \n",
        3 => b"START OPACKNtickloadboardsackendexpect- 0123\n\n\n",
        4 => b"$$$varendcomt #01!\"xz \n",
        _ => &[],
    };
    (0..length).map(|_| if letters.is_empty() { random.byte() } else { random.pick(letters) }).collect()
}
