//! `bench`: arbitrations and the decoding of their drawings, by the library and by the model (02: Ask 13).
//!
//! One process, the same inputs, alternating: a pair is all loads by the library and then by the model. No buffer is
//! cleared between two calls, on either side.

use linked::Archive;
use rehearsal_model::arbitration::{levels_for, Message};
use rehearsal_model::packed::{Asked, Buffers, Interface, Model};
use rehearsal_model::random::Random;
use std::hint::black_box;
use std::time::{Duration, Instant};

/// So many loads, each of so many masters with messages so long.
struct Work {
    masters: usize,
    bytes: usize,
    loads: usize,
    pairs: usize,
}

/// Request 13's own work first, then its growth with masters, bytes and loads.
const WORKS: [Work; 8] = [
    Work { masters: 16, bytes: 64, loads: 40, pairs: 9 },
    Work { masters: 8, bytes: 64, loads: 40, pairs: 9 },
    Work { masters: 16, bytes: 32, loads: 40, pairs: 9 },
    Work { masters: 8, bytes: 32, loads: 40, pairs: 9 },
    Work { masters: 16, bytes: 8, loads: 40, pairs: 9 },
    Work { masters: 8, bytes: 8, loads: 40, pairs: 9 },
    Work { masters: 16, bytes: 64, loads: 400, pairs: 5 },
    Work { masters: 16, bytes: 64, loads: 4000, pairs: 5 },
];

fn main() {
    println!("call      masters bytes loads  library ms    model ms  library/model (least to greatest)");
    for work in &WORKS {
        let mut random = Random::new(1);
        let requests: Vec<Asked> = (0..work.loads).map(|_| late_losers(&mut random, work)).collect();
        let mut lent = buffers(work);
        let mut arbitrates = |side: &dyn Interface| arbitrate_all(side, &requests, &mut lent);
        report("arbitrate", work, &mut arbitrates);
        let drawings = drawings(work, &requests);
        let mut decodes = |side: &dyn Interface| decode_all(side, &drawings);
        report("decode", work, &mut decodes);
    }
}

/// Times the pairs, and prints the middle of each side and of their ratio, with its spread.
fn report(call: &str, work: &Work, run: &mut dyn FnMut(&dyn Interface)) {
    let mut pairs: Vec<(Duration, Duration)> = Vec::new();
    for _ in 0..work.pairs {
        pairs.push((timed(run, &Archive), timed(run, &Model)));
    }
    let mut ratios: Vec<f64> = pairs.iter().map(|(library, model)| ratio(*library, *model)).collect();
    ratios.sort_by(f64::total_cmp);
    let library = middle(pairs.iter().map(|pair| pair.0).collect());
    let model = middle(pairs.iter().map(|pair| pair.1).collect());
    println!(
        "{call:<9} {:>7} {:>5} {:>5} {library:>11.3} {model:>11.3}  {:.2} ({:.2} to {:.2})",
        work.masters,
        work.bytes,
        work.loads,
        ratios[ratios.len() / 2],
        ratios[0],
        ratios[ratios.len() - 1],
    );
}

fn timed(run: &mut dyn FnMut(&dyn Interface), side: &dyn Interface) -> Duration {
    let begin = Instant::now();
    run(side);
    begin.elapsed()
}

fn ratio(library: Duration, model: Duration) -> f64 {
    library.as_secs_f64() / model.as_secs_f64()
}

/// The middle of some times, in milliseconds.
fn middle(mut times: Vec<Duration>) -> f64 {
    times.sort();
    times[times.len() / 2].as_secs_f64() * 1000.0
}

/// Messages with a long shared beginning, so that masters lose late; every byte is acknowledged.
fn late_losers(random: &mut Random, work: &Work) -> Asked {
    let mut shared: Vec<u8> = (0..work.bytes).map(|_| random.byte()).collect();
    shared[0] &= 0xFE;
    let mut messages = Vec::new();
    for master in 0..work.masters {
        let mut message = shared.clone();
        message[work.bytes - 1 - master % 4] ^= 1 << random.below(8);
        messages.push(Message::of_one_part(&message));
    }
    Asked::new(&messages, vec![0; work.bytes])
}

/// Buffers of just the size needed.
fn buffers(work: &Work) -> Buffers {
    Buffers {
        carried: vec![0; work.bytes],
        levels: vec![0; levels_for(work.bytes, 0)],
        modules: vec![0; work.masters],
        seats: vec![0; work.masters],
    }
}

fn arbitrate_all(side: &dyn Interface, requests: &[Asked], lent: &mut Buffers) {
    for request in requests {
        let reply = side.arbitrate(black_box(request), lent.lend());
        assert_eq!(reply & 0xFF, 0, "no request is refused");
        black_box(&lent);
    }
}

/// What the bus shows of each request, with stamps 50 apart.
fn drawings(work: &Work, requests: &[Asked]) -> Vec<(Vec<u32>, Vec<u8>)> {
    let drawn = |request: &Asked| {
        let mut lent = buffers(work);
        assert_eq!(Model.arbitrate(request, lent.lend()) & 0xFF, 0, "no request is refused");
        let stamps = (0..lent.levels.len() as u32).map(|sample| 50 * sample).collect();
        (stamps, lent.levels)
    };
    requests.iter().map(drawn).collect()
}

fn decode_all(side: &dyn Interface, drawings: &[(Vec<u32>, Vec<u8>)]) {
    let mut events = vec![0; 4096];
    for (stamps, levels) in drawings {
        let reply = side.decode(black_box(stamps), black_box(levels), &mut events);
        assert_eq!(reply & 0xFF, 0, "no drawing is refused");
        black_box(&events);
    }
}
