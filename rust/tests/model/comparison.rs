//! The comparison itself: the model behind the C functions is equal to the model, and wrong sides are found.

use rehearsal_model::arbitration::{messages, Message, LEVELS, MASTERS, MESSAGE_BYTES};
use rehearsal_model::bus::frame_open_after;
use rehearsal_model::catalogue::Catalogue;
use rehearsal_model::compare::catalogue::wraps;
use rehearsal_model::compare::{run, Comparison, Counts, COMPARISONS};
use rehearsal_model::module::{SetUp, CKPH, CKPL, GE, PE5, SIXTEEN_BIT};
use rehearsal_model::packed::{read, unpack, Asked, Interface, Lent, Model, Place};
use rehearsal_model::phases::{decode_within, edges, Limits, Mode};
use std::sync::{Mutex, PoisonError};

/// The model with one function that is wrong now and then.
#[derive(Clone, Copy, PartialEq, Debug)]
enum Wrong {
    PowerUp,
    KeptScl,
    RefusalNumber,
    OddWord,
    NeverWaits,
    HighBitsMatter,
    ReadsZero,
    Lines,
    SdoWithSclk,
    PullsInSpi,
    NearlyFits,
    RestForgotten,
    RestsInside,
    FirstBitLate,
    EdgesExchanged,
    EndsExchanged,
    LowByteAlone,
    TouchesUsisrh,
    StartInSpi,
    WaitsForSclk,
    OneBitEarly,
    EventCount,
    EventsRest,
    PendingValue,
    RefusedBuffer,
    LimitRefused,
    LowForHigh,
    FirstPhase,
    LastToLast,
    ShortBefore7,
    InFrames,
    NoPlace,
    LastStamp,
    SdaFirst,
    LeadingZero,
    DumpRest,
    EmptyBefore5,
    EmptyTaken,
    ByteLost,
    PastTheEnd,
    TextPlace,
    TextRest,
    TextLines,
    TextUnit,
    Position,
    Module,
    StillIn,
    LevelsRest,
    RefusedModules,
    FifteenMasters,
    FullTables,
    TableBefore16,
    PoweredUpFirst,
    PastTheMasters,
    SeatsPastTheMasters,
    OldContents,
    LastNotStepped,
    LastOfEquals,
    TwoPasses,
    PartsUnseen,
    RefusedLeast,
    RestartNotDrawn,
    RestartCounted,
    RestartUndecided,
    LevelsOfBytes,
    LaterRead,
    PartsRunOut,
    CountsUnsummed,
    SetsCounted,
    WordsLowByte,
    LosersCleared,
    RoundsFromZero,
    EqualsApart,
    ModuleOfTheLast,
    NightsRest,
    RefusedNight,
    UndecidedFirst,
    LeastAlone,
    NeededAcksAlone,
    StandingFirst,
    EqualBoards,
    WrappingSum,
    EmptyIsAbsent,
    OneByteLate,
    StandingBoardsFirst,
    LengthsNotCounted,
}

/// How many bytes a dump has before its first sample.
const HEADER: usize = 127;

/// The hidden state, and in it the latch with the enable.
const HIDDEN: u64 = 0x7F << 48;
const OUTPUTS: u64 = 3 << 48;
const PHASE: u64 = 1 << 50;

/// The bits `kept` as they were before a step.
fn keep(before: u64, after: u64, kept: u64) -> u64 {
    after & !kept | before & kept
}

/// The sides that are wrong about writes between and inside set-ups.
fn wrong_write(side: Wrong, module: u64, next: u64) -> u64 {
    let (was, is) = (unpack(module).set_up(), unpack(next).set_up());
    match side {
        Wrong::RestForgotten if was != is && is != SetUp::Neither => keep(module, next, HIDDEN),
        Wrong::RestsInside if was == is && is == SetUp::Spi && module >> 15 & 1 != next >> 15 & 1 => {
            next & !HIDDEN | 5 << 48
        }
        _ => next,
    }
}

/// The sides that are wrong about samples in SPI.
fn wrong_sample(side: Wrong, module: u64, level: u8) -> u64 {
    const CKPH_BIT: u64 = 1 << 15;
    const LSB_BIT: u64 = 1 << 4;
    let next = Model.sample(module, level);
    let (before, after) = (unpack(module), unpack(next));
    if side == Wrong::NearlyFits && before.set_up() == SetUp::Neither && !before.is(PE5) {
        return keep(module, Model.sample(module | 1 << 5, level), 1 << 5);
    }
    if before.set_up() != SetUp::Spi || level > 3 {
        return next;
    }
    let captured = after.count() < before.count();
    let edge = before.seen && before.scl != after.scl;
    match side {
        Wrong::EdgesExchanged => Model.sample(module ^ CKPH_BIT, level) ^ CKPH_BIT,
        Wrong::EndsExchanged => Model.sample(module ^ LSB_BIT, level) ^ LSB_BIT,
        Wrong::LowByteAlone => keep(module, next, 0xFF << 40),
        Wrong::TouchesUsisrh if captured && !before.is(SIXTEEN_BIT) => next ^ 1 << 40,
        Wrong::StartInSpi if before.seen && before.scl && before.sda && level == 1 => next | 1 << 9,
        Wrong::OneBitEarly if captured && after.count() == 1 => next | 1 << 8,
        Wrong::FirstBitLate if before.is(CKPH) && !before.is(GE) && !edge => keep(module, next, OUTPUTS),
        _ => next,
    }
}

/// The sides that are wrong about the tables, after the right answer; `before` is what the first entry held.
fn wrong_tables(side: Wrong, masters: usize, reply: u64, before: u64, lent: Lent) -> u64 {
    let Lent { modules, seats, .. } = lent;
    let powered_up = Model.power_up(0, 0);
    match (side, reply & 0xFF) {
        (Wrong::TableBefore16, 16) if modules.len() < masters => return 8,
        (Wrong::PoweredUpFirst, 8) if !modules.is_empty() => modules[0] = powered_up,
        (Wrong::RefusedModules, 14) if !modules.is_empty() => modules[0] = 1,
        (Wrong::PastTheMasters, 0) if modules.len() > masters => modules[masters] = powered_up,
        (Wrong::SeatsPastTheMasters, 0) => seats[masters..].fill(0),
        (Wrong::OldContents, 0) => modules[0] = keep(before, modules[0], 0xFF << 40),
        (Wrong::LastNotStepped, 0) => modules[masters - 1] = powered_up,
        _ => {}
    }
    reply
}

/// The levels as if the first restart were one bit more.
fn undraw(asked: &Asked, count: usize, levels: &mut [u8]) {
    let first = asked.parts.first().map_or(0, |&part| part as usize);
    if asked.counts == [2] && first < count {
        levels[2 + 18 * first] = 0;
    }
}

/// The answer with a level buffer looked at as if no message had a restart.
fn of_bytes(asked: &Asked, lent: Lent) -> u64 {
    let mut levels = [0; LEVELS];
    let Lent { carried, modules, seats, .. } = lent;
    let reply = Model.arbitrate(asked, Lent { carried, levels: &mut levels, modules, seats });
    let needed = 5 + 18 * (reply >> 24 & 0xFFFF) as usize;
    match reply & 0xFF {
        0 if lent.levels.len() < needed => 8,
        0 => {
            let written = lent.levels.len().min(levels.len());
            lent.levels[..written].copy_from_slice(&levels[..written]);
            reply
        }
        _ => reply,
    }
}

/// The sides that are wrong about what is refused.
fn wrong_refusals(side: Wrong, asked: &Asked, reply: u64) -> u64 {
    let sum = |numbers: &[u32]| numbers.iter().map(|&number| u64::from(number)).sum::<u64>();
    let counted = sum(&asked.counts);
    match (side, reply & 0xFF) {
        (Wrong::RestartUndecided, 16) if asked.parts.len() > asked.counts.len() => 0,
        (Wrong::LaterRead, 14) if reply >> 8 == 0 && asked.bytes[0] & 1 == 0 => 15,
        (Wrong::PartsRunOut, 13) if counted > asked.parts.len() as u64 => {
            13 + 256 * asked.counts.len() as u64
        }
        (Wrong::CountsUnsummed, 13) if counted < asked.parts.len() as u64 => 15,
        _ => reply,
    }
}

impl Interface for Wrong {
    fn power_up(&self, usisrl: u8, usisrh: u8) -> u64 {
        Model.power_up(usisrl, if *self == Wrong::PowerUp { 0 } else { usisrh })
    }

    fn write(&self, module: u64, address: u16, value: u8) -> u64 {
        let next = Model.write(module, address, value);
        match self {
            Wrong::SetsCounted => next | (!module >> 8 & next >> 8 & 15) << 60,
            Wrong::HighBitsMatter => next | module & 1 << 55,
            Wrong::RefusalNumber if next >> 55 & 31 == 1 => next ^ 3 << 55,
            _ => wrong_write(*self, module, next),
        }
    }

    fn write_word(&self, module: u64, address: u16, value: u16) -> u64 {
        let address = if *self == Wrong::OddWord && address == 0x07F { 0x07E } else { address };
        let next = Model.write_word(module, address, value);
        next & if *self == Wrong::WordsLowByte { u64::MAX >> 4 } else { u64::MAX }
    }

    fn sample(&self, module: u64, level: u8) -> u64 {
        let next = wrong_sample(*self, module, level);
        next | if *self == Wrong::KeptScl { module & 1 << 52 } else { 0 }
    }

    fn tick(&self, module: u64) -> u64 {
        let next = Model.tick(module);
        let before = unpack(module);
        if *self == Wrong::WaitsForSclk && before.set_up() == SetUp::Spi && before.phase {
            return next | if before.seen && before.scl != before.is(CKPL) { PHASE } else { 0 };
        }
        next & !if *self == Wrong::NeverWaits && module >> 48 & 0x1F == 0x0C { 1 << 50 } else { 0 }
    }

    fn read(&self, module: u64, address: u16) -> u32 {
        Model.read(module, address) & if *self == Wrong::ReadsZero { 0xFF_FF00 } else { u32::MAX }
    }

    fn read_word(&self, module: u64, address: u16) -> u32 {
        Model.read_word(module, address)
    }

    fn lines(&self, module: u64) -> u8 {
        let lines = Model.lines(module) & if *self == Wrong::Lines { 2 } else { 3 };
        let spi = unpack(module).set_up() == SetUp::Spi;
        lines | if *self == Wrong::PullsInSpi && spi && module & OUTPUTS == 2 << 48 { 2 } else { 0 }
    }

    fn spi_lines(&self, module: u64) -> u8 {
        let lines = Model.spi_lines(module);
        lines | if *self == Wrong::SdoWithSclk && lines > 0 { 8 } else { 0 }
    }

    fn decode(&self, stamps: &[u32], levels: &[u8], events: &mut [u16]) -> u64 {
        let reply = Model.decode(stamps, levels, events);
        match self {
            Wrong::EventCount if levels.len() == 4096 => return reply ^ 1 << 24,
            Wrong::EventsRest => events.iter_mut().skip(5).for_each(|event| *event = 0),
            Wrong::RefusedBuffer if reply & 0xFF == 8 => events.iter_mut().for_each(|event| *event = 512),
            Wrong::PendingValue if reply >> 48 & 0xFF == 0 => return reply | 1 << 56,
            _ => {}
        }
        reply
    }

    fn decode_in(&self, mode: Mode, stamps: &[u32], levels: &[u8], events: &mut [u16]) -> u64 {
        let reply = Model.decode_in(mode, stamps, levels, events);
        let Limits { low, high } = mode.limits();
        match self {
            Wrong::LimitRefused => {
                read(decode_within(Limits { low: low + 1, high: high + 1 }, stamps, levels, events))
            }
            Wrong::LowForHigh => read(decode_within(Limits { low: high, high: low }, stamps, levels, events)),
            Wrong::FirstPhase if ![4, 5, 6, 7].contains(&(reply & 0xFF)) => match edges(levels).first() {
                Some(&edge) if stamps[edge] - stamps[0] < high.min(low) => 18 | (edge as u64) << 8,
                _ => reply,
            },
            Wrong::LastToLast if !levels.is_empty() && stamps.len() == levels.len() => {
                let one_late = stamps[..levels.len() - 1].iter().map(|stamp| stamp.saturating_add(1));
                let stamps: Vec<u32> = [stamps[0]].into_iter().chain(one_late).collect();
                Model.decode_in(mode, &stamps, levels, events)
            }
            Wrong::ShortBefore7 if reply & 0xFF == 7 => {
                let before = (reply >> 8 & 0xFFFF) as usize;
                let early = Model.decode_in(mode, &stamps[..before], &levels[..before], &mut []);
                if early & 0xFF == 18 {
                    early
                } else {
                    reply
                }
            }
            Wrong::InFrames
                if reply & 0xFF == 18 && !frame_open_after(levels)[(reply >> 8 & 0xFFFF) as usize] =>
            {
                Model.decode(stamps, levels, events)
            }
            Wrong::NoPlace if reply & 0xFF == 18 => 18,
            _ => reply,
        }
    }

    fn encode(&self, events: &[u16], start: u32, gap: u32, stamps: &mut [u32], levels: &mut [u8]) -> u64 {
        let gap = if *self == Wrong::LastStamp && gap == 1001 { 1000 } else { gap };
        Model.encode(events, start, gap, stamps, levels)
    }

    fn dump(&self, stamps: &[u32], levels: &[u8], out: &mut [u8]) -> u64 {
        let reply = Model.dump(stamps, levels, out);
        let count = (reply >> 24) as usize;
        match self {
            Wrong::SdaFirst => (HEADER..(count + 1).saturating_sub(6)).for_each(|at| {
                if out[at + 1] == b'!' && out[at + 4] == b'"' {
                    out[at..at + 6].rotate_left(3);
                }
            }),
            Wrong::LeadingZero => (HEADER..count.saturating_sub(2)).for_each(|at| {
                if out[at] == b'#' && out[at + 2] != b'\n' {
                    out[at + 1] = b'0';
                }
            }),
            Wrong::DumpRest if count > 0 => out[count..].fill(0),
            Wrong::EmptyBefore5 if levels.is_empty() => return 19,
            Wrong::EmptyTaken if reply == 19 => return Model.dump(&[0], &[3], out),
            _ => {}
        }
        reply
    }

    fn dump_piece(&self, stamps: &[u32], levels: &[u8], from: usize, out: &mut [u8]) -> usize {
        let late = usize::from(*self == Wrong::ByteLost && from > 0);
        let count = Model.dump_piece(stamps, levels, from.saturating_add(late), out);
        count + usize::from(*self == Wrong::PastTheEnd && from > 0 && count == 0 && !out.is_empty())
    }

    fn read_dump(&self, text: &[u8], stamps: &mut [u32], levels: &mut [u8]) -> u64 {
        let reply = Model.read_dump(text, stamps, levels);
        let (number, count) = (reply & 0xFF, (reply >> 24) as usize);
        match self {
            Wrong::TextPlace if (20..26).contains(&number) => reply + 256,
            Wrong::TextRest if number == 0 && count < stamps.len() => {
                stamps[count] = 0;
                reply
            }
            Wrong::TextLines if count > 0 => {
                levels[..count].iter_mut().for_each(|level| *level = *level >> 1 | (*level & 1) << 1);
                reply
            }
            _ => reply,
        }
    }

    fn dump_timescale(&self, text: &[u8]) -> u64 {
        let timescale = Model.dump_timescale(text);
        if *self == Wrong::TextUnit && timescale > 0 {
            return timescale / 1000;
        }
        timescale
    }

    fn arbitrate(&self, asked: &Asked, lent: Lent) -> u64 {
        let masters = asked.counts.len();
        let Lent { carried, levels, modules, seats } = lent;
        match self {
            Wrong::FifteenMasters if masters == MASTERS => return 12,
            Wrong::FullTables if modules.len() < MASTERS => return 8,
            Wrong::LevelsOfBytes => return of_bytes(asked, Lent { carried, levels, modules, seats }),
            _ => {}
        }
        let before = modules.first().copied().unwrap_or_default();
        let lent =
            Lent { carried: &mut *carried, levels: &mut *levels, modules: &mut *modules, seats: &mut *seats };
        let reply = Model.arbitrate(asked, lent);
        let count = (reply >> 24 & 0xFFFF) as usize;
        match self {
            Wrong::Position if count == MESSAGE_BYTES => seats[0] ^= 32,
            Wrong::Module if count > 5 => modules[masters - 1] ^= 1 << 48,
            Wrong::StillIn if masters == MASTERS && count > 0 => seats[MASTERS - 1] ^= 1,
            Wrong::LosersCleared if count > 0 => {
                seats[..masters].iter_mut().filter(|seat| **seat & 1 == 0).for_each(|seat| *seat |= 16)
            }
            Wrong::RestartNotDrawn => undraw(asked, count, levels),
            Wrong::RestartCounted if asked.parts.len() > masters && count > 0 => {
                seats[..masters].iter_mut().filter(|seat| **seat >= 9 * 64).for_each(|seat| *seat += 9 * 32)
            }
            Wrong::LevelsRest if count > 0 => levels.iter_mut().skip(LEVELS + 4).for_each(|level| *level = 0),
            _ => {}
        }
        let reply = wrong_refusals(*self, asked, reply);
        wrong_tables(*self, masters, reply, before, Lent { carried, levels, modules, seats })
    }

    fn least(&self, asked: &Asked) -> (u64, u64) {
        let (index, comparisons) = Model.least(asked);
        let messages = messages(&asked.bytes, &asked.parts, &asked.counts).unwrap_or_default();
        let last = messages.iter().rposition(|message| messages.get(index as usize) == Some(message));
        match self {
            Wrong::LastOfEquals => (last.unwrap_or(0) as u64, comparisons),
            Wrong::TwoPasses => (index, 2 * comparisons),
            Wrong::PartsUnseen => {
                let bytes: Vec<Vec<u8>> = messages.iter().map(Message::bytes).collect();
                let index = (0..bytes.len()).min_by_key(|&index| &bytes[index]).unwrap_or(0);
                (index as u64, comparisons)
            }
            Wrong::RefusedLeast if messages.is_empty() => (0, asked.counts.len().saturating_sub(1) as u64),
            _ => (index, comparisons),
        }
    }

    fn night(&self, asked: &Asked, rounds: &mut [u32], modules: &mut [u64]) -> u64 {
        let masters = asked.counts.len();
        let before = modules.to_vec();
        let reply = Model.night(asked, rounds, modules);
        let refused_later = |later: u64| {
            let (mut rounds, mut modules) = ([0; MASTERS], [0; MASTERS]);
            Model.arbitrate(
                asked,
                Lent {
                    carried: &mut [0; MESSAGE_BYTES],
                    levels: &mut [0; LEVELS],
                    modules: &mut modules,
                    seats: &mut rounds,
                },
            ) & 0xFF
                == later
        };
        match (self, reply & 0xFF) {
            (Wrong::RoundsFromZero, 0) => rounds[..masters].iter_mut().for_each(|round| *round -= 1),
            (Wrong::EqualsApart, 0) if reply >> 24 < masters as u64 => return reply + (1 << 24),
            (Wrong::ModuleOfTheLast, 0) if reply >> 24 > 1 => modules[0] ^= 1 << 8,
            (Wrong::NightsRest, 0) if rounds.len() > masters => rounds[masters] = 0,
            (Wrong::RefusedNight, 8) if !modules.is_empty() => modules[0] = !before[0],
            (Wrong::UndecidedFirst, 43) if refused_later(16) => return 16,
            (Wrong::LeastAlone, 16) if refused_later(0) => return 0,
            (Wrong::NeededAcksAlone, 43) if refused_later(0) => return 8,
            _ => {}
        }
        reply
    }

    fn place(&self, board: u32, corrections: &Catalogue, standing: &Catalogue) -> Place {
        let place = Model.place(board, corrections, standing);
        let swapped = Model.place(board, standing, corrections);
        let falls = |boards: &[u32]| boards.windows(2).any(|pair| pair[1] < pair[0]);
        let uncounted = |one: &Catalogue| one.lengths.len() != one.boards.len();
        match (self, place.number) {
            (Wrong::StandingFirst, 0) => Place { corrected: 1 - swapped.corrected, ..swapped },
            (Wrong::EqualBoards, 40) if !falls(&corrections.boards) && !falls(&standing.boards) => {
                Place { number: 42, ..place }
            }
            (Wrong::WrappingSum, 41) if wraps(corrections) || wraps(standing) => {
                Place { number: 42, ..place }
            }
            (Wrong::LengthsNotCounted, 41) if uncounted(corrections) => Place { number: 42, ..place },
            (Wrong::EmptyIsAbsent, 0) if place.length == 0 => Place { number: 42, corrected: 0, ..place },
            (Wrong::OneByteLate, 0) => Place { offset: place.offset + 1, ..place },
            (Wrong::StandingBoardsFirst, 41) if swapped.number == 40 => swapped,
            _ => place,
        }
    }
}

fn comparison(cases: &str) -> &'static Comparison {
    COMPARISONS.iter().find(|comparison| comparison.cases == cases).unwrap()
}

/// So many cases are counted together.
const BLOCK: u64 = 2_500;

/// What occurred in the first blocks of each comparison: tests that ask for the same cases share them.
static BLOCKS: [Mutex<Vec<Counts>>; COMPARISONS.len()] =
    [const { Mutex::new(Vec::new()) }; COMPARISONS.len()];

/// The model against itself, so many cases from seed 1 on; a number of whole blocks.
fn with_itself(cases: &str, count: u64) -> Counts {
    assert_eq!(count % BLOCK, 0);
    let place = COMPARISONS.iter().position(|comparison| comparison.cases == cases).unwrap();
    let mut blocks = BLOCKS[place].lock().unwrap_or_else(PoisonError::into_inner);
    for block in blocks.len() as u64..count / BLOCK {
        blocks.push(run(&COMPARISONS[place], &Model, 1 + block * BLOCK, BLOCK).unwrap());
    }
    let mut counts = Counts::default();
    blocks[..(count / BLOCK) as usize].iter().for_each(|block| counts.merge(block.clone()));
    counts
}

fn check_detected(cases: &str, wrong: &[Wrong]) {
    let comparison = comparison(cases);
    for side in wrong {
        let (seed, first) =
            run(comparison, side, 1, 20_000).err().unwrap_or_else(|| panic!("{side:?} is not found"));
        let (again, second) = run(comparison, side, seed, 1).err().expect("the seed repeats the difference");
        assert_eq!((again, second.inputs, second.other), (seed, first.inputs, first.other));
    }
}

#[test]
fn the_model_is_equal_to_itself() {
    for comparison in &COMPARISONS {
        let count = comparison.count / 20;
        let counts = with_itself(comparison.cases, count);
        println!("{}compared {count} {}: all equal", counts.lines(), comparison.cases);
    }
}

/// The default counts; meant for the release build.
#[test]
#[ignore]
fn the_model_is_equal_to_itself_in_full() {
    for comparison in &COMPARISONS {
        let begin = std::time::Instant::now();
        let counts = run(comparison, &Model, 1, comparison.count).unwrap();
        let seconds = begin.elapsed().as_secs_f64();
        println!("{}compared {} {}: {seconds:.1} s", counts.lines(), comparison.count, comparison.cases);
    }
}

#[test]
fn every_refusal_occurs() {
    let expected: [(&str, &[usize]); 9] = [
        ("step sequences", &[1, 2, 3, 4, 17]),
        ("traces", &[0, 4, 5, 6, 7, 8]),
        ("timed traces", &[0, 4, 5, 6, 7, 8, 18]),
        ("dumps", &[0, 4, 5, 6, 7, 8, 19]),
        ("dump texts", &[0, 6, 8, 20, 21, 22, 23, 24, 25, 26, 27]),
        ("lists", &[0, 6, 8, 9, 10, 11]),
        ("arbitrations", &[0, 8, 12, 13, 14, 15, 16]),
        ("nights", &[0, 8, 12, 13, 14, 15, 16, 43]),
        ("catalogues", &[0, 40, 41, 42]),
    ];
    for (cases, numbers) in expected {
        let counts = with_itself(cases, 5_000);
        for number in numbers {
            assert!(counts.get(&format!("refused {number}")) >= 5, "{cases}: refusal {number}");
        }
    }
}

/// Every change of set-up, and in SPI every kind of step, for each phase, polarity, direction and width.
#[test]
fn every_kind_of_step_in_spi_occurs() {
    let counts = with_itself("step sequences", 20_000);
    let occurs = |kind: &str| assert!(counts.get(kind) >= 500, "{kind}: {}", counts.get(kind));
    for (from, to) in [("I2C", "SPI"), ("I2C", "neither"), ("SPI", "neither")] {
        occurs(&format!("set-up: {from} to {to}"));
        occurs(&format!("set-up: {to} to {from}"));
    }
    for flags in 0..16 {
        let flag = |place: u8| flags >> place & 1;
        let (ckph, ckpl, lsb, wide) = (flag(0), flag(1), flag(2), flag(3));
        occurs(&format!("SPI: captured, CKPH={ckph} CKPL={ckpl} LSB={lsb} 16B={wide}"));
    }
    let kinds = "captured the last bit|change edge|edge with CNT=0|phase changed|SCLK driven|SDO driven\
        |CKPH, CKPL, LSB or 16B written anew";
    kinds.split('|').for_each(|kind| occurs(&format!("SPI: {kind}")));
}

/// The most masters and bytes, one less and one more; tables shorter and longer than the masters.
#[test]
fn every_limit_of_arbitration_occurs() {
    let counts = with_itself("arbitrations", 20_000);
    let occurs = |kind: &str| assert!(counts.get(kind) >= 20, "{kind}: {}", counts.get(kind));
    for masters in MASTERS - 1..=MASTERS + 1 {
        occurs(&format!("{masters} masters"));
    }
    for (refused, bytes) in [(0, MESSAGE_BYTES - 1), (0, MESSAGE_BYTES), (13, MESSAGE_BYTES + 1)] {
        occurs(&format!("refused {refused} with {bytes} bytes at most"));
    }
    for table in ["modules", "seats"] {
        for length in ["shorter than", "as long as", "longer than"] {
            occurs(&format!("{table} {length} the masters"));
        }
    }
}

/// Restarts on either side of an ending, refused and not; each fault of parts and counts, at each place.
#[test]
fn every_kind_of_parts_occurs() {
    let counts = with_itself("arbitrations", 20_000);
    let occurs = |kind: &str| assert!(counts.get(kind) >= 20, "{kind}: {}", counts.get(kind));
    for number in [0, 16] {
        for kind in ["Restart against Stop", "Restart against Byte", "Stop against Byte"] {
            occurs(&format!("refused {number} with {kind}"));
        }
    }
    let kinds = "the least in one part|the least in some parts|the least in 64 parts|cut where a part ends\
        |cut elsewhere|levels as many as needed|levels one short|refused 13 at the first message\
        |refused 13 at a later message|refused 13 at the number of messages|refused 14 at the first message\
        |refused 14 at a later message|refused 13: a message of no parts|refused 13: a part of no bytes\
        |refused 13: parts that run out|refused 13: parts left over\
        |refused 13: parts that do not sum to the bytes|refused 13: too many bytes";
    kinds.split('|').for_each(occurs);
}

#[test]
fn modules_wrong_in_spi_are_found() {
    use Wrong::*;
    check_detected("step sequences", &[SdoWithSclk, PullsInSpi, NearlyFits, RestForgotten, RestsInside]);
    check_detected("step sequences", &[FirstBitLate, EdgesExchanged, EndsExchanged, LowByteAlone]);
    check_detected("step sequences", &[TouchesUsisrh, StartInSpi, WaitsForSclk, OneBitEarly]);
}

#[test]
fn wrong_modules_are_found() {
    use Wrong::*;
    let wrong = [PowerUp, KeptScl, RefusalNumber, OddWord, NeverWaits, HighBitsMatter, ReadsZero, Lines];
    check_detected("step sequences", &[SetsCounted, WordsLowByte]);
    check_detected("step sequences", &wrong);
}

#[test]
fn wrong_readers_of_dumps_are_found() {
    use Wrong::*;
    check_detected("dump texts", &[TextPlace, TextRest, TextLines, TextUnit]);
}

#[test]
fn wrong_readers_and_writers_are_found() {
    use Wrong::*;
    check_detected("traces", &[EventCount, EventsRest, PendingValue, RefusedBuffer]);
    check_detected(
        "timed traces",
        &[LimitRefused, LowForHigh, FirstPhase, LastToLast, ShortBefore7, InFrames, NoPlace],
    );
    check_detected("lists", &[LastStamp]);
}

#[test]
fn wrong_dumps_are_found() {
    use Wrong::*;
    check_detected(
        "dumps",
        &[SdaFirst, LeadingZero, DumpRest, EmptyBefore5, EmptyTaken, ByteLost, PastTheEnd],
    );
}

#[test]
fn wrong_arbitrations_are_found() {
    use Wrong::*;
    check_detected(
        "arbitrations",
        &[Position, Module, StillIn, LevelsRest, RefusedModules, LastOfEquals, TwoPasses, LosersCleared],
    );
    check_detected("arbitrations", &[FifteenMasters, FullTables, TableBefore16, PoweredUpFirst]);
    check_detected("arbitrations", &[PastTheMasters, SeatsPastTheMasters, OldContents, LastNotStepped]);
    check_detected("arbitrations", &[PartsUnseen, RefusedLeast, RestartNotDrawn, RestartCounted]);
    check_detected(
        "arbitrations",
        &[RestartUndecided, LevelsOfBytes, LaterRead, PartsRunOut, CountsUnsummed],
    );
}

#[test]
fn wrong_nights_are_found() {
    use Wrong::*;
    check_detected("nights", &[RoundsFromZero, EqualsApart, ModuleOfTheLast, NightsRest, RefusedNight]);
    check_detected("nights", &[UndecidedFirst, LeastAlone, NeededAcksAlone]);
}

#[test]
fn wrong_catalogues_are_found() {
    use Wrong::*;
    check_detected("catalogues", &[StandingFirst, EqualBoards, WrappingSum, LengthsNotCounted]);
    check_detected("catalogues", &[EmptyIsAbsent, OneByteLate, StandingBoardsFirst]);
}
