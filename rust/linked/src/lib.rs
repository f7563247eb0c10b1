//! The C functions of the proved library's archive, each with a safe wrapper; and the same on guarded memory.

use rehearsal_model::catalogue::Catalogue;
use rehearsal_model::packed::{Asked, Interface, Lent, Place};
use rehearsal_model::phases::Mode;
use std::fmt::Debug;

extern "C" {
    fn kan_usi_power_up(usisrl: u8, usisrh: u8) -> u64;
    fn kan_usi_write(module: u64, address: u16, value: u8) -> u64;
    fn kan_usi_write_word(module: u64, address: u16, value: u16) -> u64;
    fn kan_usi_sample(module: u64, level: u8) -> u64;
    fn kan_usi_tick(module: u64) -> u64;
    fn kan_usi_read(module: u64, address: u16) -> u32;
    fn kan_usi_read_word(module: u64, address: u16) -> u32;
    fn kan_usi_lines(module: u64) -> u8;
    fn kan_usi_spi_lines(module: u64) -> u8;
    fn kan_bus_decode(
        stamps: *const u32,
        stamps_len: usize,
        levels: *const u8,
        levels_len: usize,
        events: *mut u16,
        events_len: usize,
    ) -> u64;
    fn kan_bus_decode_standard(
        stamps: *const u32,
        stamps_len: usize,
        levels: *const u8,
        levels_len: usize,
        events: *mut u16,
        events_len: usize,
    ) -> u64;
    fn kan_bus_decode_fast(
        stamps: *const u32,
        stamps_len: usize,
        levels: *const u8,
        levels_len: usize,
        events: *mut u16,
        events_len: usize,
    ) -> u64;
    fn kan_bus_encode(
        events: *const u16,
        events_len: usize,
        start: u32,
        gap: u32,
        stamps: *mut u32,
        stamps_len: usize,
        levels: *mut u8,
        levels_len: usize,
    ) -> u64;
    fn kan_bus_dump(
        stamps: *const u32,
        stamps_len: usize,
        levels: *const u8,
        levels_len: usize,
        out: *mut u8,
        out_len: usize,
    ) -> u64;
    fn kan_bus_dump_piece(
        stamps: *const u32,
        stamps_len: usize,
        levels: *const u8,
        levels_len: usize,
        from: usize,
        out: *mut u8,
        out_len: usize,
    ) -> usize;
    fn kan_bus_read_dump(
        text: *const u8,
        text_len: usize,
        stamps: *mut u32,
        stamps_len: usize,
        levels: *mut u8,
        levels_len: usize,
    ) -> u64;
    fn kan_bus_dump_timescale(text: *const u8, text_len: usize) -> u64;
    fn kan_arbitrate(
        bytes: *const u8,
        bytes_len: usize,
        parts: *const u32,
        parts_len: usize,
        counts: *const u32,
        counts_len: usize,
        acks: *const u8,
        acks_len: usize,
        carried: *mut u8,
        carried_len: usize,
        levels: *mut u8,
        levels_len: usize,
        modules: *mut u64,
        modules_len: usize,
        seats: *mut u32,
        seats_len: usize,
    ) -> u64;
    fn kan_least_message(
        bytes: *const u8,
        bytes_len: usize,
        parts: *const u32,
        parts_len: usize,
        counts: *const u32,
        counts_len: usize,
    ) -> u64;
    fn kan_least_comparisons(
        bytes: *const u8,
        bytes_len: usize,
        parts: *const u32,
        parts_len: usize,
        counts: *const u32,
        counts_len: usize,
    ) -> u64;
    fn kan_night(
        bytes: *const u8,
        bytes_len: usize,
        parts: *const u32,
        parts_len: usize,
        counts: *const u32,
        counts_len: usize,
        acks: *const u8,
        acks_len: usize,
        rounds: *mut u32,
        rounds_len: usize,
        modules: *mut u64,
        modules_len: usize,
    ) -> u64;
}

/// A function over a board and two catalogues: block, boards and lengths of each.
macro_rules! of_catalogues {
    ($($name:ident -> $answer:ty;)*) => {
        extern "C" {
            $(fn $name(
                board: u32,
                corrections: *const u8,
                corrections_len: usize,
                correction_boards: *const u32,
                correction_boards_len: usize,
                correction_lengths: *const u32,
                correction_lengths_len: usize,
                standing: *const u8,
                standing_len: usize,
                standing_boards: *const u32,
                standing_boards_len: usize,
                standing_lengths: *const u32,
                standing_lengths_len: usize,
            ) -> $answer;)*
        }
    };
}

of_catalogues! {
    kan_catalogue_number -> u8;
    kan_catalogue_corrected -> u8;
    kan_catalogue_offset -> u64;
    kan_catalogue_length -> u32;
}

/// Calls a C function: a number or none, what is read, numbers, what is lent. A slice goes as a pointer and a length;
/// it outlives the call, and the functions keep no pointer.
macro_rules! call {
    ($name:ident, $($first:ident;)? [$($read:expr),*], [$($number:expr),*], [$($lent:expr),*]) => {
        unsafe {
            $name($($first,)? $($read.as_ptr(), $read.len(),)* $($number,)* $($lent.as_mut_ptr(), $lent.len(),)*)
        }
    };
}

/// The proved library.
pub struct Archive;

impl Interface for Archive {
    fn power_up(&self, usisrl: u8, usisrh: u8) -> u64 {
        unsafe { kan_usi_power_up(usisrl, usisrh) }
    }

    fn write(&self, module: u64, address: u16, value: u8) -> u64 {
        unsafe { kan_usi_write(module, address, value) }
    }

    fn write_word(&self, module: u64, address: u16, value: u16) -> u64 {
        unsafe { kan_usi_write_word(module, address, value) }
    }

    fn sample(&self, module: u64, level: u8) -> u64 {
        unsafe { kan_usi_sample(module, level) }
    }

    fn tick(&self, module: u64) -> u64 {
        unsafe { kan_usi_tick(module) }
    }

    fn read(&self, module: u64, address: u16) -> u32 {
        unsafe { kan_usi_read(module, address) }
    }

    fn read_word(&self, module: u64, address: u16) -> u32 {
        unsafe { kan_usi_read_word(module, address) }
    }

    fn lines(&self, module: u64) -> u8 {
        unsafe { kan_usi_lines(module) }
    }

    fn spi_lines(&self, module: u64) -> u8 {
        unsafe { kan_usi_spi_lines(module) }
    }

    fn decode(&self, stamps: &[u32], levels: &[u8], events: &mut [u16]) -> u64 {
        self.decode_in(Mode::Unchecked, stamps, levels, events)
    }

    fn decode_in(&self, mode: Mode, stamps: &[u32], levels: &[u8], events: &mut [u16]) -> u64 {
        let decode = match mode {
            Mode::Unchecked => kan_bus_decode,
            Mode::Standard => kan_bus_decode_standard,
            Mode::Fast => kan_bus_decode_fast,
        };
        call!(decode, [stamps, levels], [], [events])
    }

    fn encode(&self, events: &[u16], start: u32, gap: u32, stamps: &mut [u32], levels: &mut [u8]) -> u64 {
        call!(kan_bus_encode, [events], [start, gap], [stamps, levels])
    }

    fn dump(&self, stamps: &[u32], levels: &[u8], out: &mut [u8]) -> u64 {
        call!(kan_bus_dump, [stamps, levels], [], [out])
    }

    fn dump_piece(&self, stamps: &[u32], levels: &[u8], from: usize, out: &mut [u8]) -> usize {
        call!(kan_bus_dump_piece, [stamps, levels], [from], [out])
    }

    fn read_dump(&self, text: &[u8], stamps: &mut [u32], levels: &mut [u8]) -> u64 {
        call!(kan_bus_read_dump, [text], [], [stamps, levels])
    }

    fn dump_timescale(&self, text: &[u8]) -> u64 {
        call!(kan_bus_dump_timescale, [text], [], [])
    }

    fn arbitrate(&self, asked: &Asked, lent: Lent) -> u64 {
        let Asked { bytes, parts, counts, acks } = asked;
        let Lent { carried, levels, modules, seats } = lent;
        call!(kan_arbitrate, [bytes, parts, counts, acks], [], [carried, levels, modules, seats])
    }

    fn least(&self, asked: &Asked) -> (u64, u64) {
        let Asked { bytes, parts, counts, .. } = asked;
        (
            call!(kan_least_message, [bytes, parts, counts], [], []),
            call!(kan_least_comparisons, [bytes, parts, counts], [], []),
        )
    }

    fn night(&self, asked: &Asked, rounds: &mut [u32], modules: &mut [u64]) -> u64 {
        let Asked { bytes, parts, counts, acks } = asked;
        call!(kan_night, [bytes, parts, counts, acks], [], [rounds, modules])
    }

    fn place(&self, board: u32, corrections: &Catalogue, standing: &Catalogue) -> Place {
        macro_rules! ask {
            ($name:ident) => {
                call!(
                    $name,
                    board;
                    [
                        corrections.block,
                        corrections.boards,
                        corrections.lengths,
                        standing.block,
                        standing.boards,
                        standing.lengths
                    ],
                    [],
                    []
                )
            };
        }
        Place {
            number: ask!(kan_catalogue_number),
            corrected: ask!(kan_catalogue_corrected),
            offset: ask!(kan_catalogue_offset),
            length: ask!(kan_catalogue_length),
        }
    }
}

/// The proved library, which is lent every buffer between guards; a call that writes one panics.
pub struct Guarded;

/// How many elements stand before and behind a buffer.
const GUARDS: usize = 32;

/// Copies a buffer between guards, lends it to `call`, looks at the guards and copies it back.
fn guarded<T: Copy + PartialEq + Debug, Answer>(
    buffer: &mut [T],
    guard: T,
    call: impl FnOnce(&mut [T]) -> Answer,
) -> Answer {
    let mut memory = vec![guard; buffer.len() + 2 * GUARDS];
    let inside = GUARDS..GUARDS + buffer.len();
    memory[inside.clone()].copy_from_slice(buffer);
    let answer = call(&mut memory[inside.clone()]);
    assert_eq!(memory[..inside.start], [guard; GUARDS], "written before a buffer");
    assert_eq!(memory[inside.end..], [guard; GUARDS], "written behind a buffer");
    buffer.copy_from_slice(&memory[inside]);
    answer
}

impl Interface for Guarded {
    fn power_up(&self, usisrl: u8, usisrh: u8) -> u64 {
        Archive.power_up(usisrl, usisrh)
    }

    fn write(&self, module: u64, address: u16, value: u8) -> u64 {
        Archive.write(module, address, value)
    }

    fn write_word(&self, module: u64, address: u16, value: u16) -> u64 {
        Archive.write_word(module, address, value)
    }

    fn sample(&self, module: u64, level: u8) -> u64 {
        Archive.sample(module, level)
    }

    fn tick(&self, module: u64) -> u64 {
        Archive.tick(module)
    }

    fn read(&self, module: u64, address: u16) -> u32 {
        Archive.read(module, address)
    }

    fn read_word(&self, module: u64, address: u16) -> u32 {
        Archive.read_word(module, address)
    }

    fn lines(&self, module: u64) -> u8 {
        Archive.lines(module)
    }

    fn spi_lines(&self, module: u64) -> u8 {
        Archive.spi_lines(module)
    }

    fn decode(&self, stamps: &[u32], levels: &[u8], events: &mut [u16]) -> u64 {
        guarded(events, 0xA5A5, |events| Archive.decode(stamps, levels, events))
    }

    fn decode_in(&self, mode: Mode, stamps: &[u32], levels: &[u8], events: &mut [u16]) -> u64 {
        guarded(events, 0xA5A5, |events| Archive.decode_in(mode, stamps, levels, events))
    }

    fn encode(&self, events: &[u16], start: u32, gap: u32, stamps: &mut [u32], levels: &mut [u8]) -> u64 {
        guarded(stamps, 0xA5A5_A5A5, |stamps| {
            guarded(levels, 0xA5, |levels| Archive.encode(events, start, gap, stamps, levels))
        })
    }

    fn dump(&self, stamps: &[u32], levels: &[u8], out: &mut [u8]) -> u64 {
        guarded(out, 0xA5, |out| Archive.dump(stamps, levels, out))
    }

    fn dump_piece(&self, stamps: &[u32], levels: &[u8], from: usize, out: &mut [u8]) -> usize {
        guarded(out, 0xA5, |out| Archive.dump_piece(stamps, levels, from, out))
    }

    fn read_dump(&self, text: &[u8], stamps: &mut [u32], levels: &mut [u8]) -> u64 {
        guarded(stamps, 0xA5A5_A5A5, |stamps| {
            guarded(levels, 0x5A, |levels| Archive.read_dump(text, stamps, levels))
        })
    }

    fn dump_timescale(&self, text: &[u8]) -> u64 {
        Archive.dump_timescale(text)
    }

    fn arbitrate(&self, asked: &Asked, lent: Lent) -> u64 {
        let Lent { carried, levels, modules, seats } = lent;
        guarded(carried, 0xA5, |carried| {
            guarded(levels, 0x5A, |levels| {
                guarded(modules, 0xA5A5_A5A5_A5A5_A5A5, |modules| {
                    guarded(seats, 0x5A5A_5A5A, |seats| {
                        Archive.arbitrate(asked, Lent { carried, levels, modules, seats })
                    })
                })
            })
        })
    }

    fn least(&self, asked: &Asked) -> (u64, u64) {
        Archive.least(asked)
    }

    fn night(&self, asked: &Asked, rounds: &mut [u32], modules: &mut [u64]) -> u64 {
        guarded(rounds, 0x5A5A_5A5A, |rounds| {
            guarded(modules, 0xA5A5_A5A5_A5A5_A5A5, |modules| Archive.night(asked, rounds, modules))
        })
    }

    fn place(&self, board: u32, corrections: &Catalogue, standing: &Catalogue) -> Place {
        Archive.place(board, corrections, standing)
    }
}
