/* The proved library, target/staticlib/libexport.a, for callers in C and in C's ABI. How to make and to link it, and a
 * line on each function, is docs/LINKING.md; examples/link has a program in C and one in Rust.
 *
 * An answer is one number with several fields. Each field has a function below that takes it out, so that no caller
 * shifts bits; the layouts stand beside them. C11 and C++17.
 *
 * No call refuses by a crash, reads past a length or keeps a pointer. A refused call gives the number and place of
 * document 01 and leaves every lent buffer as it was; of a buffer that is filled the rest stays as it was. A length
 * counts elements. A pointer with length 0 is not read. */
#ifndef KANAOUVEL_H
#define KANAOUVEL_H
#include <stddef.h>
#include <stdint.h>
#ifdef __cplusplus
extern "C" {
#endif

/* ---- the limits ---- */

enum {
    KAN_MAX_MASTERS = 16,        /* messages of an arbitration or a night */
    KAN_MAX_BYTES = 64,          /* bytes of a message, of all its parts */
    KAN_MAX_LEVELS = 1346,       /* levels that an arbitration draws: 5 + 18 * 64, and 3 for each of 63 restarts */
    KAN_MAX_SAMPLES = 4096,      /* samples of a trace, read or drawn */
    KAN_MAX_GAP = 1000,          /* from a stamp to the next in a drawing; at least 1 */
    KAN_MAX_DUMP_BYTES = 73855,  /* bytes of a dump that is written */
    KAN_MAX_DUMP_READ = 60000    /* bytes of a dump that is read */
};

/* ---- the numbers of refusals, with their place where they have one (else it is 0) ---- */

enum {
    KAN_DONE = 0,                 /* not refused */
    KAN_NO_REGISTER = 1,          /* address outside 078h to 07Dh */
    KAN_ODD_ADDRESS = 2,          /* word access at an odd address */
    KAN_NO_SET_UP = 3,            /* sample or tick, and the set-up fits neither I2C nor SPI */
    KAN_LEVEL = 4,                /* level byte above 3; of a trace: which sample */
    KAN_UNEQUAL_LENGTHS = 5,      /* stamps and levels differ in number */
    KAN_MANY_SAMPLES = 6,         /* more than 4,096 samples read or needed */
    KAN_STAMP = 7,                /* stamp not above the one before: which sample */
    KAN_SHORT_BUFFER = 8,         /* a lent buffer or table is shorter than the reply needs */
    KAN_INCOMPLETE_LIST = 9,      /* the events are no whole frames */
    KAN_GAP = 10,                 /* gap 0 or above 1,000 */
    KAN_LAST_STAMP = 11,          /* last stamp above 4,294,967,295 */
    KAN_MASTER_COUNT = 12,        /* no message, or more than 16 */
    KAN_MESSAGE_LENGTH = 13,      /* a message or a part of 0 bytes, a message over 64, or sums that do not fit: which
                                   * message, else how many there are */
    KAN_READ_MESSAGE = 14,        /* a part's first byte is odd (a read): which message */
    KAN_ACKNOWLEDGES = 15,        /* not one for each byte of the longest message, or one above 1 */
    KAN_UNDECIDED = 16,           /* the least message and another first differ at an ending of either, with all bytes
                                   * before it acknowledged; in a night any two different messages */
    KAN_NOT_WAITING = 17,         /* tick with DIV=0 while SCL is held low */
    KAN_SHORT_PHASE = 18,         /* a whole phase of SCL too short for the mode: the sample that ends it */
    KAN_NO_SAMPLE = 19,           /* a dump of no sample */
    KAN_DUMP_UNKNOWN = 20,        /* 20 to 25 and 27: of a dump's text, with the byte. An x or z */
    KAN_DUMP_STAMP = 21,          /* a stamp not above the last */
    KAN_DUMP_IDENTIFIER = 22,     /* an identifier that is not declared */
    KAN_DUMP_CUT = 23,            /* the text ends inside a command or a line */
    KAN_DUMP_WIRES = 24,          /* not just two one-bit wires, or no first stamp with a value for each */
    KAN_DUMP_LARGE_STAMP = 25,    /* a stamp above 32 bits */
    KAN_DUMP_LONG = 26,           /* more than 60,000 bytes */
    KAN_DUMP_FORM = 27,           /* a vector or real value, a value before any stamp, or other text */
    KAN_BOARDS_FALL = 40,         /* a list of boards does not rise strictly */
    KAN_BOARD_LENGTHS = 41,       /* lengths that differ in number from the boards, or do not sum to their block */
    KAN_BOARD_ABSENT = 42,        /* a board in neither catalogue */
    KAN_NOT_ACKNOWLEDGED = 43     /* an acknowledge 1 in a night */
};

/* ---- a module ----
 *
 * A module is a number: bits 0 to 47 are its registers in the order of their addresses, bits 48 to 54 its hidden state.
 * A caller keeps the number and passes it on; any number is a module, and its bits from 55 on are not looked at. */

enum { KAN_USICTL0 = 0x78, KAN_USICTL1, KAN_USICKCTL, KAN_USICNT, KAN_USISRL, KAN_USISRH }; /* addresses */

static inline uint8_t kan_module_usictl0(uint64_t module) { return (uint8_t)module; }
static inline uint8_t kan_module_usictl1(uint64_t module) { return (uint8_t)(module >> 8); }
static inline uint8_t kan_module_usickctl(uint64_t module) { return (uint8_t)(module >> 16); }
static inline uint8_t kan_module_usicnt(uint64_t module) { return (uint8_t)(module >> 24); }
static inline uint8_t kan_module_usisrl(uint64_t module) { return (uint8_t)(module >> 32); }
static inline uint8_t kan_module_usisrh(uint64_t module) { return (uint8_t)(module >> 40); }

/* the hidden state, each 0 or 1: output latch; output enable; clock phase (1: high, in SPI idle); whether levels are
 * remembered, and which, SCL and SDA (in SPI SCLK and SDI); whether SCL was pulled low by another and is low still */
static inline uint8_t kan_module_latch(uint64_t module) { return module >> 48 & 1; }
static inline uint8_t kan_module_enable(uint64_t module) { return module >> 49 & 1; }
static inline uint8_t kan_module_phase(uint64_t module) { return module >> 50 & 1; }
static inline uint8_t kan_module_seen(uint64_t module) { return module >> 51 & 1; }
static inline uint8_t kan_module_scl(uint64_t module) { return module >> 52 & 1; }
static inline uint8_t kan_module_sda(uint64_t module) { return module >> 53 & 1; }
static inline uint8_t kan_module_stretch(uint64_t module) { return module >> 54 & 1; }

/* the module after power-up, with these shift bytes */
uint64_t kan_usi_power_up(uint8_t usisrl, uint8_t usisrh);

/* The answer: the module after the step in bits 0 to 54, the refusal's number in bits 55 to 59; of a write the flags of
 * USICTL1 that it cleared in bits 60 to 63. At a refusal the module is as it was. The answer may be passed on as the
 * module that it holds. */
uint64_t kan_usi_write(uint64_t module, uint16_t address, uint8_t value);
uint64_t kan_usi_write_word(uint64_t module, uint16_t address, uint16_t value);
uint64_t kan_usi_sample(uint64_t module, uint8_t level);
uint64_t kan_usi_tick(uint64_t module);

static inline uint64_t kan_step_module(uint64_t answer) { return answer & 0x7FFFFFFFFFFFFF; }
static inline uint8_t kan_step_refusal(uint64_t answer) { return answer >> 55 & 31; }
static inline uint8_t kan_step_cleared(uint64_t answer) { return (uint8_t)(answer >> 60); }

/* the flags cleared, as kan_step_cleared and kan_seat_cleared give them */
enum { KAN_IFG = 1, KAN_STTIFG = 2, KAN_STP = 4, KAN_AL = 8 };

/* a level byte: SCL + 2 * SDA, in SPI SCLK + 2 * SDI */
static inline uint8_t kan_level(int scl, int sda) { return (uint8_t)((scl ? 1 : 0) + (sda ? 2 : 0)); }
static inline uint8_t kan_level_scl(uint8_t level) { return level & 1; }
static inline uint8_t kan_level_sda(uint8_t level) { return level >> 1 & 1; }

/* The answer: the value in bits 0 to 15, the refusal's number from bit 16 on. */
uint32_t kan_usi_read(uint64_t module, uint16_t address);
uint32_t kan_usi_read_word(uint64_t module, uint16_t address);

static inline uint16_t kan_read_value(uint32_t answer) { return (uint16_t)answer; }
static inline uint8_t kan_read_refusal(uint32_t answer) { return (uint8_t)(answer >> 16); }

/* The answer: 1 where the module pulls SCL low, plus 2 where it pulls SDA low; 0 unless the set-up fits I2C. */
uint8_t kan_usi_lines(uint64_t module);

static inline uint8_t kan_lines_scl_low(uint8_t lines) { return lines & 1; }
static inline uint8_t kan_lines_sda_low(uint8_t lines) { return lines >> 1 & 1; }

/* The answer: SCLK in bits 0 and 1, SDO in bits 2 and 3; 0 unless the set-up fits SPI. */
uint8_t kan_usi_spi_lines(uint64_t module);

enum { KAN_RELEASED = 0, KAN_DRIVEN_LOW = 2, KAN_DRIVEN_HIGH = 3 };
static inline uint8_t kan_spi_lines_sclk(uint8_t lines) { return lines & 3; }
static inline uint8_t kan_spi_lines_sdo(uint8_t lines) { return lines >> 2 & 3; }

/* ---- replies: byte 0 is the refusal's number, bytes 1 and 2 its place; what follows is said at each call ---- */

static inline uint8_t kan_refusal(uint64_t reply) { return (uint8_t)reply; }
static inline uint16_t kan_place(uint64_t reply) { return (uint16_t)(reply >> 8); }

/* from byte 3 on, of a dump, an arbitration and a night: how many bytes, samples or rounds */
static inline uint32_t kan_count(uint64_t reply) { return (uint32_t)(reply >> 24); }

/* ---- traces ---- */

/* An event below 512 is a byte, plus 256 where its ninth bit was high (not acknowledged); the others are these. */
enum {
    KAN_START = 512,
    KAN_REPEATED_START = 513,
    KAN_STOP = 514,
    KAN_CUT = 515 /* one to eight bits of a byte, dropped before a START or a STOP */
};
static inline int kan_event_is_byte(uint16_t event) { return event < 512; }
static inline uint8_t kan_event_byte(uint16_t event) { return (uint8_t)event; }
static inline int kan_event_not_acknowledged(uint16_t event) { return event >> 8 == 1; }

/* The events of a trace. The reply: bytes 3 and 4 how many events there are, byte 5 whether a message is open at the
 * end, byte 6 how many bits of a byte are pending, byte 7 their value, the first bit highest. */
uint64_t kan_bus_decode(const uint32_t *stamps, size_t stamps_length, const uint8_t *levels, size_t levels_length,
                        uint16_t *events, size_t events_length);

/* The same with stamps in units of 100 ns for a bus in Standard-mode or in Fast-mode: 18, with the sample that ends it,
 * where a whole phase of SCL is shorter than UM10204 allows (low below 47 or 13, high below 40 or 6). */
uint64_t kan_bus_decode_standard(const uint32_t *stamps, size_t stamps_length, const uint8_t *levels,
                                 size_t levels_length, uint16_t *events, size_t events_length);
uint64_t kan_bus_decode_fast(const uint32_t *stamps, size_t stamps_length, const uint8_t *levels, size_t levels_length,
                             uint16_t *events, size_t events_length);

static inline uint16_t kan_decode_count(uint64_t reply) { return (uint16_t)(reply >> 24); }
static inline uint8_t kan_decode_open(uint64_t reply) { return (uint8_t)(reply >> 40); }
static inline uint8_t kan_decode_pending(uint64_t reply) { return (uint8_t)(reply >> 48); }
static inline uint8_t kan_decode_value(uint64_t reply) { return (uint8_t)(reply >> 56); }

/* The trace of an event list. The answer: byte 0 the refusal's number (kan_refusal), and there is no place: from byte 1
 * on how many samples there are. */
uint64_t kan_bus_encode(const uint16_t *events, size_t events_length, uint32_t start, uint32_t gap, uint32_t *stamps,
                        size_t stamps_length, uint8_t *levels, size_t levels_length);

static inline uint32_t kan_encode_count(uint64_t answer) { return (uint32_t)(answer >> 8); }

/* A trace as a Value Change Dump (IEEE 1364) of one text with lines closed by 0Ah. The reply's count: the bytes of the
 * text. Refused in the order 5, 6, 4, 7, 19, 8. */
uint64_t kan_bus_dump(const uint32_t *stamps, size_t stamps_length, const uint8_t *levels, size_t levels_length,
                      uint8_t *out, size_t out_length);

/* The same text from byte `from` on, as much of it as there is room for, of as many samples as there are both stamps
 * and levels; nothing is refused. The answer: how many bytes were put, 0 at the text's end or past it. */
size_t kan_bus_dump_piece(const uint32_t *stamps, size_t stamps_length, const uint8_t *levels, size_t levels_length,
                          size_t from, uint8_t *out, size_t out_length);

/* A Value Change Dump of two one-bit wires, SCL declared first, read as a trace. The reply's count: the samples.
 * Refused by 26, then 20 to 25 and 27 at the earliest byte, 6, 8. Stamps are not rescaled: the second call gives their
 * unit in femtoseconds, 0 where the text says none or is refused. */
uint64_t kan_bus_read_dump(const uint8_t *text, size_t text_length, uint32_t *stamps, size_t stamps_length,
                           uint8_t *levels, size_t levels_length);
uint64_t kan_bus_dump_timescale(const uint8_t *text, size_t text_length);

/* ---- arbitration ---- */

/* Masters that start together, with messages that lie in bytes one after the other. A message is one or more parts of
 * one or more bytes: each part but the last ends in a repeated START. parts has the length of every part, message after
 * message, counts how many parts each message has; there is one acknowledge for each byte of the longest message, 0
 * where it is acknowledged. The reply's count: k, how many bytes were carried. These bytes and the levels
 * (kan_levels_drawn) go to two buffers, whose rest stays.
 * The last two are tables of the caller's own, of any length. Their first entries, one for each message, are
 * overwritten, and what they held is not read; every entry past them stays as it was. An entry of modules is the final
 * module of its master, with bits 55 to 63 at 0. An entry of seats: bit 0 is 1 where the master is still in, bits 1 to
 * 4 are the flags that its writes cleared, from bit 5 on stands the position where it lost, 9 * byte + bit, both from
 * 0, the most significant bit being 0; the position is 0 where it is still in. Refused in the order 12, 13, 14, 15, 16,
 * 8. */
uint64_t kan_arbitrate(const uint8_t *bytes, size_t bytes_length, const uint32_t *parts, size_t parts_length,
                       const uint32_t *counts, size_t counts_length, const uint8_t *acks, size_t acks_length,
                       uint8_t *carried, size_t carried_length, uint8_t *levels, size_t levels_length,
                       uint64_t *modules, size_t modules_length, uint32_t *seats, size_t seats_length);

/* how many levels k bytes take with so many restarts between two of them */
static inline size_t kan_levels_drawn(size_t count, size_t restarts) { return 5 + 18 * count + 3 * restarts; }

static inline uint8_t kan_seat_in(uint32_t seat) { return seat & 1; }
static inline uint8_t kan_seat_cleared(uint32_t seat) { return seat >> 1 & 15; }
static inline uint32_t kan_seat_position(uint32_t seat) { return seat >> 5; }
static inline uint32_t kan_seat_byte(uint32_t seat) { return kan_seat_position(seat) / 9; }
static inline uint32_t kan_seat_bit(uint32_t seat) { return kan_seat_position(seat) % 9; }

/* Which of such messages is least (a restart is smaller than a STOP, and both than any byte), the first of equal ones,
 * and how many comparisons of two messages find it: one for each message but the first. Where 12 or 13 applies both are
 * 0. */
uint64_t kan_least_message(const uint8_t *bytes, size_t bytes_length, const uint32_t *parts, size_t parts_length,
                           const uint32_t *counts, size_t counts_length);
uint64_t kan_least_comparisons(const uint8_t *bytes, size_t bytes_length, const uint32_t *parts, size_t parts_length,
                               const uint32_t *counts, size_t counts_length);

/* A night of such messages: the losers try again. Each round is an arbitration of all messages not yet carried, from
 * power-up, until none is left. The reply's count: how many rounds there were. An entry of rounds is the round that
 * carried its message, from 1, one of modules the module of its master as that round left it, with bits 55 to 63 at 0;
 * entries past the messages stay as they were. Refused in this order, before any round: 12, 13, 14, 15; 43; 16, two
 * different messages that first differ at an ending of either; 8, rounds or modules shorter than the number of
 * messages. */
uint64_t kan_night(const uint8_t *bytes, size_t bytes_length, const uint32_t *parts, size_t parts_length,
                   const uint32_t *counts, size_t counts_length, const uint8_t *acks, size_t acks_length,
                   uint32_t *rounds, size_t rounds_length, uint64_t *modules, size_t modules_length);

/* ---- catalogues ---- */

/* A board's message among tonight's corrections and the standing catalogue: each a block in which the messages lie one
 * after the other, with a rising list of boards and a list of lengths. The number: 0 where the board is found, else 40,
 * 41 of the corrections, 40, 41 of the standing catalogue, 42, in this order. The message is a part of the caller's own
 * bytes: of the corrections where `corrected` is 1, else of the standing block, `length` bytes from `offset` on (no
 * bytes are a message too). At a refusal all three are 0. */
uint8_t kan_catalogue_number(uint32_t board, const uint8_t *corrections, size_t corrections_length,
                             const uint32_t *correction_boards, size_t correction_boards_length,
                             const uint32_t *correction_lengths, size_t correction_lengths_length,
                             const uint8_t *standing, size_t standing_length, const uint32_t *standing_boards,
                             size_t standing_boards_length, const uint32_t *standing_lengths,
                             size_t standing_lengths_length);
uint8_t kan_catalogue_corrected(uint32_t board, const uint8_t *corrections, size_t corrections_length,
                                const uint32_t *correction_boards, size_t correction_boards_length,
                                const uint32_t *correction_lengths, size_t correction_lengths_length,
                                const uint8_t *standing, size_t standing_length, const uint32_t *standing_boards,
                                size_t standing_boards_length, const uint32_t *standing_lengths,
                                size_t standing_lengths_length);
uint64_t kan_catalogue_offset(uint32_t board, const uint8_t *corrections, size_t corrections_length,
                              const uint32_t *correction_boards, size_t correction_boards_length,
                              const uint32_t *correction_lengths, size_t correction_lengths_length,
                              const uint8_t *standing, size_t standing_length, const uint32_t *standing_boards,
                              size_t standing_boards_length, const uint32_t *standing_lengths,
                              size_t standing_lengths_length);
uint32_t kan_catalogue_length(uint32_t board, const uint8_t *corrections, size_t corrections_length,
                              const uint32_t *correction_boards, size_t correction_boards_length,
                              const uint32_t *correction_lengths, size_t correction_lengths_length,
                              const uint8_t *standing, size_t standing_length, const uint32_t *standing_boards,
                              size_t standing_boards_length, const uint32_t *standing_lengths,
                              size_t standing_lengths_length);

#ifdef __cplusplus
}
#endif
#endif
