/* Every function of include/kanaouvel.h that takes a field out of an answer, and every name that it gives a number, on
 * answers of the proved library. What each must be is worked out by hand from document 01: its worked numbers P1 to
 * P12, its rules, and 02's requests where they are named. C11 and C++17. */
#include "../include/kanaouvel.h"
#include <stdio.h>

static int checks, failures;

static void check(int holds, const char *what)
{
    checks++;
    if (!holds) {
        failures++;
        printf("fields: FAILED: %s\n", what);
    }
}

static void registers(uint64_t module, int usictl0, int usictl1, int usickctl, int usicnt, int usisrl, int usisrh,
                      const char *what)
{
    check(kan_module_usictl0(module) == usictl0 && kan_module_usictl1(module) == usictl1, what);
    check(kan_module_usickctl(module) == usickctl && kan_module_usicnt(module) == usicnt, what);
    check(kan_module_usisrl(module) == usisrl && kan_module_usisrh(module) == usisrh, what);
}

static void output(uint64_t module, int latch, int enable, int phase, const char *what)
{
    check(kan_module_latch(module) == latch && kan_module_enable(module) == enable, what);
    check(kan_module_phase(module) == phase, what);
}

static void remembers(uint64_t module, int seen, int scl, int sda, int stretch, const char *what)
{
    check(kan_module_seen(module) == seen && kan_module_scl(module) == scl, what);
    check(kan_module_sda(module) == sda && kan_module_stretch(module) == stretch, what);
}

/* set up for I2C with this divider and this USICTL0, USISRL=0 */
static uint64_t fitted(uint8_t usickctl, uint8_t usictl0)
{
    uint64_t u = kan_usi_write(kan_usi_power_up(0, 0), KAN_USICKCTL, usickctl);
    return kan_step_module(kan_usi_write(kan_usi_write(u, KAN_USICTL1, 0x41), KAN_USICTL0, usictl0));
}

/* the table of registers, and the hidden state at rest: latch 1, enable 0, half high, no levels, not caught */
static void power_up(void)
{
    uint64_t u = kan_usi_power_up(0x12, 0x34);
    registers(u, 0x01, 0x01, 0x00, 0x00, 0x12, 0x34, "power-up");
    output(u, 1, 0, 1, "power-up: at rest");
    remembers(u, 0, 0, 0, 0, "power-up: no levels");
    check(kan_read_value(kan_usi_read(u, KAN_USISRH)) == 0x34, "a byte read");
    check(kan_read_value(kan_usi_read_word(u, KAN_USISRL)) == 0x3412, "a word read");
    check(kan_read_refusal(kan_usi_read(u, KAN_USISRL)) == KAN_DONE, "a read that is done");
    check(kan_read_refusal(kan_usi_read(u, 0x77)) == KAN_NO_REGISTER, "1 of a read");
    check(kan_read_refusal(kan_usi_read_word(u, KAN_USICTL1)) == KAN_ODD_ADDRESS, "2 of a read");
    check(kan_read_value(kan_usi_read(u, 0x77)) == 0, "no value at a refusal");
}

static void refused_steps(void)
{
    uint64_t u = kan_usi_power_up(0, 0), answer = kan_usi_write_word(u, 0x81, 0xFFFF);
    check(kan_step_refusal(answer) == KAN_ODD_ADDRESS, "2 before 1");
    check(kan_step_module(answer) == u && kan_step_cleared(answer) == 0, "a refused write changes nothing");
    check(kan_step_refusal(kan_usi_write(u, 0x7E, 0)) == KAN_NO_REGISTER, "1 of a write");
    check(kan_step_refusal(kan_usi_tick(u)) == KAN_NO_SET_UP, "3 of a tick");
    check(kan_step_refusal(kan_usi_sample(u, 4)) == KAN_LEVEL, "4 before 3");
    check(kan_step_module(kan_usi_sample(u, 3)) == u, "a refused sample changes nothing");
}

/* 02, request 12; P1: a count above 0 clears IFG */
static void cleared_flags(void)
{
    uint64_t u = kan_usi_power_up(0, 0);
    check(kan_step_cleared(kan_usi_write(u, KAN_USICNT, 0x08)) == KAN_IFG, "P1 clears IFG");
    check(kan_step_cleared(kan_usi_write(u, KAN_USICNT, 0x28)) == 0, "P2 clears nothing");
    u = kan_usi_write(u, KAN_USICTL1, 0x0F);
    check(kan_step_cleared(kan_usi_write(u, KAN_USICNT, 0x08)) == (KAN_IFG | KAN_STP), "a count clears IFG and STP");
    check(kan_step_cleared(kan_usi_write(u, KAN_USICTL1, 0x07)) == KAN_AL, "AL");
    check(kan_step_cleared(kan_usi_write(u, KAN_USICTL1, 0x0B)) == KAN_STP, "STP");
    check(kan_step_cleared(kan_usi_write(u, KAN_USICTL1, 0x0D)) == KAN_STTIFG, "STTIFG");
    check(kan_step_cleared(kan_usi_write(u, KAN_USICTL1, 0x00)) == 15, "all four");
}

/* P4, P5 and P6, a tick, and 02's request 5 */
static void lines(void)
{
    uint64_t u = kan_usi_write(fitted(0x22, 0xC8), KAN_USICTL0, 0xCE);
    output(u, 0, 1, 1, "P4: latch 0, enable 1");
    check(kan_lines_sda_low(kan_usi_lines(u)) && !kan_lines_scl_low(kan_usi_lines(u)), "P4");
    u = kan_usi_write(u, KAN_USICTL0, 0xCA);
    output(u, 0, 1, 1, "P5: both hold");
    check(kan_lines_sda_low(kan_usi_lines(u)), "P5");
    u = kan_usi_sample(fitted(0x22, 0xC0), kan_level(1, 1));
    remembers(u, 1, 1, 1, 0, "before START");
    u = kan_usi_sample(u, kan_level(1, 0));
    check(kan_module_usictl1(u) == 0x43, "START sets STTIFG");
    remembers(u, 1, 1, 0, 0, "after START");
    u = kan_usi_sample(u, kan_level(0, 0));
    remembers(u, 1, 0, 0, 1, "P6: caught");
    check(kan_lines_scl_low(kan_usi_lines(u)) && !kan_lines_sda_low(kan_usi_lines(u)), "P6: held");
    u = kan_usi_tick(kan_usi_sample(kan_usi_write(fitted(0x22, 0xC8), KAN_USICNT, 0x08), kan_level(1, 1)));
    output(u, 1, 0, 0, "a tick lowers the half");
    check(kan_lines_scl_low(kan_usi_lines(u)), "and SCL");
    u = kan_usi_sample(kan_usi_write(fitted(0x02, 0xC8), KAN_USICNT, 0x08), kan_level(0, 1));
    check(kan_step_refusal(kan_usi_tick(u)) == KAN_NOT_WAITING, "17");
    check(kan_level_scl(2) == 0 && kan_level_sda(2) == 1 && kan_level_scl(1) == 1 && kan_level_sda(1) == 0, "levels");
}

/* 02, request 1: a master with CKPH=0 and CKPL=0 that sends 80h; the first bit is out after the leading edge */
static void spi_lines(void)
{
    uint64_t u = kan_usi_write(kan_usi_write(kan_usi_power_up(0x80, 0), KAN_USICTL1, 0x00), KAN_USICTL0, 0xEA);
    u = kan_usi_sample(kan_usi_write(u, KAN_USICNT, 0x08), 0);
    check(kan_spi_lines_sclk(kan_usi_spi_lines(u)) == KAN_DRIVEN_LOW, "SCLK rests low");
    check(kan_spi_lines_sdo(kan_usi_spi_lines(u)) == KAN_RELEASED, "SDO is released");
    u = kan_usi_sample(kan_usi_tick(u), 1);
    check(kan_spi_lines_sclk(kan_usi_spi_lines(u)) == KAN_DRIVEN_HIGH, "SCLK is high");
    check(kan_spi_lines_sdo(kan_usi_spi_lines(u)) == KAN_DRIVEN_HIGH, "bit 7 is out: 1");
    u = kan_usi_sample(kan_usi_tick(kan_usi_sample(kan_usi_tick(u), 0)), 1);
    check(kan_spi_lines_sdo(kan_usi_spi_lines(u)) == KAN_DRIVEN_LOW, "bit 6 is out: 0");
}

/* P7, whole and up to its ninth sample, where the bits 1 0 1 are taken */
static void events(void)
{
    static const uint16_t list[] = {KAN_START, 0xA0, KAN_STOP};
    static uint32_t stamps[KAN_MAX_SAMPLES + 1];
    static uint8_t levels[KAN_MAX_SAMPLES + 1];
    uint16_t found[5];
    uint64_t drawn = kan_bus_encode(list, 3, 0, KAN_MAX_GAP, stamps, 23, levels, 23);
    check(kan_refusal(drawn) == KAN_DONE && kan_encode_count(drawn) == 23 && stamps[22] == 22000, "P7 drawn");
    check(kan_refusal(kan_bus_encode(list, 3, 0, KAN_MAX_GAP + 1, stamps, 23, levels, 23)) == KAN_GAP, "gap 1,001");
    uint64_t reply = kan_bus_decode(stamps, 23, levels, 23, found, 5);
    check(kan_decode_count(reply) == 3 && !kan_decode_open(reply) && !kan_decode_pending(reply), "P7 read");
    check(found[0] == KAN_START && found[1] == 0xA0 && found[2] == KAN_STOP, "P7 events");
    reply = kan_bus_decode(stamps, 9, levels, 9, found, 5);
    check(kan_decode_count(reply) == 1 && kan_decode_open(reply) == 1, "P7 cut off is open");
    check(kan_decode_pending(reply) == 3 && kan_decode_value(reply) == 5, "three bits are pending: 101");
    stamps[7] = stamps[6];
    reply = kan_bus_decode(stamps, 23, levels, 23, found, 5);
    check(kan_refusal(reply) == KAN_STAMP && kan_place(reply) == 7 && kan_decode_count(reply) == 0, "7 at sample 7");
    for (uint32_t i = 0; i <= KAN_MAX_SAMPLES; i++)
        stamps[i] = i, levels[i] = 3;
    reply = kan_bus_decode(stamps, KAN_MAX_SAMPLES, levels, KAN_MAX_SAMPLES, found, 0);
    check(kan_refusal(reply) == KAN_DONE && kan_decode_count(reply) == 0, "4,096 samples");
    levels[4000] = 4;
    reply = kan_bus_decode(stamps, KAN_MAX_SAMPLES, levels, KAN_MAX_SAMPLES, found, 0);
    check(kan_refusal(reply) == KAN_LEVEL && kan_place(reply) == 4000, "4 at sample 4,000");
    reply = kan_bus_decode(stamps, KAN_MAX_SAMPLES + 1, levels, KAN_MAX_SAMPLES + 1, found, 0);
    check(kan_refusal(reply) == KAN_MANY_SAMPLES, "4,097 samples, 6 before 4");
}

/* START, a byte, repeated START, a byte that is not acknowledged, STOP: 1 + 4 + 2 * 18 + 3 samples; and a cut byte */
static void event_numbers(void)
{
    static const uint16_t list[] = {KAN_START, 0xA0, KAN_REPEATED_START, 0xA2 + 256, KAN_STOP};
    static const uint8_t cut[] = {3, 1, 2, 3, 0, 1, 3};
    static uint32_t stamps[44];
    static uint8_t levels[44];
    uint16_t found[5];
    check(kan_encode_count(kan_bus_encode(list, 5, 0, 1, stamps, 44, levels, 44)) == 44, "44 samples");
    check(kan_decode_count(kan_bus_decode(stamps, 44, levels, 44, found, 5)) == 5, "five events");
    check(!kan_event_is_byte(found[0]) && kan_event_is_byte(511), "START is no byte, 511 is one");
    check(kan_event_is_byte(found[1]) && kan_event_byte(found[1]) == 0xA0, "A0h");
    check(!kan_event_not_acknowledged(found[1]), "acknowledged");
    check(found[2] == KAN_REPEATED_START && !kan_event_is_byte(found[2]), "repeated START");
    check(kan_event_is_byte(found[3]) && kan_event_byte(found[3]) == 0xA2, "A2h");
    check(kan_event_not_acknowledged(found[3]) && !kan_event_not_acknowledged(found[2]), "not acknowledged");
    check(kan_decode_count(kan_bus_decode(stamps, 7, cut, 7, found, 5)) == 3, "a cut byte");
    check(found[1] == KAN_CUT && found[2] == KAN_STOP && !kan_event_is_byte(KAN_CUT), "515 comes before 514");
}

/* 02, request 2's case: stamps 5 6 9, levels 3 3 1 are 142 bytes; request 8 reads two samples from them */
static void dumps(void)
{
    static const uint32_t stamps[] = {5, 6, 9};
    static const uint8_t levels[] = {3, 3, 1};
    static uint8_t text[KAN_MAX_DUMP_BYTES + 1], most_levels[KAN_MAX_SAMPLES];
    static uint32_t most_stamps[KAN_MAX_SAMPLES];
    uint32_t read_stamps[3];
    uint8_t read_levels[3];
    uint64_t reply = kan_bus_dump(stamps, 3, levels, 3, text, sizeof text);
    check(kan_refusal(reply) == KAN_DONE && kan_count(reply) == 142, "142 bytes");
    reply = kan_bus_read_dump(text, 142, read_stamps, 3, read_levels, 3);
    check(kan_refusal(reply) == KAN_DONE && kan_count(reply) == 2, "two samples");
    reply = kan_bus_read_dump(text, 141, read_stamps, 3, read_levels, 3);
    check(kan_refusal(reply) == KAN_DUMP_CUT && kan_place(reply) == 141 && kan_count(reply) == 0, "23 at the end");
    reply = kan_bus_read_dump(text, KAN_MAX_DUMP_READ + 1, read_stamps, 3, read_levels, 3);
    check(kan_refusal(reply) == KAN_DUMP_LONG && kan_place(reply) == 0, "60,001 bytes");
    reply = kan_bus_read_dump(text, KAN_MAX_DUMP_READ, read_stamps, 3, read_levels, 3);
    check(kan_refusal(reply) != KAN_DUMP_LONG, "60,000 bytes");
    /* the longest: 127 bytes, and 18 for each sample with a stamp of ten digits at which both lines change */
    for (uint32_t i = 0; i < KAN_MAX_SAMPLES; i++)
        most_stamps[i] = 1000000000 + i, most_levels[i] = kan_level(i % 2, i % 2);
    reply = kan_bus_dump(most_stamps, KAN_MAX_SAMPLES, most_levels, KAN_MAX_SAMPLES, text, sizeof text);
    check(kan_count(reply) == KAN_MAX_DUMP_BYTES, "the longest dump");
}

/* P8 with a third message A0 01, which loses to 90 at bit 2; 14 with its place */
static void seats(void)
{
    static const uint8_t bytes[] = {0x90, 0x12, 0x90, 0x0F, 0xA0, 0x01}, reads[] = {0x90, 0x12, 0x90, 0x0F, 0xA1, 0x01};
    static const uint8_t acks[] = {0, 0};
    static const uint32_t parts[] = {2, 2, 2}, counts[] = {1, 1, 1};
    static uint8_t carried[KAN_MAX_BYTES], levels[KAN_MAX_LEVELS];
    uint64_t modules[3];
    uint32_t seat[3];
    uint64_t reply = kan_arbitrate(bytes, 6, parts, 3, counts, 3, acks, 2, carried, KAN_MAX_BYTES, levels,
                                   kan_levels_drawn(2, 0), modules, 3, seat, 3);
    check(kan_refusal(reply) == KAN_DONE && kan_place(reply) == 0 && kan_count(reply) == 2, "P8: k");
    check(!kan_seat_in(seat[0]) && kan_seat_in(seat[1]) == 1 && !kan_seat_in(seat[2]), "P8: the second is in");
    check(kan_seat_position(seat[0]) == 12 && kan_seat_position(seat[1]) == 0, "P8: the first lost at 12");
    check(kan_seat_byte(seat[0]) == 1 && kan_seat_bit(seat[0]) == 3, "in byte 1 at bit 3");
    check(kan_seat_byte(seat[2]) == 0 && kan_seat_bit(seat[2]) == 2, "the third in byte 0 at bit 2");
    for (int i = 0; i < 3; i++)
        check(kan_seat_cleared(seat[i]) == (KAN_STTIFG | KAN_IFG), "STTIFG and IFG (02, request 12)");
    registers(modules[0], 0xC0, 0x4D, 0x22, 0x80, 0x0F, 0, "P8: the first master");
    registers(modules[1], 0xC8, 0x45, 0x22, 0x00, 0xFF, 0, "P8: the second");
    check(kan_seat_cleared(30) == 15 && kan_seat_position(30) == 0, "bits 1 to 4 of a seat");
    check(kan_seat_byte(32 * (9 * 63 + 7)) == 63 && kan_seat_bit(32 * (9 * 63 + 7)) == 7, "the last bit of 64 bytes");
    check(kan_levels_drawn(2, 0) == 41 && kan_levels_drawn(KAN_MAX_BYTES, 63) == KAN_MAX_LEVELS, "levels");
    reply = kan_arbitrate(reads, 6, parts, 3, counts, 3, acks, 2, carried, KAN_MAX_BYTES, levels, KAN_MAX_LEVELS,
                          modules, 3, seat, 3);
    check(kan_refusal(reply) == KAN_READ_MESSAGE && kan_place(reply) == 2 && kan_count(reply) == 0, "14 at message 2");
    uint32_t rounds[3];
    reply = kan_night(bytes, 6, parts, 3, counts, 3, acks, 2, rounds, 3, modules, 3);
    check(kan_refusal(reply) == KAN_DONE && kan_count(reply) == 3, "a night of three rounds");
    check(rounds[0] == 2 && rounds[1] == 1 && rounds[2] == 3, "from the least to the largest");
}

/* the refusal of messages of one part each, at most 17, of so many bytes, or of a night of them */
static int refused(int night, const uint8_t *bytes, size_t bytes_length, const uint32_t *parts, size_t masters,
                   const uint8_t *acks, size_t acks_length)
{
    static const uint32_t counts[] = {1, 1, 1, 1, 1, 1, 1, 1, 1, 1, 1, 1, 1, 1, 1, 1, 1};
    static uint8_t carried[KAN_MAX_BYTES], levels[KAN_MAX_LEVELS];
    uint64_t modules[17];
    uint32_t table[17];
    uint64_t reply = night ? kan_night(bytes, bytes_length, parts, masters, counts, masters, acks, acks_length, table,
                                       17, modules, 17)
                           : kan_arbitrate(bytes, bytes_length, parts, masters, counts, masters, acks, acks_length,
                                           carried, KAN_MAX_BYTES, levels, KAN_MAX_LEVELS, modules, 17, table, 17);
    return kan_refusal(reply);
}

/* P9 to P11, 12, 13, 15, and 43 (02, request 14) */
static void refused_messages(void)
{
    static const uint8_t same[] = {2, 2, 2, 2, 2, 2, 2, 2, 2, 2, 2, 2, 2, 2, 2, 2, 2}, longer[] = {0x90, 0x90, 0x00};
    static const uint32_t ones[] = {1, 1, 1, 1, 1, 1, 1, 1, 1, 1, 1, 1, 1, 1, 1, 1, 1}, one_two[] = {1, 2};
    static const uint8_t acks[] = {0, 0, 2}, nack[] = {1, 0};
    check(refused(0, same, KAN_MAX_MASTERS, ones, KAN_MAX_MASTERS, acks, 1) == KAN_DONE, "sixteen messages");
    check(refused(0, same, KAN_MAX_MASTERS + 1, ones, KAN_MAX_MASTERS + 1, acks, 1) == KAN_MASTER_COUNT, "12");
    check(refused(0, same, 3, ones, 2, acks, 1) == KAN_MESSAGE_LENGTH, "13");
    check(refused(0, same, 2, ones, 2, acks + 2, 1) == KAN_ACKNOWLEDGES, "15");
    check(refused(0, longer, 3, one_two, 2, acks, 2) == KAN_UNDECIDED, "P10");
    check(refused(0, longer, 3, one_two, 2, nack, 2) == KAN_DONE, "P11");
    check(refused(1, longer, 3, one_two, 2, acks, 2) == KAN_UNDECIDED, "16 of a night");
    check(refused(1, longer, 3, one_two, 2, nack, 2) == KAN_NOT_ACKNOWLEDGED, "43 before 16");
}

/* of a trace of three samples: 5, 8, 9, 11, 18 (02, request 9: SCL low for 46 units of 100 ns), 19 */
static void refused_traces(void)
{
    static const uint16_t list[] = {KAN_START, 0xA0, KAN_STOP};
    static const uint32_t early[] = {0, 10, 56};
    static const uint8_t low[] = {3, 2, 3}, start[] = {3, 1, 1};
    static uint32_t stamps[23];
    static uint8_t out[200];
    uint16_t found[3];
    check(kan_refusal(kan_bus_decode(early, 2, low, 3, found, 3)) == KAN_UNEQUAL_LENGTHS, "5");
    check(kan_refusal(kan_bus_decode(early, 3, start, 3, found, 0)) == KAN_SHORT_BUFFER, "8");
    check(kan_refusal(kan_bus_encode(list, 2, 0, 1, stamps, 23, out, 23)) == KAN_INCOMPLETE_LIST, "9");
    check(kan_refusal(kan_bus_encode(list, 3, 4294967274, 1, stamps, 23, out, 23)) == KAN_LAST_STAMP, "11");
    check(kan_refusal(kan_bus_decode_standard(early, 3, low, 3, found, 3)) == KAN_SHORT_PHASE, "18");
    check(kan_refusal(kan_bus_dump(early, 0, low, 0, out, 200)) == KAN_NO_SAMPLE, "19");
}

/* a text that begins with two wires, a and b, and goes on so (02, request 8) */
static int refused_dump(const char *goes_on)
{
    char text[200];
    uint32_t stamps[9];
    uint8_t levels[9];
    int length = snprintf(text, sizeof text,
                          "$var wire 1 a x $end $var wire 1 b y $end $enddefinitions $end\n%s\n", goes_on);
    return kan_refusal(kan_bus_read_dump((const uint8_t *)text, (size_t)length, stamps, 9, levels, 9));
}

static void refused_dumps(void)
{
    check(refused_dump("#5 1a 1b") == KAN_DONE, "a dump of one sample");
    check(refused_dump("#5 xa") == KAN_DUMP_UNKNOWN, "20");
    check(refused_dump("#5 1a 1b #5") == KAN_DUMP_STAMP, "21");
    check(refused_dump("#5 1c") == KAN_DUMP_IDENTIFIER, "22");
    check(refused_dump("#5 1a #6") == KAN_DUMP_WIRES, "24");
    check(refused_dump("#4294967296") == KAN_DUMP_LARGE_STAMP, "25");
    check(refused_dump("1a") == KAN_DUMP_FORM, "27");
}

/* 02, request 10: a catalogue of one board, 5, with a message of one byte */
static int refused_board(uint32_t board, const uint32_t *boards, size_t boards_length, const uint32_t *lengths)
{
    static const uint8_t block[] = {2};
    return kan_catalogue_number(board, block, 1, boards, boards_length, lengths, 1, NULL, 0, NULL, 0, NULL, 0);
}

static void refused_boards(void)
{
    static const uint32_t boards[] = {5, 5}, lengths[] = {1, 2};
    check(refused_board(5, boards, 1, lengths) == KAN_DONE, "a board that is found");
    check(refused_board(5, boards, 2, lengths) == KAN_BOARDS_FALL, "40");
    check(refused_board(5, boards, 1, lengths + 1) == KAN_BOARD_LENGTHS, "41");
    check(refused_board(6, boards, 1, lengths) == KAN_BOARD_ABSENT, "42");
}

int main(void)
{
    power_up();
    refused_steps();
    cleared_flags();
    lines();
    spi_lines();
    events();
    event_numbers();
    dumps();
    seats();
    refused_messages();
    refused_traces();
    refused_dumps();
    refused_boards();
    printf("fields: %d checks, %d failed\n", checks, failures);
    return failures != 0;
}
