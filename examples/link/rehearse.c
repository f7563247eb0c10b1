/* The proved library called from C. docs/LINKING.md says how to build it; rehearse.txt is what it must print, worked
 * out by hand from the rules. */
#include "kanaouvel.h"
#include <stdio.h>

enum { BOARDS = 3 };

/* three messages of two bytes each, one after the other; every message is one part */
static const uint8_t messages[] = {0x90, 0x12, 0x90, 0x0F, 0xA0, 0x00};
static const uint8_t with_a_read[] = {0x90, 0x12, 0x90, 0x0F, 0xA1, 0x00};
static const uint32_t parts[BOARDS] = {2, 2, 2}, counts[BOARDS] = {1, 1, 1};
static const uint8_t all_acknowledged[] = {0, 0}, second_refused[] = {0, 1};

static const char *words(uint8_t refusal)
{
    switch (refusal) {
    case KAN_READ_MESSAGE: return "a read";
    case KAN_NOT_ACKNOWLEDGED: return "not acknowledged";
    default: return "see include/kanaouvel.h";
    }
}

static void say_board(int board, const uint8_t *message, uint32_t seat)
{
    printf("  board %d sends %02X %02X: ", board, message[0], message[1]);
    if (kan_seat_in(seat))
        printf("won\n");
    else
        printf("lost at byte %u, bit %u\n", (unsigned)kan_seat_byte(seat), (unsigned)kan_seat_bit(seat));
}

static void say_module(int board, uint64_t module)
{
    printf("  board %d is left with USICTL0 %02X, USICTL1 %02X, USICKCTL %02X, USICNT %02X, USISRL %02X\n", board,
           kan_module_usictl0(module), kan_module_usictl1(module), kan_module_usickctl(module),
           kan_module_usicnt(module), kan_module_usisrl(module));
}

static void rehearse(const uint8_t *bytes)
{
    uint8_t carried[KAN_MAX_BYTES], levels[KAN_MAX_LEVELS];
    uint64_t modules[BOARDS];
    uint32_t seats[BOARDS];
    uint64_t reply = kan_arbitrate(bytes, 2 * BOARDS, parts, BOARDS, counts, BOARDS, all_acknowledged, 2, carried,
                                   sizeof carried, levels, sizeof levels, modules, BOARDS, seats, BOARDS);
    if (kan_refusal(reply) != KAN_DONE) {
        printf("  refused by %d, %s, at board %d\n", kan_refusal(reply), words(kan_refusal(reply)), kan_place(reply));
        return;
    }
    for (int board = 0; board < BOARDS; board++)
        say_board(board, bytes + 2 * board, seats[board]);
    printf("  the bus carried");
    for (uint32_t i = 0; i < kan_count(reply); i++)
        printf(" %02X", carried[i]);
    printf(" in %zu levels\n", kan_levels_drawn(kan_count(reply), 0));
    say_module(0, modules[0]);
    say_module(1, modules[1]);
}

static void say_event(uint16_t event)
{
    if (kan_event_is_byte(event))
        printf("%02X %s", kan_event_byte(event), kan_event_not_acknowledged(event) ? "refused" : "acknowledged");
    else
        printf("%s", event == KAN_START            ? "START"
                     : event == KAN_REPEATED_START ? "repeated START"
                     : event == KAN_STOP           ? "STOP"
                                                   : "a cut byte");
}

static void draw(void)
{
    static const uint16_t list[] = {KAN_START, 0xA0, KAN_STOP};
    static uint32_t stamps[KAN_MAX_SAMPLES];
    static uint8_t levels[KAN_MAX_SAMPLES];
    uint16_t events[3];
    uint64_t drawn = kan_bus_encode(list, 3, 0, 50, stamps, KAN_MAX_SAMPLES, levels, KAN_MAX_SAMPLES);
    size_t samples = kan_encode_count(drawn);
    printf("  levels");
    for (size_t i = 0; i < samples; i++)
        printf(" %d", levels[i]);
    uint64_t reply = kan_bus_decode(stamps, samples, levels, samples, events, 3);
    printf("\n  read back: ");
    for (int i = 0; i < kan_decode_count(reply); i++) {
        printf("%s", i > 0 ? ", " : "");
        say_event(events[i]);
    }
    reply = kan_bus_decode(stamps, 9, levels, 9, events, 3);
    printf("\n  of the first 9: ");
    say_event(events[0]);
    printf(", and %d bits of value %d in a message that is %s\n", kan_decode_pending(reply), kan_decode_value(reply),
           kan_decode_open(reply) ? "open" : "closed");
}

static void night(const uint8_t *acks)
{
    uint32_t rounds[BOARDS];
    uint64_t modules[BOARDS];
    uint64_t reply = kan_night(messages, 2 * BOARDS, parts, BOARDS, counts, BOARDS, acks, 2, rounds, BOARDS, modules,
                               BOARDS);
    if (kan_refusal(reply) != KAN_DONE) {
        printf("  refused by %d, %s\n", kan_refusal(reply), words(kan_refusal(reply)));
        return;
    }
    for (int board = 0; board < BOARDS; board++)
        printf("  board %d gets through in round %u of %u\n", board, (unsigned)rounds[board],
               (unsigned)kan_count(reply));
}

int main(void)
{
    printf("Three boards start together, every byte is acknowledged.\n");
    rehearse(messages);
    printf("Board 2 sends A1 00 instead.\n");
    rehearse(with_a_read);
    printf("START, A0 and STOP are drawn.\n");
    draw();
    printf("Who lost tries again, until all are through.\n");
    night(all_acknowledged);
    printf("Nobody acknowledges the second byte.\n");
    night(second_refused);
    return 0;
}
