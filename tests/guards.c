/* The proved library called from C, with guard bytes around every lent buffer: what is refused leaves all of it as it
 * was, what is filled keeps its rest, and nothing outside is written. The expected values are document 01's worked
 * numbers P1 to P12, what 01 says of each refusal, request 4's restarts, and bits of SPI worked by hand. */
#include "../include/kanaouvel.h"
#include <stdio.h>
#include <string.h>

enum { GUARD = 64, ROOM = 2048, FILL = 0xA5 };

/* the most masters, bytes of a message and levels: every byte a part of its own */
enum { MASTERS = KAN_MAX_MASTERS, BYTES = KAN_MAX_BYTES, LEVELS = KAN_MAX_LEVELS };

static int checks, failures;

static void check(int holds, const char *what)
{
    checks++;
    if (!holds) {
        failures++;
        printf("guards: FAILED: %s\n", what);
    }
}

/* a buffer of so many bytes between guards, all of them FILL */
struct guarded {
    unsigned char all[GUARD + ROOM + GUARD];
    size_t bytes;
};

static void *lend(struct guarded *g, size_t bytes)
{
    memset(g->all, FILL, sizeof g->all);
    g->bytes = bytes;
    return g->all + GUARD;
}

/* everything but the first so many bytes of it is as it was */
static int kept_past(const struct guarded *g, size_t written)
{
    for (size_t i = 0; i < sizeof g->all; i++)
        if ((i < GUARD || i >= GUARD + written) && g->all[i] != FILL)
            return 0;
    return written <= g->bytes;
}

struct lent {
    struct guarded carried, levels, modules, seats;
    uint64_t answer;
};

struct load {
    const char *name;
    uint8_t bytes[(MASTERS + 1) * BYTES];
    size_t bytes_length;
    uint32_t parts[2 * BYTES + 1];
    size_t parts_length;
    uint32_t counts[MASTERS + 1];
    size_t counts_length;
    uint8_t acks[BYTES + 1];
    size_t acks_length;
};

#define MESSAGES(l) (l)->bytes, (l)->bytes_length, (l)->parts, (l)->parts_length, (l)->counts, (l)->counts_length

static void run(struct lent *l, const struct load *load, size_t carried, size_t levels, size_t modules, size_t seats)
{
    uint8_t *c = lend(&l->carried, carried), *v = lend(&l->levels, levels);
    uint64_t *m = lend(&l->modules, 8 * modules);
    uint32_t *s = lend(&l->seats, 4 * seats);
    l->answer = kan_arbitrate(MESSAGES(load), load->acks, load->acks_length, c, carried, v, levels, m, modules, s,
                              seats);
}

static void refused(const char *what, const struct load *load, size_t carried, size_t levels, size_t modules,
                    size_t seats, uint64_t answer)
{
    static struct lent l;
    run(&l, load, carried, levels, modules, seats);
    check(l.answer == answer, what);
    check(kept_past(&l.carried, 0) && kept_past(&l.levels, 0) && kept_past(&l.modules, 0) && kept_past(&l.seats, 0),
          what);
}

/* the six registers of a module (0: not looked at), and where its master stands */
struct stands {
    uint64_t registers;
    uint32_t seat;
};

static uint64_t registers_of(const struct lent *l, int master)
{
    uint64_t module;
    memcpy(&module, l->modules.all + GUARD + 8 * master, 8);
    return module & 0xFFFFFFFFFFFF;
}

static uint32_t seat_of(const struct lent *l, int master)
{
    uint32_t seat;
    memcpy(&seat, l->seats.all + GUARD + 4 * master, 4);
    return seat;
}

/* the same final modules and seats over tables that held 0 */
static void overwrites(const struct lent *l, const struct load *load)
{
    static uint8_t carried[BYTES], levels[LEVELS];
    uint64_t modules[MASTERS + 1] = {0};
    uint32_t seats[MASTERS + 1] = {0};
    size_t masters = load->counts_length;
    uint64_t answer = kan_arbitrate(MESSAGES(load), load->acks, load->acks_length, carried, BYTES, levels, LEVELS,
                                    modules, MASTERS + 1, seats, MASTERS + 1);
    check(answer == l->answer, "over 0: the answer");
    check(memcmp(modules, l->modules.all + GUARD, 8 * masters) == 0, "over 0: modules");
    check(memcmp(seats, l->seats.all + GUARD, 4 * masters) == 0, "over 0: seats");
    for (size_t i = masters; i <= MASTERS; i++)
        check(modules[i] == 0 && seats[i] == 0, "over 0: entries past the messages");
}

/* with tables of any length from one entry for each message on; so many restarts stand between the bytes carried */
static void carries(const struct load *load, const uint8_t *bytes, size_t count, size_t restarts,
                    const struct stands *stands)
{
    static struct lent l;
    size_t masters = load->counts_length, levels = 5 + 18 * count + 3 * restarts;
    for (size_t more = 0; more < 20; more++) {
        run(&l, load, count + more, levels + more, masters + more, masters + (more + 7) % 20);
        check(l.answer == (uint64_t)count << 24, load->name);
        check(memcmp(l.carried.all + GUARD, bytes, count) == 0, load->name);
        check(kept_past(&l.carried, count) && kept_past(&l.levels, levels), load->name);
        check(kept_past(&l.modules, 8 * masters) && kept_past(&l.seats, 4 * masters), load->name);
        for (size_t i = 0; i < masters; i++) {
            if (stands[i].registers)
                check(registers_of(&l, (int)i) == stands[i].registers, load->name);
            check(seat_of(&l, (int)i) == stands[i].seat, load->name);
        }
        overwrites(&l, load);
    }
    /* one byte or one level, one module or one seat too few is 8, and nothing is touched */
    refused("8: carried", load, count - 1, levels, masters, masters, 8);
    refused("8: levels", load, count, levels - 1, masters, masters, 8);
    refused("8: modules", load, count, levels, masters - 1, masters, 8);
    refused("8: seats", load, count, levels, masters, masters - 1, 8);
    refused("8: no modules", load, count, levels, 0, masters, 8);
    refused("8: no seats", load, count, levels, masters, 0, 8);
}

/* sixteen messages of 64 bytes that differ in the last one, the last message being the least */
static void most(void)
{
    static struct load load = {"sixteen of 64 bytes", {0}, MASTERS * BYTES, {0}, MASTERS, {0}, MASTERS, {0}, BYTES};
    static struct stands stands[MASTERS];
    memset(load.bytes, 0x90, sizeof load.bytes);
    for (int i = 0; i < MASTERS; i++) {
        int last = MASTERS - 1 - i, bit = last > 7 ? 4 : last > 3 ? 5 : last > 1 ? 6 : 7;
        load.parts[i] = BYTES, load.counts[i] = 1;
        load.bytes[BYTES * i + BYTES - 1] = (uint8_t)last;
        stands[i].registers = last ? 0x000080224DC0 : 0x00FF002245C8;
        stands[i].seat = last ? 6 + 32 * (9 * (BYTES - 1) + (uint32_t)bit) : 7;
    }
    carries(&load, load.bytes + BYTES * (MASTERS - 1), BYTES, 0, stands);
    load.parts_length = MASTERS + 1, load.counts_length = MASTERS + 1, load.bytes_length = (MASTERS + 1) * BYTES;
    load.parts[MASTERS] = BYTES, load.counts[MASTERS] = 1;
    refused("12: seventeen", &load, BYTES, LEVELS, MASTERS + 1, MASTERS + 1, 12);
    refused("12: seventeen, sixteen entries", &load, BYTES, LEVELS, MASTERS, MASTERS, 12);
    refused("12: seventeen, no entry", &load, BYTES, LEVELS, 0, 0, 12);
    load.parts_length = 2, load.counts_length = 2, load.bytes_length = 2 * BYTES + 1;
    load.parts[1] = BYTES + 1, load.acks_length = BYTES + 1;
    refused("13: 65 bytes", &load, BYTES + 1, LEVELS + 18, 2, 2, 13 + 256);
}

/* two messages of 64 parts of one byte each, of which the first loses in the last byte: the most levels */
static void most_parts(void)
{
    static struct load load = {"64 parts", {0}, 2 * BYTES, {0}, 2 * BYTES, {BYTES, BYTES}, 2, {0}, BYTES};
    const struct stands stands[] = {{0, 6 + 32 * (9 * (BYTES - 1) + 3)}, {0x00FF002245C8, 7}};
    for (int i = 0; i < 2 * BYTES + 1; i++)
        load.parts[i] = 1;
    memset(load.bytes, 0x40, 2 * BYTES + 1);
    load.bytes[BYTES - 1] = 0x50;
    carries(&load, load.bytes + BYTES, BYTES, BYTES - 1, stands);
    load.counts[1]++, load.parts_length++, load.bytes_length++, load.acks_length++;
    refused("13: 65 parts", &load, BYTES + 1, LEVELS + 21, 2, 2, 13 + 256);
}

/* document 02, request 4: a loser lets go of SCL at each restart, and ends with 4Dh in USICTL1 and 80h in USICNT */
static void restarts(void)
{
    const struct load one = {"a restart", {0x90, 0xA2}, 2, {1, 1}, 2, {2}, 1, {0, 0}, 2};
    const struct load cut = {"cut where a part ends", {0x90, 0xA2}, 2, {1, 1}, 2, {2}, 1, {1, 0}, 2};
    const struct load two = {"02/04 06/04", {2, 4, 6, 4}, 4, {1, 1, 1, 1}, 4, {2, 2}, 2, {0, 0}, 2};
    const struct load three = {
        "02/04/08 06/04/08", {2, 4, 8, 6, 4, 8}, 6, {1, 1, 1, 1, 1, 1}, 6, {3, 3}, 2, {0, 0, 0}, 3};
    const struct load later = {"a loss after it", {2, 4, 8, 2, 4, 9}, 6, {1, 2, 1, 2}, 4, {2, 2}, 2, {0, 0, 0}, 3};
    const struct load same = {"02/04 02/04", {2, 4, 2, 4}, 4, {1, 1, 1, 1}, 4, {2, 2}, 2, {0, 0}, 2};
    const struct load parts = {"02/04 0204", {2, 4, 2, 4}, 4, {1, 1, 2}, 3, {2, 1}, 2, {0, 0}, 2};
    const struct load unheard = {"02/04 0204, not acknowledged", {2, 4, 2, 4}, 4, {1, 1, 2}, 3, {2, 1}, 2, {1, 0}, 2};
    const struct load stops = {"02/04 02", {2, 4, 2}, 3, {1, 1, 1}, 3, {2, 1}, 2, {0, 0}, 2};
    const struct stands wins[] = {{0x00FF002245C8, 7}};
    const struct stands second_lost[] = {{0x00FF002245C8, 7}, {0x000280224DC0, 6 + 32 * 5}};
    const struct stands lost_later[] = {{0x00FF002245C8, 7}, {0x000880224DC0, 6 + 32 * 25}};
    const struct stands both_in[] = {{0x00FF002245C8, 7}, {0x00FF002245C8, 7}};
    carries(&one, one.bytes, 2, 1, wins);
    carries(&cut, cut.bytes, 1, 0, wins);
    carries(&two, two.bytes, 2, 1, second_lost);
    carries(&three, three.bytes, 3, 2, second_lost);
    carries(&later, later.bytes, 3, 1, lost_later);
    carries(&same, same.bytes, 2, 1, both_in);
    carries(&unheard, unheard.bytes, 1, 0, both_in);
    refused("16: other parts", &parts, BYTES, LEVELS, 2, 2, 16);
    refused("16: other parts, no room", &parts, 0, 0, 0, 0, 16);
    refused("16: a restart against a STOP", &stops, BYTES, LEVELS, 2, 2, 16);
    most_parts();
}

/* what is wrong with parts and counts, and the message where it is */
static void wrong_parts(void)
{
    const struct load none = {"13: no parts", {2}, 1, {1}, 1, {1, 0}, 2, {0}, 1};
    const struct load empty = {"13: an empty part", {2, 4}, 2, {1, 0, 1}, 3, {1, 2}, 2, {0}, 1};
    const struct load out = {"13: parts run out", {2, 4}, 2, {2}, 1, {1, 1}, 2, {0, 0}, 2};
    const struct load over = {"13: parts left over", {2, 4}, 2, {1, 1}, 2, {1}, 1, {0}, 1};
    const struct load wraps = {"13: lengths beyond 32 bits", {2, 4}, 2, {0xFFFFFFFF, 3}, 2, {2}, 1, {0, 0}, 2};
    const struct load counts = {"13: counts beyond 32 bits", {2, 4}, 2, {1, 1}, 2, {0xFFFFFFFF, 3}, 2, {0, 0}, 2};
    const struct load reads = {"14: a later part", {2, 2, 5}, 3, {1, 1, 1}, 3, {1, 2}, 2, {0, 0}, 2};
    const struct load acks = {"15: restarts are no bytes", {2, 4}, 2, {1, 1}, 2, {2}, 1, {0, 0, 0}, 3};
    const struct load *all[] = {&none, &empty, &out, &over, &wraps, &counts, &reads, &acks};
    const uint64_t answers[] = {13 + 256, 13 + 256, 13 + 512, 13 + 256, 13, 13 + 512, 14 + 256, 15};
    for (int i = 0; i < 8; i++) {
        refused(all[i]->name, all[i], BYTES, LEVELS, MASTERS, MASTERS, answers[i]);
        refused(all[i]->name, all[i], 0, 0, 0, 0, answers[i]);
    }
}

static void least(void)
{
    const struct load five = {
        "least", {2, 4, 2, 2, 4, 2, 4, 6, 2}, 9, {2, 1, 1, 1, 1, 1, 1, 1}, 8, {1, 1, 2, 2, 2}, 5, {0, 0}, 2};
    const struct load none = {"least of none", {0}, 0, {0}, 0, {0}, 0, {0}, 0};
    const struct load empty = {"least with an empty part", {2, 4}, 2, {2, 0}, 2, {1, 1}, 2, {0}, 1};
    check(kan_least_message(MESSAGES(&five)) == 2, "02/04 is least of five");
    check(kan_least_comparisons(MESSAGES(&five)) == 4, "four comparisons of five");
    check(kan_least_message(MESSAGES(&none)) == 0, "least where 12 applies");
    check(kan_least_comparisons(MESSAGES(&none)) == 0, "comparisons where 12 applies");
    check(kan_least_message(MESSAGES(&empty)) == 0, "least where 13 applies");
    check(kan_least_comparisons(MESSAGES(&empty)) == 0, "comparisons where 13 applies");
    check(kan_least_message(NULL, 0, NULL, 0, NULL, 0) == 0, "least: nothing lent");
}

/* 12 to 16 come before 8, each before the next, with short buffers and tables too */
static void refusals(void)
{
    const struct load none = {"12", {0}, 0, {0}, 0, {0}, 0, {0}, 0};
    const struct load empty = {"13", {0x90}, 1, {1, 0}, 2, {1, 1}, 2, {0}, 1};
    const struct load sum = {"13", {0x90, 0x12}, 2, {1}, 1, {1}, 1, {0}, 1};
    const struct load reads = {"14", {0x90, 0x91}, 2, {1, 1}, 2, {1, 1}, 2, {0, 0, 0}, 3};
    const struct load answers = {"15", {0x90, 0x12}, 2, {2}, 1, {1}, 1, {0, 2}, 2};
    const struct load few = {"15", {0x90, 0x12}, 2, {2}, 1, {1}, 1, {0}, 1};
    const struct load begins = {"16", {0x90, 0x90, 0x00}, 3, {1, 2}, 2, {1, 1}, 2, {0, 0}, 2};
    const struct load *all[] = {&none, &empty, &sum, &reads, &answers, &few, &begins};
    const uint64_t numbers[] = {12, 13, 13, 14, 15, 15, 16};
    for (int i = 0; i < 7; i++)
        for (int lent = 0; lent < 2; lent++) {
            static struct lent l;
            run(&l, all[i], lent ? BYTES : 0, lent ? LEVELS : 0, lent ? MASTERS : 0, lent ? MASTERS : 0);
            check(kan_refusal(l.answer) == numbers[i] && kan_count(l.answer) == 0, all[i]->name);
            check(kept_past(&l.carried, 0) && kept_past(&l.levels, 0) && kept_past(&l.modules, 0)
                      && kept_past(&l.seats, 0),
                  all[i]->name);
        }
}

static void arbitrations(void)
{
    const struct load p8 = {"P8", {0x90, 0x12, 0x90, 0x0F}, 4, {2, 2}, 2, {1, 1}, 2, {0, 0}, 2};
    const struct load p9 = {"P9", {0x90, 0x12, 0x90, 0x0F}, 4, {2, 2}, 2, {1, 1}, 2, {1, 0}, 2};
    const struct load p10 = {"P10", {0x90, 0x90, 0x00}, 3, {1, 2}, 2, {1, 1}, 2, {0, 0}, 2};
    const struct load p11 = {"P11", {0x90, 0x90, 0x00}, 3, {1, 2}, 2, {1, 1}, 2, {1, 0}, 2};
    const struct load p12 = {"P12", {0x90, 0x90, 0x00, 0x50}, 4, {1, 2, 1}, 3, {1, 1, 1}, 3, {0, 0}, 2};
    const struct stands p8s[] = {{0x000F80224DC0, 6 + 32 * 12}, {0x00FF002245C8, 7}};
    const struct stands both_in[] = {{0, 7}, {0, 7}};
    const struct stands two_lost[] = {{0, 6}, {0, 6}, {0, 7}};
    carries(&p8, (const uint8_t[]){0x90, 0x0F}, 2, 0, p8s);
    carries(&p9, (const uint8_t[]){0x90}, 1, 0, both_in);
    refused("P10", &p10, 8, 200, 8, 8, 16);
    refused("P10, modules too short", &p10, 8, 200, 1, 2, 16);
    refused("P10, seats too short", &p10, 8, 200, 2, 1, 16);
    carries(&p11, (const uint8_t[]){0x90}, 1, 0, both_in);
    carries(&p12, (const uint8_t[]){0x50}, 1, 0, two_lost);
    most();
    restarts();
    wrong_parts();
    least();
    refusals();
}

/* a night with slices of so many entries; what follows the messages, or all of it at a refusal, is as it was */
static void rounds(const struct load *load, size_t room, size_t modules, uint64_t answer, const uint32_t *expected)
{
    static struct guarded rounds, table;
    uint32_t *r = lend(&rounds, 4 * room);
    uint64_t *m = lend(&table, 8 * modules);
    size_t masters = kan_refusal(answer) ? 0 : load->counts_length;
    check(kan_night(MESSAGES(load), load->acks, load->acks_length, r, room, m, modules) == answer, load->name);
    check(kept_past(&rounds, 4 * masters) && kept_past(&table, 8 * masters), load->name);
    for (size_t i = 0; i < masters; i++)
        check(r[i] == expected[i] && (m[i] & 0xFFFFFFFFFFFF) == 0x00FF002245C8, load->name);
}

/* document 02, request 14: every message is carried in its round, and each master ends as a winner does */
static void nights(void)
{
    const struct load three = {"three rounds", {2, 6, 2, 4, 2, 6, 0, 1}, 8, {1, 1, 1, 1, 1, 1, 2}, 7, {2, 2, 2, 1}, 4,
                               {0, 0}, 2};
    const struct load refused = {"43 before 16", {2, 2, 4}, 3, {1, 2}, 2, {1, 1}, 2, {0, 1}, 2};
    const struct load last = {"43 at the last byte", {2, 4, 6, 8}, 4, {2, 2}, 2, {1, 1}, 2, {0, 1}, 2};
    const struct load ends = {"16 of two not least", {0, 2, 2, 4}, 4, {1, 1, 1, 1}, 4, {1, 1, 2}, 3, {0, 0}, 2};
    const struct load reads = {"14 before 43", {2, 3}, 2, {1, 1}, 2, {2}, 1, {1, 1}, 2};
    const struct load acks = {"15 before 43", {2, 4}, 2, {1, 1}, 2, {2}, 1, {1}, 1};
    for (size_t more = 0; more < 20; more++)
        rounds(&three, 4 + more, 4 + (more + 7) % 20, (uint64_t)3 << 24, (const uint32_t[]){3, 2, 3, 1});
    for (size_t few = 0; few < 4; few++) {
        rounds(&three, few, 4, 8, NULL);
        rounds(&three, 4, few, 8, NULL);
    }
    const struct load *all[] = {&refused, &last, &ends, &reads, &acks};
    const uint64_t answers[] = {43, 43, 16, 14, 15};
    for (int i = 0; i < 5; i++) {
        rounds(all[i], 4, 4, answers[i], NULL);
        rounds(all[i], 0, 0, answers[i], NULL);
    }
    check(kan_night(NULL, 0, NULL, 0, NULL, 0, NULL, 0, NULL, 0, NULL, 0) == 12, "12: nothing lent");
}

static void traces(void)
{
    static struct guarded stamps, levels, events;
    const uint16_t list[] = {512, 0xA0, 514};
    const uint8_t drawn[] = {3, 1, 2, 3, 0, 1, 2, 3, 0, 1, 0, 1, 0, 1, 0, 1, 0, 1, 0, 1, 0, 1, 3};
    uint32_t *t = lend(&stamps, 4 * 25);
    uint8_t *v = lend(&levels, 24);
    check(kan_bus_encode(list, 3, 10, 5, t, 25, v, 24) == 256 * 23, "P7 drawn");
    check(memcmp(v, drawn, 23) == 0 && t[0] == 10 && t[22] == 120, "P7 levels and stamps");
    check(kept_past(&stamps, 4 * 23) && kept_past(&levels, 23), "P7 rest");
    uint32_t read_stamps[23];
    memcpy(read_stamps, t, sizeof read_stamps);
    uint16_t *e = lend(&events, 2 * 5);
    check(kan_bus_decode(read_stamps, 23, drawn, 23, e, 5) == (uint64_t)3 << 24, "P7 read");
    check(memcmp(e, list, sizeof list) == 0 && kept_past(&events, sizeof list), "P7 events");

    e = lend(&events, 2 * 2);
    check(kan_bus_decode(read_stamps, 23, drawn, 23, e, 2) == 8 && kept_past(&events, 0), "8: events");
    e = lend(&events, 2 * 5);
    check(kan_bus_decode(read_stamps, 22, drawn, 23, e, 5) == 5 && kept_past(&events, 0), "5");
    read_stamps[7] = read_stamps[6];
    check(kan_bus_decode(read_stamps, 23, drawn, 23, e, 5) == 7 + 256 * 7 && kept_past(&events, 0), "7 at sample 7");
    for (int i = 0; i < 23; i++)
        read_stamps[i] = 47 * i;
    check(kan_bus_decode_standard(read_stamps, 23, drawn, 23, e, 5) == (uint64_t)3 << 24, "gap 47 read");
    check(memcmp(e, list, sizeof list) == 0 && kept_past(&events, sizeof list), "gap 47 events");
    e = lend(&events, 2 * 5);
    read_stamps[2]++;
    check(kan_bus_decode_standard(read_stamps, 23, drawn, 23, e, 5) == 18 + 256 * 3, "18 at 3");
    check(kept_past(&events, 0), "18 at 3, all kept");
    check(kan_bus_decode_standard(read_stamps, 23, drawn, 23, NULL, 0) == 18 + 256 * 3, "18 before 8");
    check(kan_bus_decode_fast(read_stamps, 23, drawn, 23, e, 5) == (uint64_t)3 << 24, "fast reads it");
    e = lend(&events, 2 * 5);
    for (int i = 0; i < 23; i++)
        read_stamps[i] = 12 * i;
    check(kan_bus_decode_fast(read_stamps, 23, drawn, 23, e, 5) == 18 + 256 * 3 && kept_past(&events, 0), "gap 12");
    read_stamps[22] = 0;
    check(kan_bus_decode_fast(read_stamps, 23, drawn, 23, e, 5) == 7 + 256 * 22, "7 before 18");
    check(kept_past(&events, 0), "7 before 18, all kept");
    t = lend(&stamps, 4 * 22), v = lend(&levels, 24);
    check(kan_bus_encode(list, 3, 10, 5, t, 22, v, 24) == 8, "8: stamps");
    check(kept_past(&stamps, 0) && kept_past(&levels, 0), "8: stamps, all kept");
    t = lend(&stamps, 4 * 25), v = lend(&levels, 22);
    check(kan_bus_encode(list, 3, 10, 5, t, 25, v, 22) == 8, "8: levels");
    check(kept_past(&stamps, 0) && kept_past(&levels, 0), "8: levels, all kept");
    v = lend(&levels, 24);
    check(kan_bus_encode(list, 3, 10, 0, t, 25, v, 24) == 10, "10");
    check(kan_bus_encode(list, 2, 10, 5, t, 25, v, 24) == 9, "9");
    check(kan_bus_encode(list, 3, 0xFFFFFFFF, 5, t, 25, v, 24) == 11, "11");
    check(kept_past(&stamps, 0) && kept_past(&levels, 0), "9, 10, 11: all kept");
}

/* document 02, request 2: stamps 5 6 9, levels 3 3 1 */
static const char dumped[] =
    "$timescale 100 ns $end\n$scope module bus $end\n$var wire 1 ! scl $end\n$var wire 1 \" sda $end\n$upscope $end\n"
    "$enddefinitions $end\n#5\n1!\n1\"\n#9\n0\"\n";

static void dumps(void)
{
    static struct guarded text;
    const uint32_t stamps[] = {5, 6, 9}, level[] = {9, 9, 9};
    const uint8_t levels[] = {3, 3, 1}, high[] = {3, 4, 1};
    for (size_t room = 0; room < 150; room++) {
        uint8_t *t = lend(&text, room);
        uint64_t answer = kan_bus_dump(stamps, 3, levels, 3, t, room);
        check(answer == (room < 142 ? 8 : (uint64_t)142 << 24), "the case's reply");
        check(kept_past(&text, room < 142 ? 0 : 142), "the case's rest");
        check(room < 142 || memcmp(t, dumped, 142) == 0, "the case");
    }
    for (size_t from = 0; from < 150; from++)
        for (size_t room = 0; room < 20; room++) {
            size_t left = from < 142 ? 142 - from : 0, count = left < room ? left : room;
            uint8_t *t = lend(&text, room);
            check(kan_bus_dump_piece(stamps, 3, levels, 3, from, t, room) == count, "a piece's count");
            check(memcmp(t, dumped + 142 - left, count) == 0 && kept_past(&text, count), "a piece");
        }
    uint8_t *t = lend(&text, 200);
    check(kan_bus_dump_piece(stamps, 3, levels, 3, SIZE_MAX, t, 200) == 0 && kept_past(&text, 0), "a piece past all");
    check(kan_bus_dump(stamps, 1, levels, 0, t, 200) == 5 && kept_past(&text, 0), "5 before 19");
    check(kan_bus_dump(level, 3, high, 3, t, 200) == 4 + 256 && kept_past(&text, 0), "4 at sample 1 before 7");
    check(kan_bus_dump(level, 3, levels, 3, t, 0) == 7 + 256 && kept_past(&text, 0), "7 at sample 1 before 8");
    check(kan_bus_dump(NULL, 0, NULL, 0, NULL, 0) == 19, "19 before 8");
}

/* what is wrong in the text of a dump, its number and the byte where it stands; both slices as they were */
static void unread(const char *text, uint64_t number, uint64_t place)
{
    static struct guarded stamps, levels;
    uint32_t *t = lend(&stamps, 40);
    uint8_t *v = lend(&levels, 10);
    uint64_t reply = kan_bus_read_dump((const uint8_t *)text, strlen(text), t, 10, v, 10);
    check(reply == number + 256 * place, "a dump's refusal");
    check(kept_past(&stamps, 0) && kept_past(&levels, 0), "a dump's refusal: all kept");
    check(kan_bus_dump_timescale((const uint8_t *)text, strlen(text)) == 0, "a dump's refusal: no timescale");
}

/* document 02, request 8: the case of request 2 read back, in slices of every length about it */
static void dump_texts(void)
{
    static struct guarded stamps, levels;
    const uint8_t *text = (const uint8_t *)dumped;
    for (size_t a = 0; a < 5; a++)
        for (size_t b = 0; b < 5; b++) {
            uint32_t *t = lend(&stamps, 4 * a);
            uint8_t *v = lend(&levels, b);
            int reads = a >= 2 && b >= 2;
            check(kan_bus_read_dump(text, 142, t, a, v, b) == (reads ? (uint64_t)2 << 24 : 8), "the case read back");
            check(kept_past(&stamps, reads ? 8 : 0) && kept_past(&levels, reads ? 2 : 0), "its rest");
            check(!reads || (t[0] == 5 && t[1] == 9 && v[0] == 3 && v[1] == 1), "its samples");
        }
    check(kan_bus_dump_timescale(text, 142) == 100000000, "its timescale");
    check(kan_bus_read_dump(NULL, 0, NULL, 0, NULL, 0) == 24, "24 of an empty text");
    unread("$enddefinitions $end\n", 24, 0);
    unread("$date today", 23, 11);
    unread("1!\n", 27, 0);
    static char wires[] = "$var wire 1 a x $end $var wire 1 b y $end $enddefinitions $end\n";
    static char all[200];
    unread(strcat(strcpy(all, wires), "#5 xa\n"), 20, 66);
    unread(strcat(strcpy(all, wires), "#5 1a 1b #5\n"), 21, 72);
    unread(strcat(strcpy(all, wires), "#5 1c\n"), 22, 66);
    unread(strcat(strcpy(all, wires), "#4294967296\n"), 25, 63);
    static uint8_t blanks[60001];
    memset(blanks, ' ', sizeof blanks);
    check(kan_bus_read_dump(blanks, 60001, NULL, 0, NULL, 0) == 26, "26");
}

static void modules(void)
{
    uint64_t u = kan_usi_power_up(0, 0);
    check(kan_usi_read(kan_usi_write(u, 0x7B, 0x08), 0x79) == 0x00, "P1");
    check(kan_step_cleared(kan_usi_write(u, 0x7B, 0x08)) == 1, "P1 clears IFG");
    check(kan_usi_write(u, 0x7E, 0) == (u | (uint64_t)1 << 55), "1, nothing cleared");
    check(kan_usi_read(kan_usi_write(u, 0x7B, 0x28), 0x79) == 0x01, "P2");
    check(kan_usi_read(kan_usi_write(kan_usi_write(u, 0x7B, 0x28), 0x7B, 0x00), 0x79) == 0x01, "P3");
    u = kan_usi_write(kan_usi_write(kan_usi_write(u, 0x7A, 0x22), 0x79, 0x41), 0x78, 0xC8);
    check(!kan_lines_sda_low(kan_usi_lines(u)), "SDA is let go");
    u = kan_usi_write(u, 0x78, 0xCE);
    check(kan_lines_sda_low(kan_usi_lines(u)), "P4");
    check(kan_lines_sda_low(kan_usi_lines(kan_usi_write(u, 0x78, 0xCA))), "P5");
    uint64_t slave = kan_usi_write(kan_usi_write(kan_usi_power_up(0, 0), 0x7A, 0x22), 0x79, 0x41);
    slave = kan_usi_sample(kan_usi_sample(kan_usi_write(slave, 0x78, 0xC0), 3), 1);
    check(kan_lines_scl_low(kan_usi_lines(kan_usi_sample(slave, 0))), "P6: held");
    check(!kan_lines_scl_low(kan_usi_lines(kan_usi_sample(kan_usi_write(slave, 0x7B, 0x80), 0))), "P6: let go");
    check(kan_usi_write(u, 0x80, 1) == (u | (uint64_t)1 << 55), "1: the module stays");
    check(kan_usi_sample(u, 4) == (u | (uint64_t)4 << 55), "4: the module stays");
    check(kan_usi_read(u, 0x77) == 1 << 16 && kan_usi_read_word(u, 0x79) == 2 << 16, "1 and 2 of reads");
    check(kan_usi_spi_lines(u) == 0 && kan_usi_spi_lines(kan_usi_power_up(0, 0)) == 0, "nothing is driven outside SPI");
}

/* SPI (request 1), a master with CKPH=0 and CKPL=0 that sends A5h: SCLK + 4 * SDO, each 0, 2 low or 3 high */
static void spi(void)
{
    uint64_t u = kan_usi_write(kan_usi_write(kan_usi_power_up(0xA5, 0), 0x79, 0x00), 0x78, 0xEA);
    u = kan_usi_sample(kan_usi_write(u, 0x7B, 0x08), 0);
    check(kan_usi_spi_lines(u) == 2, "SCLK rests low, SDO is let go");
    u = kan_usi_tick(u);
    check(kan_usi_spi_lines(u) == 3, "a tick raises SCLK");
    u = kan_usi_sample(u, 1);
    check(kan_usi_spi_lines(u) == 15, "bit 7 is out: 1");
    u = kan_usi_sample(kan_usi_tick(u), 2);
    check(kan_usi_spi_lines(u) == 14, "SCLK is low again");
    check(kan_usi_read(u, 0x7C) == 0x4B && kan_usi_read(u, 0x7B) == 0x07, "1 is received");
    u = kan_usi_sample(kan_usi_tick(u), 1);
    check(kan_usi_spi_lines(u) == 11 && kan_usi_lines(u) == 0, "bit 6 is out: 0; no line is pulled as in I2C");
    check(kan_usi_spi_lines(kan_usi_write(u, 0x78, 0xE2)) == 8, "a slave drives SDO alone");
    u = kan_usi_write(u, 0x78, 0xCA);
    check(kan_usi_spi_lines(u) == 0 && kan_usi_tick(u) == (u | (uint64_t)3 << 55), "3 with PE5=0, the module stays");
}

struct catalogue {
    uint8_t block[8];
    size_t block_length;
    uint32_t boards[4];
    size_t boards_length;
    uint32_t lengths[4];
    size_t lengths_length;
};

#define CATALOGUE(c) (c)->block, (c)->block_length, (c)->boards, (c)->boards_length, (c)->lengths, (c)->lengths_length

static void located(const char *what, uint32_t board, const struct catalogue *c, const struct catalogue *s, int number,
                    int corrected, uint64_t offset, uint32_t length)
{
    check(kan_catalogue_number(board, CATALOGUE(c), CATALOGUE(s)) == number, what);
    check(kan_catalogue_corrected(board, CATALOGUE(c), CATALOGUE(s)) == corrected, what);
    check(kan_catalogue_offset(board, CATALOGUE(c), CATALOGUE(s)) == offset, what);
    check(kan_catalogue_length(board, CATALOGUE(c), CATALOGUE(s)) == length, what);
}

/* the numbers of document 02, request 10 */
static void catalogues(void)
{
    const struct catalogue corrections = {{0x90, 0x12, 0x0F}, 3, {4, 9}, 2, {0, 3}, 2};
    const struct catalogue standing = {{0xA0, 0xA1, 0xB0, 0xC0, 0xC1}, 5, {2, 4, 7}, 3, {2, 1, 2}, 3};
    const struct catalogue equal = {{1}, 1, {5, 5}, 2, {7}, 1}, unsummed = {{1}, 1, {5}, 1, {2}, 1};
    const struct catalogue beyond = {{1}, 1, {2, 3}, 2, {0xFFFFFFFF, 2}, 2};
    located("a correction", 9, &corrections, &standing, 0, 1, 0, 3);
    located("a standing message", 7, &corrections, &standing, 0, 0, 3, 2);
    located("a correction of no bytes", 4, &corrections, &standing, 0, 1, 0, 0);
    located("42", 8, &corrections, &standing, 42, 0, 0, 0);
    located("40 of the corrections", 9, &equal, &unsummed, 40, 0, 0, 0);
    located("41 of the corrections", 9, &unsummed, &equal, 41, 0, 0, 0);
    located("40 of the standing catalogue", 9, &corrections, &equal, 40, 0, 0, 0);
    located("41: a sum beyond 32 bits", 9, &corrections, &beyond, 41, 0, 0, 0);
    check(kan_catalogue_number(0, NULL, 0, NULL, 0, NULL, 0, NULL, 0, NULL, 0, NULL, 0) == 42, "42: nothing lent");
}

int main(void)
{
    modules();
    spi();
    traces();
    dumps();
    dump_texts();
    arbitrations();
    nights();
    catalogues();
    printf("guards: %d checks, %d failed\n", checks, failures);
    return failures != 0;
}
