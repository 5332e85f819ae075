/*
 * A row of keyboards through include/trabeculon.h (10/12), against the same machines
 * stepped alone by trabeculon_step and asked by trabeculon_distance: rows of 0, 1, 16
 * and 17 and numbers past the row; then typists side by side, each with its own
 * settings and clock, one of them sending rubbish, and places that hold numbers which
 * name no machine; then one keyboard in two rows whose other keyboards differ. Every
 * number of every answer is checked, and after each call every byte of the row, with
 * guard bytes before and behind it. Prints one line per check; exits 1 if one failed,
 * or if a number never came up.
 */
#include "trabeculon.h"

#include <inttypes.h>
#include <stdio.h>
#include <string.h>

#define LARGEST UINT64_C(1000000000000)
#define MOST TRABECULON_MOST_KEYBOARDS
#define NO_KEYBOARD TRABECULON_NO_KEYBOARD
#define EVENTS 400000

_Static_assert(MOST == 16, "as document 02 says");
_Static_assert(offsetof(trabeculon_row_stepped, sent_third) == 18, "no padding");

#if TRABECULON_VERSION != 3
#error "this host is for version 3"
#endif

static int failures = 0;

static void report(const char *name, const char *what, int ok) {
    printf("%s: %s, %s\n", ok ? "ok" : "FAILED", name, what);
    if (!ok) {
        failures++;
    }
}

/* splitmix64, so that every run tries the same. */
static uint64_t seed = 10;

static uint64_t below(uint64_t n) {
    uint64_t z = seed += 0x9e3779b97f4a7c15;
    z = (z ^ z >> 30) * 0xbf58476d1ce4e5b9;
    z = (z ^ z >> 27) * 0x94d049bb133111eb;
    return (z ^ z >> 31) % n;
}

static trabeculon_stamp at(uint64_t ms) {
    trabeculon_stamp stamp = {ms};
    return stamp;
}

/* ---- What is lent ---- */

typedef struct {
    const uint32_t *pairs;
    size_t length;
    uint16_t ts;
    uint8_t n;
} desk;

static const uint32_t PAIRS[] = {
    TRABECULON_PAIR(21, 24, 0x308E), TRABECULON_PAIR(10, 21, 0x3090),
    TRABECULON_PAIR(12, 11, 0x304B), TRABECULON_PAIR(30, 0, 0x0041),
};
static const uint32_t TWICE[] = {TRABECULON_PAIR(21, 24, 0x308E), TRABECULON_PAIR(24, 21, 0x308E)};
static const desk NO_PAIRS = {PAIRS, 0, 50, 1};
static const desk FOUR = {PAIRS, 4, 100, 50};
static const desk REFUSED = {TWICE, 2, 100, 50};

/* ---- A row with guards around it, and what it is to hold ---- */

/* One machine more than a row may have, and as many guards as a machine has bytes. */
typedef struct {
    trabeculon_machine before;
    trabeculon_machine row[MOST + 1];
    trabeculon_machine behind;
} guarded;

static guarded got, want;

static int same_rows(void) { return memcmp(&got, &want, sizeof got) == 0; }

/* Both hold the same bytes, of which next to none name a machine. */
static void fill_with_rubbish(void) {
    unsigned char *bytes = (unsigned char *)&want;
    for (size_t i = 0; i < sizeof want; i++) {
        bytes[i] = below(256);
    }
    got = want;
}

static void put(size_t board, trabeculon_machine machine) {
    got.row[board] = machine;
    want.row[board] = machine;
}

/* ---- One event and one asking, against the machine alone ---- */

typedef struct {
    uint8_t kind, key;
    trabeculon_stamp stamp;
} event;

static unsigned long numbers[NO_KEYBOARD + 1], asked[NO_KEYBOARD + 1], items, taken_back, sent;

static int is_refusal(trabeculon_row_stepped r, uint32_t number) {
    return r.number == number && r.items == 0 && r.first == 0 && r.second == 0 && r.backspaces == 0
        && r.sent_first == 0 && r.sent_second == 0 && r.sent_third == 0;
}

static int same_answer(trabeculon_row_stepped r, trabeculon_stepped s) {
    return r.number == s.number && r.items == s.items && r.first == s.first && r.second == s.second
        && r.backspaces == s.backspaces && r.sent_first == s.sent_first
        && r.sent_second == s.sent_second && r.sent_third == s.sent_third;
}

static trabeculon_row_stepped row_step(size_t length, desk d, uint32_t board, event e) {
    return trabeculon_row_step(got.row, length, d.pairs, d.length, d.ts, d.n, board, e.kind, e.key,
                               e.stamp);
}

/* What is told is right, and every byte of the row and of the guards. */
static int step_agrees(size_t length, desk d, uint32_t board, event e) {
    trabeculon_row_stepped r = row_step(length, d, board, e);
    numbers[r.number <= NO_KEYBOARD ? r.number : 1]++;
    if (length > MOST || board >= length) {
        return is_refusal(r, NO_KEYBOARD) && same_rows();
    }
    trabeculon_stepped alone = trabeculon_step(want.row[board], d.pairs, d.length, d.ts, d.n, e.kind,
                                               e.key, e.stamp);
    want.row[board] = alone.machine;
    items += r.items;
    taken_back += r.backspaces;
    sent += (r.sent_first != 0) + (r.sent_second != 0) + (r.sent_third != 0);
    return same_answer(r, alone) && same_rows();
}

static int distance_agrees(size_t length, desk d, uint32_t board, trabeculon_stamp stamp) {
    trabeculon_asked r = trabeculon_row_distance(got.row, length, d.pairs, d.length, d.ts, d.n, board,
                                                 stamp);
    asked[r.number <= NO_KEYBOARD ? r.number : 1]++;
    if (length > MOST || board >= length) {
        return r.number == NO_KEYBOARD && r.deadline == 0 && r.milliseconds == 0 && same_rows();
    }
    trabeculon_asked alone = trabeculon_distance(want.row[board], d.pairs, d.length, d.ts, d.n, stamp);
    return r.number == alone.number && r.deadline == alone.deadline
        && r.milliseconds == alone.milliseconds && same_rows();
}

/* ---- Exactly when 13 ---- */

static const event TICK_NOW = {TRABECULON_TICK, 0, {0}};
static const event RUBBISH = {9, 99, {UINT64_MAX}};

/* A good event and rubbish, with a good list and one that is refused: 13 comes before
 * 2, 3, 4, 5 and 12. */
static int all_agree(size_t length, uint32_t board) {
    return step_agrees(length, NO_PAIRS, board, TICK_NOW) && step_agrees(length, NO_PAIRS, board, RUBBISH)
        && step_agrees(length, REFUSED, board, TICK_NOW) && step_agrees(length, REFUSED, board, RUBBISH)
        && distance_agrees(length, NO_PAIRS, board, at(0))
        && distance_agrees(length, REFUSED, board, at(UINT64_MAX));
}

static void check_numbers(const char *name, size_t length, int opened) {
    static const uint32_t far_past[] = {
        18, 255, 256, 257, 65535, 65536, 65536 + 3, UINT32_C(1) << 31, UINT32_MAX - 15, UINT32_MAX,
    };
    int ok = 1;
    fill_with_rubbish();
    for (size_t i = 0; opened && i <= MOST; i++) {
        put(i, trabeculon_open(100, 50, 50, 0).machine);
    }
    for (uint32_t board = 0; board <= MOST + 1; board++) {
        ok &= all_agree(length, board);
    }
    for (size_t i = 0; i < sizeof far_past / sizeof far_past[0]; i++) {
        ok &= all_agree(length, far_past[i]);
    }
    report(name, opened ? "opened machines, every number" : "no machines, every number", ok);
}

static void check_lengths(void) {
    static const struct {
        const char *name;
        size_t length;
    } rows[] = {
        {"a row of none", 0}, {"a row of 1", 1}, {"a row of 2", 2}, {"a row of 15", 15},
        {"a row of 16", 16}, {"a row of 17", 17},
    };
    for (size_t i = 0; i < sizeof rows / sizeof rows[0]; i++) {
        check_numbers(rows[i].name, rows[i].length, 0);
        check_numbers(rows[i].name, rows[i].length, 1);
    }
}

/* ---- Typists side by side ---- */

#define RUBBISH_TYPIST 3 /* sends anything, with any stamp */
#define NO_MACHINE 5     /* holds numbers that name none */
#define NOT_FORMED 7     /* names a machine that is not well formed */

/* Each keyboard's clock begins somewhere else. */
static uint64_t clocks[MOST + 1];

static void open_row(void) {
    fill_with_rubbish();
    for (size_t i = 0; i < MOST; i++) {
        clocks[i] = i % 3 == 0 ? 0 : below(LARGEST - 100000000);
        put(i, trabeculon_open(50 + 63 * i, 1 + 6 * i, 99 - 6 * i, i % 2).machine);
    }
    got.row[NO_MACHINE].state = want.row[NO_MACHINE].state = 9;
    got.row[NOT_FORMED].held = want.row[NOT_FORMED].held = UINT32_MAX;
}

/* Few keys, so that they are held, repeated and pairs. */
static event typed(size_t board) {
    static const uint8_t keys[] = {21, 24, 10, 11, 12, 0, 30, 5};
    event e;
    clocks[board] += below(4) ? below(120) : below(3);
    e.kind = 1 + below(6);
    e.key = e.kind < 3 ? keys[below(8)] : e.kind < 5 ? below(2) : 0;
    e.stamp = at(clocks[board]);
    if (below(200) == 0) {
        e.stamp = at(below(3) ? clocks[board] - 1 - below(5) : LARGEST + 1 + below(5));
    }
    return e;
}

static event rubbish(void) {
    event e = {below(256), below(256), {below(2) ? below(LARGEST) : below(UINT64_MAX)}};
    return e;
}

static void check_typists(const char *name, desk d) {
    int steps = 1, distances = 1;
    open_row();
    for (long n = 0; n < EVENTS; n++) {
        size_t length = below(50) ? MOST : below(MOST + 2);
        uint32_t board = below(40) ? below(MOST) : below(2) ? MOST + below(3) : below(UINT32_MAX);
        event e = board == RUBBISH_TYPIST || board > MOST ? rubbish() : typed(board);
        desk lent = below(100) ? d : REFUSED;
        steps &= step_agrees(length, lent, board, e);
        if (below(3) == 0) {
            distances &= distance_agrees(length, lent, board, below(20) ? e.stamp : rubbish().stamp);
        }
        /* A keyboard is opened anew now and then, while the others go on. */
        if (below(2000) == 0 && board < MOST) {
            put(board, trabeculon_open(50 + below(951), 1 + below(99), 1 + below(99), below(2)).machine);
            clocks[board] = below(1000);
        }
    }
    report(name, "each event as at the machine alone, every other byte untouched", steps);
    report(name, "each distance as at the machine alone", distances);
}

/* ---- One keyboard in two rows ---- */

/* At place 2 of a row of 5 among typists and at place 14 of a row of 16 among rubbish. */
static void check_isolated(void) {
    trabeculon_machine one[5], other[MOST];
    uint64_t clock = 0;
    int answers = 1, states = 1;
    open_row();
    memcpy(one, got.row, sizeof one);
    memcpy(other, &got, sizeof other);
    one[2] = other[14] = trabeculon_open(100, 50, 50, 1).machine;
    for (long n = 0; n < EVENTS / 4; n++) {
        clocks[2] = clock;
        event e = typed(2), noise = rubbish();
        clock = clocks[2];
        trabeculon_row_stepped a, b;
        uint32_t beside = below(5), beyond = below(MOST);
        if (beside != 2) {
            event t = typed(beside);
            trabeculon_row_step(one, 5, PAIRS, 4, 100, 50, beside, t.kind, t.key, t.stamp);
        }
        if (beyond != 14) {
            trabeculon_row_step(other, MOST, PAIRS, 4, 100, 50, beyond, noise.kind, noise.key,
                                noise.stamp);
        }
        a = trabeculon_row_step(one, 5, PAIRS, 4, 100, 50, 2, e.kind, e.key, e.stamp);
        b = trabeculon_row_step(other, MOST, PAIRS, 4, 100, 50, 14, e.kind, e.key, e.stamp);
        answers &= memcmp(&a, &b, sizeof a) == 0;
        states &= memcmp(&one[2], &other[14], sizeof one[2]) == 0;
    }
    report("one keyboard in two rows", "the same answers", answers);
    report("one keyboard in two rows", "the same machine after each event", states);
}

/* ---- Everything came up ---- */

static void check_counts(void) {
    static const uint8_t of_events[] = {0, 2, 3, 4, 5, 11, 12, 13};
    static const uint8_t of_askings[] = {0, 2, 4, 5, 12, 13};
    char name[40];
    for (size_t i = 0; i < sizeof of_events; i++) {
        snprintf(name, sizeof name, "number %d, %lu events", of_events[i], numbers[of_events[i]]);
        report(name, "came up", numbers[of_events[i]] > 0);
    }
    for (size_t i = 0; i < sizeof of_askings; i++) {
        snprintf(name, sizeof name, "number %d, %lu askings", of_askings[i], asked[of_askings[i]]);
        report(name, "came up", asked[of_askings[i]] > 0);
    }
    report("items, backspaces and signs", "came up", items > 0 && taken_back > 0 && sent > 0);
    report("no other number", "ever", numbers[1] == 0 && asked[1] == 0 && asked[3] == 0 && asked[11] == 0);
}

int main(void) {
    check_lengths();
    check_typists("typists side by side", NO_PAIRS);
    check_typists("typists with pairs", FOUR);
    check_isolated();
    check_counts();
    printf("%d failed\n", failures);
    return failures == 0 ? 0 : 1;
}
