/*
 * A small console host: two keyboards in one row (10/12), each with its own settings,
 * clock, screen and committed line. Their events arrive in the order of the host's own
 * time; the host arranges ticks by trabeculon_row_distance, as the header says. Both
 * press the two keys of a pair at the same time, each one key: no chord, since they are
 * two keyboards. Then the first presses both keys itself. Prints both screens after
 * each call; exits 1 if a line is not the right one in the end.
 */
#include "trabeculon.h"

#include <inttypes.h>
#include <stdio.h>
#include <string.h>

#define BOARDS 2
#define MOST_SIGNS 32

/* Ka (key 21), sa (key 24), za (key 24 with the right thumb), and ka and sa together. */
#define KA 0x304B
#define SA 0x3055
#define ZA 0x3056
#define TOGETHER 0x308E

static const uint32_t pairs[] = {TRABECULON_PAIR(21, 24, TOGETHER)};
#define T_S 100
#define N 50

typedef struct {
    uint16_t signs[MOST_SIGNS];
    size_t length;
} run;

/* All that the host has in hand: the row, and for each keyboard what it shows. */
static trabeculon_machine row[BOARDS];
static run screens[BOARDS], lines[BOARDS];
/* When a keyboard's clock was 0, by the host's time; a host's time is no stamp. */
static const uint64_t began[BOARDS] = {1000, 400};
/* When its next tick is to be, by the host's time. */
static uint64_t tick_at[BOARDS] = {UINT64_MAX, UINT64_MAX};

static void add(run *r, uint16_t sign) {
    if (sign != 0 && r->length < MOST_SIGNS) {
        r->signs[r->length++] = sign;
    }
}

static void print_run(const run *r) {
    for (size_t i = 0; i < r->length; i++) {
        unsigned s = r->signs[i];
        printf("%c%c%c", 0xE0 | s >> 12, 0x80 | (s >> 6 & 0x3F), 0x80 | (s & 0x3F));
    }
}

/* A moment of the keyboard's clock, as the keyboard itself says it. */
static trabeculon_stamp by_keyboard(uint32_t board, uint64_t host_time) {
    trabeculon_stamp stamp = {host_time - began[board]};
    return stamp;
}

static void show(uint32_t board, trabeculon_row_stepped s) {
    run *screen = &screens[board];
    screen->length -= s.backspaces <= screen->length ? s.backspaces : screen->length;
    add(screen, s.sent_first);
    add(screen, s.sent_second);
    add(screen, s.sent_third);
    add(&lines[board], s.first);
    add(&lines[board], s.second);
}

/* One event of a keyboard, and when to wake for it next. */
static int handle(uint32_t board, uint8_t kind, uint8_t key, uint64_t host_time) {
    trabeculon_stamp stamp = by_keyboard(board, host_time);
    trabeculon_row_stepped s =
        trabeculon_row_step(row, BOARDS, pairs, 1, T_S, N, board, kind, key, stamp);
    show(board, s);
    trabeculon_asked a = trabeculon_row_distance(row, BOARDS, pairs, 1, T_S, N, board,
                                                 s.number == 0 ? stamp : row[board].last);
    tick_at[board] = UINT64_MAX;
    if (a.number == 0 && a.deadline == 1) {
        tick_at[board] = host_time + (a.milliseconds > 0 ? (uint64_t)a.milliseconds : 0);
    }
    printf("%5" PRIu64 "  keyboard %" PRIu32 ", kind %d, key %2d: ", host_time, board, kind, key);
    for (uint32_t i = 0; i < BOARDS; i++) {
        printf("%" PRIu32 ": ", i);
        print_run(&screens[i]);
        printf("  ");
    }
    printf("%s\n", s.number == 0 ? "" : "refused");
    return s.number == 0;
}

typedef struct {
    uint64_t host_time;
    uint32_t board;
    uint8_t kind, key;
} arrival;

/* Ticks that fall before the next arrival come first, the earlier one before the later. */
static int ticks_until(uint64_t host_time) {
    int ok = 1;
    for (;;) {
        uint32_t next = tick_at[0] <= tick_at[1] ? 0 : 1;
        if (tick_at[next] > host_time || tick_at[next] == UINT64_MAX) {
            return ok;
        }
        ok &= handle(next, TRABECULON_TICK, 0, tick_at[next]);
    }
}

enum { DOWN = TRABECULON_CHARACTER_DOWN, UP = TRABECULON_CHARACTER_UP };

static const arrival arrivals[] = {
    {2000, 0, DOWN, 21}, {2000, 1, DOWN, 24},                         /* one key each */
    {2040, 1, TRABECULON_THUMB_DOWN, TRABECULON_RIGHT},               /* the second one's thumb */
    {2070, 0, UP, 21}, {2080, 1, UP, 24}, {2085, 1, TRABECULON_THUMB_UP, TRABECULON_RIGHT},
    {2300, 0, DOWN, 21}, {2320, 1, DOWN, 21}, {2330, 0, DOWN, 24},    /* the first presses both */
    {2380, 0, UP, 21}, {2390, 0, UP, 24}, {2600, 1, UP, 21},          /* the second holds on */
};

static int line_is(uint32_t board, const uint16_t *signs, size_t length) {
    int ok = lines[board].length == length && memcmp(lines[board].signs, signs, 2 * length) == 0
        && screens[board].length == length && memcmp(screens[board].signs, signs, 2 * length) == 0;
    printf("%s: keyboard %" PRIu32 ", the line and the screen are ", ok ? "ok" : "FAILED", board);
    print_run(&lines[board]);
    printf("\n");
    return ok;
}

int main(void) {
    static const uint16_t first[] = {KA, TOGETHER}, second[] = {ZA, KA};
    int ok = 1;
    row[0] = trabeculon_open(100, 50, 50, 0).machine;
    row[1] = trabeculon_open(200, 50, 50, 0).machine;
    for (size_t i = 0; i < sizeof arrivals / sizeof arrivals[0]; i++) {
        ok &= ticks_until(arrivals[i].host_time);
        ok &= handle(arrivals[i].board, arrivals[i].kind, arrivals[i].key, arrivals[i].host_time);
    }
    ok &= ticks_until(UINT64_MAX - 1);
    printf("%s: every event accepted\n", ok ? "ok" : "FAILED");
    ok &= line_is(0, first, 2);
    ok &= line_is(1, second, 2);
    return ok ? 0 : 1;
}
