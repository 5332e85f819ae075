/*
 * Drives a live keyboard through include/trabeculon.h as a C host would: document
 * 01's P1, P4 and P9, request 4/12's keystrokes (slow), a letter that is held (7/12)
 * and two letters as a chord (9/12) event by event, with a screen on which a backspace
 * takes the last sign back, and the distance to the deadline after each event. Then
 * every refusal, keys that are held, and lists that are refused. Checks every number
 * of every answer. Prints what was sent, a backspace as <-, and the screen after each
 * event, and one line per check; exits 1 if one failed.
 */
#include "trabeculon.h"

#include <inttypes.h>
#include <stdio.h>
#include <string.h>

#define LARGEST UINT64_C(1000000000000)
#define MOST_SIGNS 16

/* Words: ka (key 21) and ga (key 21 with the right thumb), the right mark. */
#define KA 0x304B
#define GA 0x304C
/* Sa (key 24), and what ka and sa give together by the list. */
#define SA 0x3055
#define TOGETHER 0x308E
#define RIGHT_MARK TRABECULON_RIGHT_MARK
/* Stands among the sent signs for a backspace; no word has this value. */
#define BACKSPACE 0xFFFF
/* Stands for the distance of a machine that has no deadline. */
#define NO_DEADLINE INT64_MIN

enum {
    CHARACTER_DOWN = TRABECULON_CHARACTER_DOWN,
    CHARACTER_UP = TRABECULON_CHARACTER_UP,
    THUMB_DOWN = TRABECULON_THUMB_DOWN,
    THUMB_UP = TRABECULON_THUMB_UP,
    FUNCTION = TRABECULON_FUNCTION_DOWN,
    TICK = TRABECULON_TICK,
    RIGHT = TRABECULON_RIGHT,
    S1 = TRABECULON_S1,
    S2 = TRABECULON_S2,
    S3 = TRABECULON_S3,
    S4 = TRABECULON_S4,
    S5 = TRABECULON_S5,
    S6 = TRABECULON_S6,
    S7 = TRABECULON_S7,
    S8 = TRABECULON_S8
};

#if TRABECULON_VERSION != 3
#error "this host is for version 3"
#endif

/* A held set with one key in it. */
#define HELD(key) (UINT32_C(1) << (key))

/* The header checks the sizes. */
_Static_assert(sizeof(trabeculon_machine) == 7 * 8, "a machine has no padding");
_Static_assert(offsetof(trabeculon_machine, held) == 40, "it lies behind the stamps");
_Static_assert(offsetof(trabeculon_machine, thumb) == 55, "none before the end");
_Static_assert(offsetof(trabeculon_opened, number) == 56, "an opened machine has no padding");
_Static_assert(offsetof(trabeculon_stepped, sent_third) == 74, "padding at its end only");

static int failures = 0;

static void report(const char *name, const char *what, int ok) {
    printf("%s: %s, %s\n", ok ? "ok" : "FAILED", name, what);
    if (!ok) {
        failures++;
    }
}

static int same_machine(trabeculon_machine one, trabeculon_machine other) {
    return memcmp(&one, &other, sizeof one) == 0;
}

/* ---- What the desk lends with every call ---- */

/* One number a pair: key, key, character from the top. */
#define PAIR(a, b, c) (UINT32_C(1) * (a) << 24 | UINT32_C(1) * (b) << 16 | (c))

typedef struct {
    const uint32_t *pairs;
    size_t length;
    uint16_t ts;
    uint8_t n;
} desk;

static const uint32_t KA_SA[] = {PAIR(21, 24, TOGETHER)};
static const desk NO_PAIRS = {KA_SA, 0, 50, 1};
static const desk ONE_PAIR = {KA_SA, 1, 100, 50};

/* The desk of the runs and checks. */
static desk lent = {KA_SA, 0, 50, 1};

static trabeculon_stepped step(trabeculon_machine machine, uint8_t kind, uint8_t key,
                               trabeculon_stamp stamp) {
    return trabeculon_step(machine, lent.pairs, lent.length, lent.ts, lent.n, kind, key, stamp);
}

static trabeculon_asked distance(trabeculon_machine machine, trabeculon_stamp stamp) {
    return trabeculon_distance(machine, lent.pairs, lent.length, lent.ts, lent.n, stamp);
}

/* ---- The host's screen ---- */

typedef struct {
    uint16_t signs[MOST_SIGNS];
    size_t length;
} run;

static void add(run *r, uint16_t sign) {
    if (sign != 0 && r->length < MOST_SIGNS) {
        r->signs[r->length++] = sign;
    }
}

static int same_run(const run *r, const uint16_t *signs) {
    size_t length = 0;
    while (signs[length] != 0) {
        length++;
    }
    return r->length == length && memcmp(r->signs, signs, 2 * length) == 0;
}

/* Marks as <L> and <R>, a backspace as <-, all else in UTF-8; every word of the
 * layout takes three bytes there. */
static void print_run(const char *what, const run *r) {
    printf("%s", what);
    for (size_t i = 0; i < r->length; i++) {
        unsigned s = r->signs[i];
        switch (s) {
        case 1: printf("<L>"); break;
        case 2: printf("<R>"); break;
        case BACKSPACE: printf("<-"); break;
        default: printf("%c%c%c", 0xE0 | s >> 12, 0x80 | (s >> 6 & 0x3F), 0x80 | (s & 0x3F));
        }
    }
}

/* All that a host has in hand for one keyboard. */
typedef struct {
    trabeculon_machine machine;
    run sent;    /* all that was ever sent, backspaces among it */
    run screen;
    run line;    /* what is committed */
} host;

static void show(host *h, trabeculon_stepped s) {
    uint16_t signs[3] = {s.sent_first, s.sent_second, s.sent_third};
    for (unsigned i = 0; i < s.backspaces; i++) {
        add(&h->sent, BACKSPACE);
        if (h->screen.length > 0) {
            h->screen.length--;
        }
    }
    for (int i = 0; i < 3; i++) {
        add(&h->sent, signs[i]);
        add(&h->screen, signs[i]);
    }
    add(&h->line, s.first);
    add(&h->line, s.second);
}

/* ---- The papers' keystrokes ---- */

/* An event, and what is right after it. */
typedef struct {
    const char *name;
    uint8_t kind, key;
    uint64_t stamp;
    uint32_t items;
    uint16_t words[2];
    uint16_t backspaces;
    uint16_t sent[3];
    trabeculon_machine machine; /* without the settings, and last is the stamp */
    int64_t distance;           /* asked at the event's stamp */
} line;

static const line P1[] = {
    {"P1, 21@0", CHARACTER_DOWN, 21, 0, 0, {0, 0}, 0, {KA, 0, 0},
     {.state = S2, .key = 21, .held = HELD(21), .m = {0}}, 100},
    {"P1, tick 99", TICK, 0, 99, 0, {0, 0}, 0, {0, 0, 0},
     {.state = S2, .key = 21, .held = HELD(21), .m = {0}}, 1},
    {"P1, tick 100", TICK, 0, 100, 1, {KA, 0}, 0, {0, 0, 0},
     {.state = S1, .held = HELD(21)}, NO_DEADLINE},
};

static const line P4[] = {
    {"P4, 21@0", CHARACTER_DOWN, 21, 0, 0, {0, 0}, 0, {KA, 0, 0},
     {.state = S2, .key = 21, .held = HELD(21), .m = {0}}, 100},
    {"P4, R@30", THUMB_DOWN, RIGHT, 30, 0, {0, 0}, 0, {0, 0, 0},
     {.state = S4, .key = 21, .held = HELD(21), .m = {0}, .thumb = RIGHT, .o = {30}}, 30},
    {"P4, 21 up@60", CHARACTER_UP, 21, 60, 1, {GA, 0}, 1, {GA, 0, 0},
     {.state = S1}, NO_DEADLINE},
};

static const line P9[] = {
    {"P9, R@0", THUMB_DOWN, RIGHT, 0, 0, {0, 0}, 0, {0, 0, 0},
     {.state = S3, .thumb = RIGHT, .o = {0}}, 100},
    {"P9, 21@40", CHARACTER_DOWN, 21, 40, 0, {0, 0}, 0, {GA, 0, 0},
     {.state = S5, .key = 21, .held = HELD(21), .m = {40}, .thumb = RIGHT, .o = {0}}, 40},
    {"P9, R up@60", THUMB_UP, RIGHT, 60, 0, {0, 0}, 0, {0, 0, 0},
     {.state = S6, .key = 21, .held = HELD(21), .m = {40}, .thumb = RIGHT, .o = {0}, .r = {60}},
     20},
    {"P9, tick 79", TICK, 0, 79, 0, {0, 0}, 0, {0, 0, 0},
     {.state = S6, .key = 21, .held = HELD(21), .m = {40}, .thumb = RIGHT, .o = {0}, .r = {60}}, 1},
    {"P9, tick 80", TICK, 0, 80, 2, {RIGHT_MARK, KA}, 1, {RIGHT_MARK, KA, 0},
     {.state = S1, .held = HELD(21)}, NO_DEADLINE},
};

static const line SLOW_899[] = {
    {"slow, 21@0", CHARACTER_DOWN, 21, 0, 0, {0, 0}, 0, {KA, 0, 0},
     {.state = S2, .key = 21, .held = HELD(21), .m = {0}}, 1000},
    {"slow, R@500", THUMB_DOWN, RIGHT, 500, 0, {0, 0}, 0, {0, 0, 0},
     {.state = S4, .key = 21, .held = HELD(21), .m = {0}, .thumb = RIGHT, .o = {500}}, 500},
    {"slow, 21 up@899", CHARACTER_UP, 21, 899, 1, {KA, 0}, 0, {0, 0, 0},
     {.state = S3, .thumb = RIGHT, .o = {500}}, NO_DEADLINE},
};

static const line SLOW_900[] = {
    {"slow, 21@0", CHARACTER_DOWN, 21, 0, 0, {0, 0}, 0, {KA, 0, 0},
     {.state = S2, .key = 21, .held = HELD(21), .m = {0}}, 1000},
    {"slow, R@500", THUMB_DOWN, RIGHT, 500, 0, {0, 0}, 0, {0, 0, 0},
     {.state = S4, .key = 21, .held = HELD(21), .m = {0}, .thumb = RIGHT, .o = {500}}, 500},
    {"slow, 21 up@900", CHARACTER_UP, 21, 900, 1, {GA, 0}, 1, {GA, 0, 0},
     {.state = S1}, NO_DEADLINE},
};

/* With solo 1 the thumb that stays has a deadline, by its old stamp. */
static const line SLOW_SOLO[] = {
    {"slow, 21@0", CHARACTER_DOWN, 21, 0, 0, {0, 0}, 0, {KA, 0, 0},
     {.state = S2, .key = 21, .held = HELD(21), .m = {0}}, 1000},
    {"slow, R@500", THUMB_DOWN, RIGHT, 500, 0, {0, 0}, 0, {0, 0, 0},
     {.state = S4, .key = 21, .held = HELD(21), .m = {0}, .thumb = RIGHT, .o = {500}}, 500},
    {"slow, 21 up@899", CHARACTER_UP, 21, 899, 1, {KA, 0}, 0, {0, 0, 0},
     {.state = S3, .thumb = RIGHT, .o = {500}}, 601},
    {"slow, tick 1500", TICK, 0, 1500, 1, {RIGHT_MARK, 0}, 0, {RIGHT_MARK, 0, 0},
     {.state = S1}, NO_DEADLINE},
};

/* A letter is held, and the hardware repeats its down; then it is pressed again. A
 * function key between lets go of nothing, and an up that comes alone does nothing. */
static const line REPEATS[] = {
    {"held, 24 up@0", CHARACTER_UP, 24, 0, 0, {0, 0}, 0, {0, 0, 0},
     {.state = S1}, NO_DEADLINE},
    {"held, 21@7", CHARACTER_DOWN, 21, 7, 0, {0, 0}, 0, {KA, 0, 0},
     {.state = S2, .key = 21, .held = HELD(21), .m = {7}}, 100},
    {"held, 21@106", CHARACTER_DOWN, 21, 106, 0, {0, 0}, 0, {0, 0, 0},
     {.state = S2, .key = 21, .held = HELD(21), .m = {7}}, 1},
    {"held, 24 up@106", CHARACTER_UP, 24, 106, 0, {0, 0}, 0, {0, 0, 0},
     {.state = S2, .key = 21, .held = HELD(21), .m = {7}}, 1},
    {"held, 21@107", CHARACTER_DOWN, 21, 107, 1, {KA, 0}, 0, {0, 0, 0},
     {.state = S1, .held = HELD(21)}, NO_DEADLINE},
    {"held, 21@500", CHARACTER_DOWN, 21, 500, 0, {0, 0}, 0, {0, 0, 0},
     {.state = S1, .held = HELD(21)}, NO_DEADLINE},
    {"held, F@510", FUNCTION, 0, 510, 0, {0, 0}, 0, {0, 0, 0},
     {.state = S1, .held = HELD(21)}, NO_DEADLINE},
    {"held, 21@530", CHARACTER_DOWN, 21, 530, 0, {0, 0}, 0, {0, 0, 0},
     {.state = S1, .held = HELD(21)}, NO_DEADLINE},
    {"held, 21 up@540", CHARACTER_UP, 21, 540, 0, {0, 0}, 0, {0, 0, 0},
     {.state = S1}, NO_DEADLINE},
    {"held, 21@550", CHARACTER_DOWN, 21, 550, 0, {0, 0}, 0, {KA, 0, 0},
     {.state = S2, .key = 21, .held = HELD(21), .m = {550}}, 100},
    {"held, 21 up@560", CHARACTER_UP, 21, 560, 1, {KA, 0}, 0, {0, 0, 0},
     {.state = S1}, NO_DEADLINE},
};

/* Two letters as a chord; the second time one is let go too soon, and they come apart. */
static const line CHORD[] = {
    {"pair, 21@0", CHARACTER_DOWN, 21, 0, 0, {0, 0}, 0, {KA, 0, 0},
     {.state = S2, .key = 21, .held = HELD(21), .m = {0}}, 100},
    {"pair, 24@30", CHARACTER_DOWN, 24, 30, 0, {0, 0}, 0, {SA, 0, 0},
     {.state = S7, .key = 21, .held = HELD(21) | HELD(24), .m = {0}, .second = 24, .k = {30}}, 100},
    {"pair, 21 up@60", CHARACTER_UP, 21, 60, 1, {TOGETHER, 0}, 2, {TOGETHER, 0, 0},
     {.state = S1, .held = HELD(24)}, NO_DEADLINE},
    {"pair, 24 up@70", CHARACTER_UP, 24, 70, 0, {0, 0}, 0, {0, 0, 0}, {.state = S1}, NO_DEADLINE},
    {"pair, 24@100", CHARACTER_DOWN, 24, 100, 0, {0, 0}, 0, {SA, 0, 0},
     {.state = S2, .key = 24, .held = HELD(24), .m = {100}}, 100},
    {"pair, 21@130", CHARACTER_DOWN, 21, 130, 0, {0, 0}, 0, {KA, 0, 0},
     {.state = S7, .key = 24, .held = HELD(21) | HELD(24), .m = {100}, .second = 21, .k = {130}},
     100},
    {"pair, 24 up@159", CHARACTER_UP, 24, 159, 0, {0, 0}, 0, {0, 0, 0},
     {.state = S8, .key = 24, .held = HELD(21), .m = {100}, .second = 21, .k = {130}, .r = {159}},
     29},
    {"pair, 21 up@188", CHARACTER_UP, 21, 188, 2, {SA, KA}, 0, {0, 0, 0},
     {.state = S1}, NO_DEADLINE},
};

/* A number of the keyboard's clock comes in. */
static trabeculon_stamp at(uint64_t ms) {
    trabeculon_stamp stamp = {ms};
    return stamp;
}

static trabeculon_machine with_settings(trabeculon_machine m, uint16_t t, uint8_t solo) {
    m.t = t;
    m.j = 50;
    m.l = 50;
    m.solo = solo;
    return m;
}

static trabeculon_machine fresh(uint16_t t, uint8_t solo) {
    return trabeculon_open(t, 50, 50, solo).machine;
}

static void check_distance(const char *name, trabeculon_machine machine, uint64_t stamp,
                           int64_t want) {
    trabeculon_asked got = distance(machine, at(stamp));
    if (want == NO_DEADLINE) {
        report(name, "no deadline", got.number == 0 && got.deadline == 0 && got.milliseconds == 0);
    } else {
        report(name, "distance",
               got.number == 0 && got.deadline == 1 && got.milliseconds == want);
    }
}

static void check_line(host *h, const line *want, uint16_t t, uint8_t solo) {
    trabeculon_machine after = with_settings(want->machine, t, solo);
    after.last = at(want->stamp);

    trabeculon_stepped got = step(h->machine, want->kind, want->key, after.last);
    h->machine = got.machine;
    show(h, got);
    trabeculon_asked asked = distance(h->machine, after.last);

    printf("%-15s", want->name);
    print_run(" sent: ", &h->sent);
    print_run("  screen: ", &h->screen);
    if (asked.deadline == 1) {
        printf("  deadline: %+" PRId64 " ms", asked.milliseconds);
    }
    printf("\n");
    report(want->name, "number", got.number == 0);
    report(want->name, "items",
           got.items == want->items && got.first == want->words[0]
               && got.second == want->words[1]);
    report(want->name, "sendings",
           got.backspaces == want->backspaces && got.sent_first == want->sent[0]
               && got.sent_second == want->sent[1] && got.sent_third == want->sent[2]);
    report(want->name, "machine", same_machine(got.machine, after));
    check_distance(want->name, h->machine, want->stamp, want->distance);
}

/* One of the papers' runs; sent, screen and committed line end with 0. */
static void check_run(const char *name, const line *lines, size_t count, uint16_t t,
                      uint8_t solo, const uint16_t *sent, const uint16_t *screen) {
    host h = {.machine = fresh(t, solo)};
    for (size_t i = 0; i < count; i++) {
        check_line(&h, &lines[i], t, solo);
    }
    report(name, "all that was sent", same_run(&h.sent, sent));
    report(name, "the screen in the end", same_run(&h.screen, screen));
    report(name, "the committed line", same_run(&h.line, screen));
}

static void check_runs(void) {
    check_run("P1", P1, sizeof P1 / sizeof P1[0], 100, 0, (uint16_t[]){KA, 0},
              (uint16_t[]){KA, 0});
    check_run("P4", P4, sizeof P4 / sizeof P4[0], 100, 0, (uint16_t[]){KA, BACKSPACE, GA, 0},
              (uint16_t[]){GA, 0});
    check_run("P9", P9, sizeof P9 / sizeof P9[0], 100, 1,
              (uint16_t[]){GA, BACKSPACE, RIGHT_MARK, KA, 0}, (uint16_t[]){RIGHT_MARK, KA, 0});
    check_run("slow, up@899", SLOW_899, sizeof SLOW_899 / sizeof SLOW_899[0], 1000, 0,
              (uint16_t[]){KA, 0}, (uint16_t[]){KA, 0});
    check_run("slow, up@900", SLOW_900, sizeof SLOW_900 / sizeof SLOW_900[0], 1000, 0,
              (uint16_t[]){KA, BACKSPACE, GA, 0}, (uint16_t[]){GA, 0});
    check_run("slow, solo 1", SLOW_SOLO, sizeof SLOW_SOLO / sizeof SLOW_SOLO[0], 1000, 1,
              (uint16_t[]){KA, RIGHT_MARK, 0}, (uint16_t[]){KA, RIGHT_MARK, 0});
    check_run("held", REPEATS, sizeof REPEATS / sizeof REPEATS[0], 100, 0,
              (uint16_t[]){KA, KA, 0}, (uint16_t[]){KA, KA, 0});
    lent = ONE_PAIR;
    check_run("pair", CHORD, sizeof CHORD / sizeof CHORD[0], 100, 0,
              (uint16_t[]){KA, SA, BACKSPACE, BACKSPACE, TOGETHER, SA, KA, 0},
              (uint16_t[]){TOGETHER, SA, KA, 0});
    lent = NO_PAIRS;
}

/* ---- Opening ---- */

static void check_open(const char *name, uint16_t t, uint8_t j, uint8_t l, uint8_t solo,
                       uint64_t number) {
    trabeculon_machine opened = {.t = t, .j = j, .l = l, .solo = solo, .state = S1};
    trabeculon_machine none = {0};
    trabeculon_opened got = trabeculon_open(t, j, l, solo);
    report(name, "number", got.number == number);
    report(name, "machine", same_machine(got.machine, number == 0 ? opened : none));
}

static void check_opening(void) {
    check_open("open, the smallest", 50, 1, 1, 0, 0);
    check_open("open, the largest", 1000, 99, 99, 1, 0);
    check_open("open, T 200", 200, 50, 50, 0, 0);
    check_open("open, T 201", 201, 50, 50, 0, 0);
    check_open("open, T 256", 256, 50, 50, 0, 0);
    check_open("open, T 49", 49, 50, 50, 0, 1);
    check_open("open, T 1001", 1001, 50, 50, 0, 1);
    check_open("open, T 1024 + 50", 1074, 50, 50, 0, 1);
    check_open("open, T 65535", 65535, 50, 50, 0, 1);
    check_open("open, J 0", 100, 0, 50, 0, 1);
    check_open("open, J 100", 100, 100, 50, 0, 1);
    check_open("open, L 0", 100, 50, 0, 0, 1);
    check_open("open, L 100", 100, 50, 100, 0, 1);
    check_open("open, solo 2", 100, 50, 50, 2, 1);
}

/* ---- Refusals ---- */

/* A refused step commits and sends nothing and hands the machine back as given. */
static void check_refused(const char *name, trabeculon_machine machine, uint8_t kind,
                          uint8_t key, uint64_t stamp, uint32_t number) {
    trabeculon_stepped got = step(machine, kind, key, at(stamp));
    report(name, "number", got.number == number);
    report(name, "nothing committed or sent",
           got.items == 0 && got.first == 0 && got.second == 0 && got.backspaces == 0
               && got.sent_first == 0 && got.sent_second == 0 && got.sent_third == 0);
    report(name, "machine as given", same_machine(got.machine, machine));
}

static void check_not_asked(const char *name, trabeculon_machine machine, uint64_t stamp,
                            uint32_t number) {
    trabeculon_asked got = distance(machine, at(stamp));
    report(name, "distance refused",
           got.number == number && got.deadline == 0 && got.milliseconds == 0);
}

/* Refused 2 before anything else, whatever the event and the stamp are. */
static void check_no_machine(const char *name, trabeculon_machine machine) {
    check_refused(name, machine, TICK, 0, machine.last.ms, 2);
    check_refused(name, machine, 9, 99, UINT64_MAX, 2);
    check_not_asked(name, machine, machine.last.ms, 2);
    check_not_asked(name, machine, UINT64_MAX, 2);
    check_not_asked(name, machine, 0, 2);
}

/* Key 21 pressed at 1000, nothing since. */
static const trabeculon_machine WAITING = {
    .last = {1000}, .m = {1000}, .held = HELD(21), .t = 100, .j = 50, .l = 50, .solo = 1,
    .state = S2, .key = 21,
};

static void check_states(void) {
    trabeculon_machine m = WAITING;
    check_no_machine("what a refused opening gives", trabeculon_open(49, 50, 50, 0).machine);
    m.state = 0;
    check_no_machine("state 0", m);
    m.state = 9;
    check_no_machine("state 9", m);
    m = WAITING;
    m.thumb = RIGHT;
    check_no_machine("a thumb in state 2", m);
    m = WAITING;
    m.r = at(UINT64_MAX);
    check_no_machine("a release in state 2", m);
    m = WAITING;
    m.state = S4;
    m.o = at(1000);
    m.thumb = 2;
    check_no_machine("thumb 2", m);
    m = WAITING;
    m.key = 31;
    check_no_machine("key 31", m);
    m = WAITING;
    m.m = at(1001);
    check_no_machine("pressed after the last stamp", m);
    m = WAITING;
    m.last = at(LARGEST + 1);
    check_no_machine("last stamp too large", m);
    m = WAITING;
    m.t = 1001;
    check_no_machine("T 1001", m);
    m.t = 49;
    check_no_machine("T 49", m);
    m = WAITING;
    m.solo = 2;
    check_no_machine("solo 2", m);
    m = WAITING;
    m.state = S5;
    m.m = at(900);
    m.o = at(901);
    check_no_machine("out of order", m);
}

/* Two letters wait that are no pair of the list, and a list that is no list comes first. */
static void check_lists(void) {
    static const uint32_t twice[] = {PAIR(21, 24, TOGETHER), PAIR(24, 21, KA)};
    static const uint32_t bad[] = {
        PAIR(21, 21, KA), PAIR(31, 0, KA), PAIR(0, 31, KA), PAIR(0, 1, 0x1F), PAIR(0, 1, 0xD800),
        PAIR(0, 1, 0xDFFF),
    };
    trabeculon_machine two = WAITING, none = WAITING;
    two.state = S7;
    two.key = 21;
    two.second = 24;
    two.k = two.m;
    none.state = 9;
    lent = ONE_PAIR;
    check_distance("a pair waits", two, 1000, 100);
    check_refused("a pair waits, kind 7", two, 7, 0, 1000, 3);
    lent = NO_PAIRS;
    check_no_machine("two wait, no pair", two);
    desk desks[] = {
        {KA_SA, 1, 49, 50}, {KA_SA, 1, 1001, 50}, {KA_SA, 1, 50, 0}, {KA_SA, 1, 50, 100},
        {KA_SA, 0, 49, 50}, {KA_SA, 0, 50, 0}, {twice, 2, 100, 50},
    };
    for (size_t i = 0; i < sizeof desks / sizeof desks[0]; i++) {
        lent = desks[i];
        check_refused("a list that is refused", two, TICK, 0, 1000, 12);
        check_refused("and no machine", none, 9, 99, 0, 12);
        check_not_asked("asked with it", none, LARGEST + 1, 12);
    }
    for (size_t i = 0; i < sizeof bad / sizeof bad[0]; i++) {
        desk one = {&bad[i], 1, 100, 50};
        lent = one;
        check_refused("a pair that is refused", WAITING, TICK, 0, 1000, 12);
    }
    lent = NO_PAIRS;
}

/* Bits 31 and up are 0, and at most 6 are 1. */
static void check_held_sets(void) {
    static const uint32_t good[] = {0, HELD(0), HELD(30), 0x3F, 0x7E000000};
    static const uint32_t bad[] = {
        HELD(31), HELD(21) | HELD(31), 0xFC000000, /* bit 31 */
        0x7F, 0x7F000000, 0x7FFFFFFF, UINT32_MAX,  /* more than six */
    };
    char name[40];
    for (size_t i = 0; i < sizeof good / sizeof good[0]; i++) {
        trabeculon_machine m = WAITING;
        m.held = good[i];
        snprintf(name, sizeof name, "held %" PRIX32, m.held);
        check_distance(name, m, 1000, 100);
        trabeculon_stepped got = step(m, TICK, 0, at(1001));
        m.last = at(1001);
        report(name, "accepted", got.number == 0 && same_machine(got.machine, m));
    }
    for (size_t i = 0; i < sizeof bad / sizeof bad[0]; i++) {
        trabeculon_machine m = WAITING;
        m.held = bad[i];
        snprintf(name, sizeof name, "held %" PRIX32, m.held);
        check_no_machine(name, m);
    }
}

static void check_accepted(const char *name, uint8_t kind, uint8_t key, uint64_t stamp) {
    trabeculon_stepped got = step(WAITING, kind, key, at(stamp));
    report(name, "accepted", got.number == 0 && got.machine.last.ms == stamp);
}

static void check_events(void) {
    check_accepted("key 30, equal stamp", CHARACTER_DOWN, 30, 1000);
    check_accepted("largest stamp", TICK, 0, LARGEST);
    check_accepted("function", FUNCTION, 0, 1000);
    check_refused("kind 0", WAITING, 0, 0, 1000, 3);
    check_refused("kind 7", WAITING, 7, 0, 1000, 3);
    check_refused("key 31", WAITING, CHARACTER_DOWN, 31, 1000, 3);
    check_refused("thumb 2", WAITING, THUMB_DOWN, 2, 1000, 3);
    check_refused("function with key 1", WAITING, FUNCTION, 1, 1000, 3);
    check_refused("tick with key 1", WAITING, TICK, 1, 1000, 3);
    check_refused("stamp too large", WAITING, TICK, 0, LARGEST + 1, 4);
    check_refused("stamp one too early", WAITING, TICK, 0, 999, 5);
    check_refused("key 31 and stamp too early", WAITING, CHARACTER_DOWN, 31, 999, 3);
    check_refused("key 31 and stamp too large", WAITING, CHARACTER_DOWN, 31, LARGEST + 1, 3);
}

/* No stamp is both above the largest and before the last one of a well-formed
 * machine; so 4 and 5 are tried one by one, also with the largest last stamp. */
static void check_distances(void) {
    trabeculon_machine end = WAITING, slow = WAITING;
    end.last = at(LARGEST);
    slow.t = 1000;
    slow.j = 1;
    check_distance("still to wait", WAITING, 1000, 100);
    check_distance("one millisecond to wait", WAITING, 1099, 1);
    check_distance("due now", WAITING, 1100, 0);
    check_distance("one millisecond overdue", WAITING, 1101, -1);
    check_distance("long overdue", WAITING, LARGEST, INT64_C(1100) - (int64_t)LARGEST);
    check_distance("fresh, at 0", fresh(100, 1), 0, NO_DEADLINE);
    check_distance("fresh, at the largest", fresh(100, 1), LARGEST, NO_DEADLINE);
    check_distance("the longest wait of a lone key", slow, 1000, 99000);
    check_not_asked("one above the largest", WAITING, LARGEST + 1, 4);
    check_not_asked("far above the largest", WAITING, UINT64_MAX, 4);
    check_not_asked("one before the last", WAITING, 999, 5);
    check_not_asked("long before the last", WAITING, 0, 5);
    check_distance("the largest last stamp", end, LARGEST, INT64_C(1100) - (int64_t)LARGEST);
    check_not_asked("the largest last stamp, one more", end, LARGEST + 1, 4);
    check_not_asked("the largest last stamp, one less", end, LARGEST - 1, 5);
}

/* ---- Keys that are held ---- */

/* What a tick with this stamp gives, refusals too. */
static void check_as_tick(const char *name, trabeculon_machine machine, uint8_t kind, uint8_t key,
                          uint64_t stamp) {
    trabeculon_stepped got = step(machine, kind, key, at(stamp));
    trabeculon_stepped tick = step(machine, TICK, 0, at(stamp));
    report(name, "as a tick",
           same_machine(got.machine, tick.machine) && got.number == tick.number
               && got.items == tick.items && got.first == tick.first && got.second == tick.second
               && got.backspaces == tick.backspaces && got.sent_first == tick.sent_first
               && got.sent_second == tick.sent_second && got.sent_third == tick.sent_third);
}

/* Of a machine whose last stamp is 1000: one before it, at it, before and at the
 * deadline, long after, and too large. */
static void check_as_ticks(const char *name, trabeculon_machine machine, uint8_t kind,
                           uint8_t key) {
    const uint64_t stamps[] = {999, 1000, 1099, 1100, 5000, LARGEST + 1};
    for (size_t i = 0; i < sizeof stamps / sizeof stamps[0]; i++) {
        check_as_tick(name, machine, kind, key, stamps[i]);
    }
}

static trabeculon_machine pressed(trabeculon_machine machine, uint8_t key, uint64_t stamp) {
    trabeculon_stepped got = step(machine, CHARACTER_DOWN, key, at(stamp));
    report("a finger goes down", "accepted and held",
           got.number == TRABECULON_ACCEPTED && got.machine.held == (machine.held | HELD(key)));
    return got.machine;
}

/* Keys 0 to 4, and 30, which waits. */
static trabeculon_machine six_fingers(void) {
    trabeculon_machine m = fresh(100, 1);
    for (uint8_t key = 0; key < 5; key++) {
        m = pressed(m, key, 1000);
    }
    return pressed(m, 30, 1000);
}

static void check_seventh(trabeculon_machine six) {
    report("six fingers", "held", six.held == (0x1F | HELD(30)) && six.state == S2);
    check_refused("a seventh key", six, CHARACTER_DOWN, 21, 1000, TRABECULON_TOO_MANY_HELD);
    check_refused("a seventh key, when 30 is due", six, CHARACTER_DOWN, 21, 1100, 11);
    check_refused("a seventh key, largest stamp", six, CHARACTER_DOWN, 21, LARGEST, 11);
    check_refused("key 31 after six", six, CHARACTER_DOWN, 31, 1000, TRABECULON_NOT_ALLOWED);
    check_refused("a seventh key, stamp too large", six, CHARACTER_DOWN, 21, LARGEST + 1,
                  TRABECULON_STAMP_TOO_LARGE);
    check_refused("a seventh key, stamp too early", six, CHARACTER_DOWN, 21, 999,
                  TRABECULON_STAMP_TOO_EARLY);
    check_as_ticks("a repeat of the waiting key", six, CHARACTER_DOWN, 30);
    check_as_ticks("a repeat of an earlier key", six, CHARACTER_DOWN, 0);
    check_as_ticks("an up of the refused key", six, CHARACTER_UP, 21);
}

/* A function key lets go of none; an up of one makes room. */
static void check_let_go(trabeculon_machine six) {
    trabeculon_stepped got = step(six, FUNCTION, 0, at(1010));
    report("function", "none let go", got.number == 0 && got.machine.held == six.held);
    check_refused("a seventh key after a function key", got.machine, CHARACTER_DOWN, 21, 1010, 11);
    got = step(six, CHARACTER_UP, 0, at(1010));
    report("an earlier key goes up", "let go, and 30 still waits",
           got.number == 0 && got.items == 0 && got.machine.held == (0x1E | HELD(30))
               && got.machine.state == S2);
    pressed(got.machine, 21, 1010);
}

/* Made by hand: 21 waits and is not held. Its up is a tick, its down a press. */
static void check_not_held(void) {
    trabeculon_machine m = WAITING;
    m.held = 0;
    check_as_ticks("an up of a waiting key not held", m, CHARACTER_UP, 21);
    trabeculon_stepped got = step(m, CHARACTER_DOWN, 21, at(1010));
    report("a down of a waiting key not held", "a press",
           got.number == 0 && got.items == 1 && got.first == KA && got.sent_first == KA
               && got.machine.m.ms == 1010 && got.machine.held == HELD(21));
    m.held = 0x3F;
    check_refused("a waiting key is a seventh", m, CHARACTER_DOWN, 21, 1010, 11);
}

static void check_held(void) {
    trabeculon_machine six = six_fingers();
    check_seventh(six);
    check_let_go(six);
    check_not_held();
}

int main(void) {
    check_runs();
    check_opening();
    check_states();
    check_lists();
    check_held_sets();
    check_events();
    check_held();
    check_distances();
    printf("%d failed\n", failures);
    return failures == 0 ? 0 : 1;
}
