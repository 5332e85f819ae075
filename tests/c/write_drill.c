/*
 * Writes drills through include/trabeculon.h as a C host would and reads them
 * back: checks the answer, the log, that the rest of the buffer and the line are
 * untouched, and that the reader gives back the line. Refusal 4 takes a line of
 * 4,000,000,001 words and is not tried here. Prints one line per check; exits 1
 * if one failed.
 */
#include "trabeculon.h"

#include <stdio.h>
#include <string.h>

#define BUFFER_LEN 1024
#define RUN_START 16
#define MOST_WORDS 12
#define UNTOUCHED 0xA5

/* sa (plain) and ga (right thumb) at T=1000, J=1, L=99, solo 1. */
static const uint16_t SAGA[2] = {0x3055, 0x304C};
static const uint8_t SAGA_LOG[99] = {
    1, 0, 5,  3, 232, 1, 99, 1,                  /* settings */
    2, 0, 10, 1, 24, 0, 0, 0, 0, 0, 0, 0, 0,     /* 24 down @0 */
    2, 0, 10, 2, 24, 0, 0, 0, 0, 0, 0, 0, 0,     /* 24 up @0 */
    2, 0, 10, 1, 21, 0, 0, 0, 0, 0, 0, 0, 250,   /* 21 down @250 */
    2, 0, 10, 3, 1, 0, 0, 0, 0, 0, 0, 0, 250,    /* right thumb down @250 */
    2, 0, 10, 6, 0, 0, 0, 0, 0, 0, 0, 0, 250,    /* tick @250 */
    2, 0, 10, 4, 1, 0, 0, 0, 0, 0, 0, 0, 250,    /* right thumb up @250 */
    2, 0, 10, 2, 21, 0, 0, 0, 0, 0, 0, 0, 250,   /* 21 up @250 */
};

/* Both full-width signs, both thumbs, doubled letters, a stop, a long vowel. */
static const uint16_t MIXED[MOST_WORDS] = {
    0xFF0E, 0xFF0E, 0xFF0C, 0x3055, 0x3055, 0x304C,
    0x304C, 0x3048, 0x3048, 0x3002, 0x30FC, 0x30FB,
};
/* Settings, 7 plain characters and 5 chords. */
#define MIXED_BYTES (8 + 7 * 26 + 5 * 65)

/* Settings in range, and a run's length. */
typedef struct {
    uint16_t t;
    uint8_t j, l, solo;
    size_t run_len;
} setup;

static uint8_t buffer[BUFFER_LEN];
static uint8_t *const run = buffer + RUN_START;
static int failures = 0;

static void report(const char *name, const char *what, int ok) {
    printf("%s: %s, %s\n", ok ? "ok" : "FAILED", name, what);
    if (!ok) {
        failures++;
    }
}

static int all_untouched(const uint8_t *bytes, size_t length) {
    for (size_t i = 0; i < length; i++) {
        if (bytes[i] != UNTOUCHED) {
            return 0;
        }
    }
    return 1;
}

static trabeculon_drill drill(uint64_t number, uint64_t bytes, uint64_t position) {
    trabeculon_drill d = {number, bytes, position};
    return d;
}

static int same_drill(trabeculon_drill got, trabeculon_drill want) {
    return got.number == want.number && got.bytes == want.bytes
        && got.position == want.position;
}

/* Writes a drill into a run inside the buffer; checks the answer and what lies
 * around the log. */
static void check(const char *name, setup s, const uint16_t *line, size_t line_len,
                  trabeculon_drill want) {
    uint16_t kept[MOST_WORDS];
    size_t written = (size_t)want.bytes;
    memset(buffer, UNTOUCHED, sizeof buffer);
    memcpy(kept, line, 2 * line_len);

    trabeculon_drill got =
        trabeculon_write_drill(s.t, s.j, s.l, s.solo, line, line_len, run, s.run_len);

    report(name, "answer", same_drill(got, want));
    report(name, "rest untouched",
           all_untouched(buffer, RUN_START)
               && all_untouched(run + written, BUFFER_LEN - RUN_START - written));
    report(name, "line unchanged", memcmp(kept, line, 2 * line_len) == 0);
}

/* Reads the drill that lies in the run, with just enough room for the line. */
static void check_read_back(const char *name, size_t log_len, const uint16_t *line,
                            size_t line_len) {
    uint8_t words[2 * MOST_WORDS + 1];
    int same = 1;
    memset(words, UNTOUCHED, sizeof words);

    trabeculon_answer got = trabeculon_read_log(run, log_len, words, 2 * line_len);

    for (size_t i = 0; i < line_len; i++) {
        same = same && words[2 * i] == line[i] >> 8 && words[2 * i + 1] == (line[i] & 0xFF);
    }
    report(name, "read back, answer",
           got.number == 0 && got.waiting == 0 && got.words == line_len
               && got.offset == log_len);
    report(name, "read back, line", same && words[2 * line_len] == UNTOUCHED);
}

static void check_written(void) {
    setup ample = {1000, 1, 99, 1, 500};
    setup exact = {1000, 1, 99, 1, sizeof SAGA_LOG};
    check("two characters", ample, SAGA, 2, drill(0, 99, 2));
    report("two characters", "log", memcmp(run, SAGA_LOG, sizeof SAGA_LOG) == 0);
    check_read_back("two characters", 99, SAGA, 2);
    check("just enough room", exact, SAGA, 2, drill(0, 99, 2));
    report("just enough room", "log", memcmp(run, SAGA_LOG, sizeof SAGA_LOG) == 0);

    check("twelve characters", (setup){50, 99, 1, 0, 600}, MIXED, 12, drill(0, MIXED_BYTES, 12));
    check_read_back("twelve characters", MIXED_BYTES, MIXED, 12);
    check("no character", (setup){1000, 1, 99, 1, 8}, SAGA, 0, drill(0, 8, 0));
    report("no character", "log", memcmp(run, SAGA_LOG, 8) == 0);
    check_read_back("no character", 8, SAGA, 0);
}

/* Written with this T, which stands in the log, and read back. */
static void check_t(const char *name, uint16_t t) {
    uint8_t log[sizeof SAGA_LOG];
    memcpy(log, SAGA_LOG, sizeof log);
    log[3] = (uint8_t)(t >> 8);
    log[4] = (uint8_t)(t & 0xFF);
    check(name, (setup){t, 1, 99, 1, 500}, SAGA, 2, drill(0, 99, 2));
    report(name, "log", memcmp(run, log, sizeof log) == 0);
    check_read_back(name, 99, SAGA, 2);
}

static void check_settings(void) {
    check_t("T 50", 50);
    check_t("T 200", 200);
    check_t("T 201", 201);
    check_t("T 256", 256);
    check_t("T 1000", 1000);
    check("T 49", (setup){49, 50, 50, 0, 500}, SAGA, 2, drill(1, 0, 0));
    check("T 1001", (setup){1001, 50, 50, 0, 500}, SAGA, 2, drill(1, 0, 0));
    check("T 1024 + 50", (setup){1074, 50, 50, 0, 500}, SAGA, 2, drill(1, 0, 0));
    check("T 65535", (setup){65535, 50, 50, 0, 500}, SAGA, 2, drill(1, 0, 0));
    check("J 0", (setup){100, 0, 50, 0, 500}, SAGA, 2, drill(1, 0, 0));
    check("J 100", (setup){100, 100, 50, 0, 500}, SAGA, 2, drill(1, 0, 0));
    check("L 0", (setup){100, 50, 0, 0, 500}, SAGA, 2, drill(1, 0, 0));
    check("L 100", (setup){100, 50, 100, 0, 500}, SAGA, 2, drill(1, 0, 0));
    check("solo 2", (setup){100, 50, 50, 2, 500}, SAGA, 2, drill(1, 0, 0));
}

/* Characters on no face, each at position 2 behind two that are on one. */
static void check_strangers(setup s) {
    static const uint16_t strangers[] = {0, 1, 2, 0x0A, 0x2FFF, 0x3000, 0x30AB, 0x30FF, 0x3100,
                                         0xFF0D, 0xFF0F, 0xFFFF};
    for (size_t i = 0; i < sizeof strangers / sizeof strangers[0]; i++) {
        char name[32];
        uint16_t line[4] = {SAGA[0], SAGA[1], strangers[i], 0};
        snprintf(name, sizeof name, "U+%04X", (unsigned)strangers[i]);
        check(name, s, line, 4, drill(10, 0, 2));
    }
}

static void check_order(void) {
    setup usual = {100, 50, 50, 0, 500};
    setup none = {100, 50, 50, 0, 0};
    setup wrong = {49, 50, 50, 0, 0};
    uint16_t line[2] = {0x3055, 0x0041};
    check("one byte too little", (setup){1000, 1, 99, 1, 98}, SAGA, 2, drill(8, 0, 2));
    check("no room", none, SAGA, 2, drill(8, 0, 2));
    check("no character, seven bytes", (setup){100, 50, 50, 0, 7}, SAGA, 0, drill(8, 0, 0));
    check("on no face", usual, line, 2, drill(10, 0, 1));
    check("on no face, the first", usual, line + 1, 1, drill(10, 0, 0));
    check("on no face, no room", none, line, 2, drill(10, 0, 1));
    check("settings before all else", wrong, line, 2, drill(1, 0, 0));
}

int main(void) {
    check_written();
    check_settings();
    check_strangers((setup){100, 50, 50, 0, 500});
    check_order();
    printf("%d failed\n", failures);
    return failures == 0 ? 0 : 1;
}
