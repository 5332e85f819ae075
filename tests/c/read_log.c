/*
 * Reads logs through include/trabeculon.h as a C host would, and checks the
 * answer, the words, and that the rest of the buffer is untouched. Prints one
 * line per check; exits 1 if one failed.
 */
#include "trabeculon.h"

#include <stdio.h>
#include <string.h>

#define LOG_LEN 138
#define BUFFER_LEN 64
#define RUN_START 16
#define UNTOUCHED 0xA5

/* The example of document 01; its whole line is sa-i-ga-i. */
static const uint8_t EXAMPLE[LOG_LEN] = {
    1, 0, 5,  0, 100, 50, 50, 0,                 /* T=100, J=L=50, solo 0 */
    2, 0, 10, 1, 24, 0, 0, 0, 0, 0, 0, 0, 0,     /* at   8: 24 down @0 */
    2, 0, 10, 2, 24, 0, 0, 0, 0, 0, 0, 0, 60,    /* at  21: 24 up @60 */
    2, 0, 10, 1, 18, 0, 0, 0, 0, 0, 0, 0, 100,   /* at  34: 18 down @100 */
    2, 0, 10, 2, 18, 0, 0, 0, 0, 0, 0, 0, 150,   /* at  47: 18 up @150 */
    2, 0, 10, 1, 21, 0, 0, 0, 0, 0, 0, 0, 200,   /* at  60: 21 down @200 */
    2, 0, 10, 3, 1, 0, 0, 0, 0, 0, 0, 0, 230,    /* at  73: right thumb down @230 */
    2, 0, 10, 2, 21, 0, 0, 0, 0, 0, 0, 1, 14,    /* at  86: 21 up @270 */
    2, 0, 10, 4, 1, 0, 0, 0, 0, 0, 0, 1, 24,     /* at  99: right thumb up @280 */
    2, 0, 10, 1, 18, 0, 0, 0, 0, 0, 0, 1, 44,    /* at 112: 18 down @300 */
    2, 0, 10, 6, 0, 0, 0, 0, 0, 0, 0, 1, 144,    /* at 125: tick @400 */
};

/* Its words: U+3055, U+3044, U+304C, U+3044. */
static const uint8_t WORDS[8] = {0x30, 0x55, 0x30, 0x44, 0x30, 0x4C, 0x30, 0x44};

/* A right mark and U+304B, both committed by the last record. */
static const uint8_t TWO_AT_ONCE[60] = {
    1, 0, 5,  0, 100, 50, 50, 1,                 /* T=100, J=L=50, solo 1 */
    2, 0, 10, 3, 1, 0, 0, 0, 0, 0, 0, 0, 0,      /* at   8: right thumb down @0 */
    2, 0, 10, 1, 21, 0, 0, 0, 0, 0, 0, 0, 40,    /* at  21: 21 down @40 */
    2, 0, 10, 4, 1, 0, 0, 0, 0, 0, 0, 0, 60,     /* at  34: right thumb up @60 */
    2, 0, 10, 6, 0, 0, 0, 0, 0, 0, 0, 0, 80,     /* at  47: tick @80 */
};
static const uint8_t TWO_WORDS[4] = {0x00, 0x02, 0x30, 0x4B};

/* Request 4/12: key 21 goes up with 399 ms of overlap; the last byte 132 makes it
 * 400 ms. */
#define SLOW_LEN 47
static const uint8_t SLOW[SLOW_LEN] = {
    1, 0, 5,  3, 232, 50, 50, 0,                 /* T=1000, J=L=50, solo 0 */
    2, 0, 10, 1, 21, 0, 0, 0, 0, 0, 0, 0, 0,     /* at   8: 21 down @0 */
    2, 0, 10, 3, 1, 0, 0, 0, 0, 0, 0, 1, 244,    /* at  21: right thumb down @500 */
    2, 0, 10, 2, 21, 0, 0, 0, 0, 0, 0, 3, 131,   /* at  34: 21 up @899 */
};
static const uint8_t KA[2] = {0x30, 0x4B};
static const uint8_t GA[2] = {0x30, 0x4C};

/* Request 7/12: a letter is held until it repeats, goes up and is pressed again. */
static const uint8_t HELD[99] = {
    1, 0, 5,  0, 100, 50, 50, 0,                 /* T=100, J=L=50, solo 0 */
    2, 0, 10, 2, 24, 0, 0, 0, 0, 0, 0, 0, 0,     /* at   8: 24 up @0, not held */
    2, 0, 10, 1, 21, 0, 0, 0, 0, 0, 0, 0, 0,     /* at  21: 21 down @0 */
    2, 0, 10, 1, 21, 0, 0, 0, 0, 0, 0, 1, 244,   /* at  34: 21 down @500, a repeat */
    2, 0, 10, 1, 21, 0, 0, 0, 0, 0, 0, 2, 21,    /* at  47: 21 down @533, a repeat */
    2, 0, 10, 2, 21, 0, 0, 0, 0, 0, 0, 2, 88,    /* at  60: 21 up @600 */
    2, 0, 10, 1, 21, 0, 0, 0, 0, 0, 0, 2, 188,   /* at  73: 21 down @700 */
    2, 0, 10, 2, 21, 0, 0, 0, 0, 0, 0, 2, 238,   /* at  86: 21 up @750 */
};
static const uint8_t KA_TWICE[4] = {0x30, 0x4B, 0x30, 0x4B};

/* Six keys are held, and what waits is due when a seventh is pressed. */
#define SEVEN_LEN 112
static const uint8_t SEVEN[SEVEN_LEN] = {
    1, 0, 5,  0, 100, 50, 50, 0,                 /* T=100, J=L=50, solo 0 */
    2, 0, 10, 1, 10, 0, 0, 0, 0, 0, 0, 0, 0,     /* at   8: 10 down @0 */
    2, 0, 10, 1, 11, 0, 0, 0, 0, 0, 0, 0, 0,     /* at  21: 11 down @0 */
    2, 0, 10, 1, 12, 0, 0, 0, 0, 0, 0, 0, 0,     /* at  34: 12 down @0 */
    2, 0, 10, 1, 13, 0, 0, 0, 0, 0, 0, 0, 0,     /* at  47: 13 down @0 */
    2, 0, 10, 1, 14, 0, 0, 0, 0, 0, 0, 0, 0,     /* at  60: 14 down @0 */
    2, 0, 10, 1, 15, 0, 0, 0, 0, 0, 0, 0, 0,     /* at  73: 15 down @0 */
    2, 0, 10, 1, 15, 0, 0, 0, 0, 0, 0, 0, 50,    /* at  86: 15 down @50, a repeat */
    2, 0, 10, 1, 16, 0, 0, 0, 0, 0, 0, 0, 100,   /* at  99: 16 down @100 */
};
/* The five that were committed: U+3046, U+3057, U+3066, U+3051, U+305B. */
static const uint8_t FIVE[10] = {0x30, 0x46, 0x30, 0x57, 0x30, 0x66, 0x30, 0x51, 0x30, 0x5B};

static int failures = 0;

static void report(const char *name, const char *what, int ok) {
    printf("%s: %s, %s\n", ok ? "ok" : "FAILED", name, what);
    if (!ok) {
        failures++;
    }
}

static int same_answer(trabeculon_answer got, trabeculon_answer want) {
    return got.number == want.number && got.waiting == want.waiting
        && got.words == want.words && got.offset == want.offset;
}

static int all_untouched(const uint8_t *bytes, size_t length) {
    for (size_t i = 0; i < length; i++) {
        if (bytes[i] != UNTOUCHED) {
            return 0;
        }
    }
    return 1;
}

/* Reads a log into a run inside a larger buffer and checks all of the buffer. */
static void check_log(const char *name, const uint8_t *log, size_t log_len,
                      const uint8_t *words, size_t run_len, trabeculon_answer want) {
    uint8_t buffer[BUFFER_LEN];
    uint8_t *run = buffer + RUN_START;
    size_t written = 2 * (size_t)want.words;
    memset(buffer, UNTOUCHED, sizeof buffer);

    trabeculon_answer got = trabeculon_read_log(log, log_len, run, run_len);

    report(name, "answer", same_answer(got, want));
    report(name, "words", memcmp(run, words, written) == 0);
    report(name, "rest untouched",
           all_untouched(buffer, RUN_START)
               && all_untouched(run + written, BUFFER_LEN - RUN_START - written));
}

/* The first bytes of the example. */
static void check(const char *name, size_t log_len, size_t run_len, trabeculon_answer want) {
    check_log(name, EXAMPLE, log_len, WORDS, run_len, want);
}

/* The log whose last record gives two words. */
static void check_two(const char *name, size_t run_len, trabeculon_answer want) {
    check_log(name, TWO_AT_ONCE, sizeof TWO_AT_ONCE, TWO_WORDS, run_len, want);
}

/* The example with one byte changed. */
static void check_damaged(const char *name, size_t place, uint8_t value,
                          trabeculon_answer want) {
    uint8_t log[LOG_LEN];
    memcpy(log, EXAMPLE, LOG_LEN);
    log[place] = value;
    check_log(name, log, LOG_LEN, WORDS, 32, want);
}

/* The example with another T. */
static void check_t(const char *name, unsigned t, trabeculon_answer want) {
    uint8_t log[LOG_LEN];
    memcpy(log, EXAMPLE, LOG_LEN);
    log[3] = (uint8_t)(t >> 8);
    log[4] = (uint8_t)(t & 0xFF);
    check_log(name, log, LOG_LEN, WORDS, 32, want);
}

/* The log of slower hands, its last stamp ending with this byte. */
static void check_slow(const char *name, uint8_t last_byte, const uint8_t *words,
                       trabeculon_answer want) {
    uint8_t log[SLOW_LEN];
    memcpy(log, SLOW, SLOW_LEN);
    log[SLOW_LEN - 1] = last_byte;
    check_log(name, log, SLOW_LEN, words, 32, want);
}

/* The log of a seventh key, its last record with one byte changed. */
static void check_seven(const char *name, size_t place, uint8_t value, size_t run_len,
                        trabeculon_answer want) {
    uint8_t log[SEVEN_LEN];
    memcpy(log, SEVEN, SEVEN_LEN);
    log[99 + place] = value;
    check_log(name, log, SEVEN_LEN, FIVE, run_len, want);
}

static trabeculon_answer answer(uint32_t number, uint64_t words, uint64_t offset,
                                uint32_t waiting) {
    trabeculon_answer a = {number, waiting, words, offset};
    return a;
}

/* 11 comes after 6, 7, 3, 4 and 5, and before 8: the sixth word doesn't fit. */
static void check_held(void) {
    check_log("a letter that repeats", HELD, sizeof HELD, KA_TWICE, 32, answer(0, 2, 99, 0));
    check_log("a seventh key", SEVEN, SEVEN_LEN, FIVE, 32, answer(11, 5, 99, 1));
    check_log("a seventh key, no more room", SEVEN, SEVEN_LEN, FIVE, 10, answer(11, 5, 99, 1));
    check_log("too little room before it", SEVEN, SEVEN_LEN, FIVE, 8, answer(8, 4, 73, 1));
    check_log("a seventh key, cut", SEVEN, SEVEN_LEN - 1, FIVE, 10, answer(6, 5, 99, 1));
    check_seven("a seventh key, tag damaged", 0, 9, 10, answer(7, 5, 99, 1));
    check_seven("key 31 after six", 4, 31, 10, answer(3, 5, 99, 1));
    check_seven("a seventh key, stamp too large", 5, 1, 10, answer(4, 5, 99, 1));
    check_seven("a seventh key, stamp too early", 12, 49, 10, answer(5, 5, 99, 1));
    check_seven("a repeat, no more room", 4, 15, 10, answer(8, 5, 99, 1));
}

int main(void) {
    check("whole log", LOG_LEN, 32, answer(0, 4, 138, 0));
    check("run just long enough", LOG_LEN, 8, answer(0, 4, 138, 0));
    check("run of odd length", LOG_LEN, 9, answer(0, 4, 138, 0));
    check("run too short", LOG_LEN, 4, answer(8, 2, 86, 1));
    check("run too short, odd", LOG_LEN, 7, answer(8, 3, 125, 1));
    check("run of one byte", LOG_LEN, 1, answer(8, 0, 21, 1));
    check("run of no bytes", LOG_LEN, 0, answer(8, 0, 21, 1));
    check("empty log", 0, 32, answer(6, 0, 0, 0));
    check("log cut in a body", 98, 32, answer(6, 2, 86, 1));
    check_two("two words at once", 5, answer(0, 2, 60, 0));
    check_two("room for one of two words", 3, answer(8, 0, 47, 1));
    check_damaged("tag damaged", 73, 9, answer(7, 2, 73, 1));
    check_damaged("length damaged", 75, 11, answer(7, 2, 73, 1));
    check_damaged("settings damaged", 4, 49, answer(1, 0, 0, 0));
    check_t("T 49", 49, answer(1, 0, 0, 0));
    check_t("T 50", 50, answer(0, 4, 138, 0));
    /* From here on the last character still waits at the tick. */
    check_t("T 200", 200, answer(0, 3, 138, 1));
    check_t("T 201", 201, answer(0, 3, 138, 1));
    check_t("T 1000", 1000, answer(0, 3, 138, 1));
    check_t("T 1001", 1001, answer(1, 0, 0, 0));
    check_t("T 1024 + 50", 1074, answer(1, 0, 0, 0));
    check_t("T 65535", 65535, answer(1, 0, 0, 0));
    check_slow("T 1000, up @899", 131, KA, answer(0, 1, 47, 0));
    check_slow("T 1000, up @900", 132, GA, answer(0, 1, 47, 0));
    check_damaged("key damaged", 77, 2, answer(3, 2, 73, 1));
    check_damaged("stamp too large", 78, 1, answer(4, 2, 73, 1));
    check_damaged("stamp too early", 85, 199, answer(5, 2, 73, 1));
    check_held();
    printf("%d failed\n", failures);
    return failures == 0 ? 0 : 1;
}
