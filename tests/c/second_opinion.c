/*
 * Asks for a second opinion through include/trabeculon.h as a C host would, and
 * compares it with the reader: the answer, and every byte of the run. Prints one
 * line per check; exits 1 if one failed.
 */
#include "trabeculon.h"

#include <stdio.h>
#include <string.h>

#define RUN_LEN 33
#define UNTOUCHED 0xA5

/* The example of document 01; its line is sa-i-ga-i. */
static const uint8_t EXAMPLE[138] = {
    1, 0, 5,  0, 100, 50, 50, 0,                 /* T=100, J=L=50, solo 0 */
    2, 0, 10, 1, 24, 0, 0, 0, 0, 0, 0, 0, 0,     /* at   8: 24 down @0 */
    2, 0, 10, 2, 24, 0, 0, 0, 0, 0, 0, 0, 60,    /* at  21: 24 up @60 */
    2, 0, 10, 1, 18, 0, 0, 0, 0, 0, 0, 0, 100,   /* at  34: 18 down @100 */
    2, 0, 10, 2, 18, 0, 0, 0, 0, 0, 0, 0, 150,   /* at  47: 18 up @150 */
    2, 0, 10, 1, 21, 0, 0, 0, 0, 0, 0, 0, 200,   /* at  60: 21 down @200 */
    2, 0, 10, 3, 1, 0, 0, 0, 0, 0, 0, 0, 230,    /* at  73: right thumb down @230 */
    2, 0, 10, 2, 21, 0, 0, 0, 0, 0, 0, 1, 14,    /* at  86: 21 up @270 */
    2, 0, 10, 4, 1, 0, 0, 0, 0, 0, 0, 1, 24,     /* at  99: right thumb up @280 */
    2, 0, 10, 1, 18, 0, 0, 0, 0, 0, 0, 1, 44,    /* at 112: 18 down @300 */
    2, 0, 10, 6, 0, 0, 0, 0, 0, 0, 0, 1, 144,    /* at 125: tick @400 */
};

/* A thumb that a nearer letter takes is not asked for its own deadline, which has
 * passed: ka, za, and no mark. */
static const uint8_t TAKEN[60] = {
    1, 0, 5,  0, 100, 50, 99, 1,                 /* T=100, J=50, L=99, solo 1 */
    2, 0, 10, 1, 21, 0, 0, 0, 0, 0, 0, 0, 0,     /* at   8: 21 down @0 */
    2, 0, 10, 3, 1, 0, 0, 0, 0, 0, 0, 0, 30,     /* at  21: right thumb down @30 */
    2, 0, 10, 1, 24, 0, 0, 0, 0, 0, 0, 0, 50,    /* at  34: 24 down @50 */
    2, 0, 10, 6, 0, 0, 0, 0, 0, 0, 0, 19, 136,   /* at  47: tick @5000 */
};

/* A list of no pairs; its count 1 and one pair, 21 and 24 to U+3042; and N 0. */
static const uint8_t NO_PAIRS[27] = {
    1, 0, 5, 0, 100, 50, 50, 0, 3, 0, 3, 0, 60, 50, 2, 0, 10, 1, 24, 0, 0, 0, 0, 0, 0, 0, 0,
};
static const uint8_t ONE_PAIR[31] = {
    1, 0, 5, 0, 100, 50, 50, 0, 3, 0, 7, 0, 60, 50, 21, 24, 0x30, 0x42,
    2, 0, 10, 1, 24, 0, 0, 0, 0, 0, 0, 0, 0,
};
static const uint8_t BAD_LIST[18] = {
    1, 0, 5, 0, 100, 50, 50, 0, 3, 0, 7, 0, 60, 0, 21, 24, 0x30, 0x42,
};

static int failed;

static void check(const char *what, int holds)
{
    printf("%s %s\n", holds ? "ok  " : "FAIL", what);
    if (!holds)
        failed = 1;
}

static int same(trabeculon_answer a, trabeculon_answer b)
{
    return a.number == b.number && a.waiting == b.waiting && a.words == b.words &&
           a.offset == b.offset;
}

/* With this log and so long a run the two say the same, and leave the same bytes. */
static int agree(const uint8_t *log, size_t log_len, size_t run_len)
{
    uint8_t read[RUN_LEN], looked[RUN_LEN];
    trabeculon_answer reader, opinion;

    memset(read, UNTOUCHED, sizeof read);
    memset(looked, UNTOUCHED, sizeof looked);
    reader = trabeculon_read_log(log, log_len, read, run_len);
    opinion = trabeculon_second_opinion(log, log_len, looked, run_len);
    return same(reader, opinion) && memcmp(read, looked, sizeof read) == 0;
}

/* It answers this, and writes nothing. */
static int refused(const uint8_t *log, size_t log_len, size_t run_len, uint32_t number,
                   uint64_t offset)
{
    trabeculon_answer expected = {number, 0, 0, offset};
    uint8_t run[RUN_LEN];
    size_t i;

    memset(run, UNTOUCHED, sizeof run);
    if (!same(trabeculon_second_opinion(log, log_len, run, run_len), expected))
        return 0;
    for (i = 0; i < sizeof run; i++)
        if (run[i] != UNTOUCHED)
            return 0;
    return 1;
}

int main(void)
{
    uint8_t damaged[sizeof EXAMPLE], run[RUN_LEN];
    trabeculon_answer answer;
    size_t n;
    int all;

    answer = trabeculon_second_opinion(EXAMPLE, sizeof EXAMPLE, run, sizeof run);
    check("the example: four words, none waiting, its whole length",
          answer.number == TRABECULON_ACCEPTED && answer.words == 4 && answer.waiting == 0 &&
              answer.offset == sizeof EXAMPLE && run[0] == 0x30 && run[1] == 0x55);
    all = 1;
    for (n = 0; n <= sizeof EXAMPLE; n++)
        all = all && agree(EXAMPLE, n, RUN_LEN);
    check("cut behind every byte it is answered as the reader answers", all);
    all = 1;
    for (n = 0; n < sizeof EXAMPLE; n++) {
        memcpy(damaged, EXAMPLE, sizeof EXAMPLE);
        damaged[n] ^= 0x41;
        all = all && agree(damaged, sizeof damaged, RUN_LEN);
    }
    check("with any one byte damaged too", all);
    check("a run of exactly four words, and one byte more",
          agree(EXAMPLE, sizeof EXAMPLE, 8) && agree(EXAMPLE, sizeof EXAMPLE, 9));
    check("a run of three words: 8 at offset 0, nothing written",
          refused(EXAMPLE, sizeof EXAMPLE, 7, TRABECULON_NO_ROOM, 0));
    check("the same where a record is refused further on",
          refused(EXAMPLE, sizeof EXAMPLE - 1, 0, TRABECULON_NO_ROOM, 0));
    check("a taken thumb is not asked for its deadline", agree(TAKEN, sizeof TAKEN, RUN_LEN));
    check("a list of no pairs changes nothing", agree(NO_PAIRS, sizeof NO_PAIRS, RUN_LEN));
    check("a list with a pair: 14 at the list, with room and without",
          refused(ONE_PAIR, sizeof ONE_PAIR, RUN_LEN, TRABECULON_HAS_PAIRS, 8) &&
              refused(ONE_PAIR, sizeof ONE_PAIR, 0, TRABECULON_HAS_PAIRS, 8));
    check("a list that is refused: 12 first",
          refused(BAD_LIST, sizeof BAD_LIST, RUN_LEN, TRABECULON_PAIRS_REFUSED, 8));
    return failed;
}
