/*
 * Reads logs in pieces through include/trabeculon.h as a C host would, and
 * checks each answer, the words, and that the rest of each run is untouched, and
 * of the row that a list of pairs lives in. Prints one line per check; exits 1 if
 * one failed. Run from the repository's root, where the logs are: examples/.
 */
#include "trabeculon.h"

#include <stdio.h>
#include <string.h>

#define LOG_LEN 138
#define PAIR_LEN 70
#define LIST_AT 8 /* where a list stands: behind the settings */
#define LIST_END 18
#define ROW_LEN (TRABECULON_MOST_PAIRS + 2)
#define RUN_LEN 64
#define LINE_LEN 64
#define UNTOUCHED 0xA5
#define LONGEST_LOG 1000000000000u

/* The header checks the sizes; there is no padding where these lie as they do. */
_Static_assert(offsetof(trabeculon_reader, offset) == 56, "the machine comes first");
_Static_assert(offsetof(trabeculon_reader, number) == 108, "a reader has no padding");
_Static_assert(offsetof(trabeculon_reader, opened) == 119, "nor at its end");
_Static_assert(offsetof(trabeculon_piece_read, answer) == 120, "its answer neither");

/* The words of the log: U+3055, U+3044, U+304C, U+3044. */
static const uint8_t WORDS[8] = {0x30, 0x55, 0x30, 0x44, 0x30, 0x4C, 0x30, 0x44};
/* Of the log with a list, whose pair 21, 24 gives U+308E; and of the one in which the
 * second key goes up too late: U+304B, U+3055. */
static const uint8_t PAIR_WORDS[2] = {0x30, 0x8E};
static const uint8_t LATE_WORDS[4] = {0x30, 0x4B, 0x30, 0x55};

static uint8_t log_bytes[LOG_LEN];
static uint8_t pair_bytes[PAIR_LEN];
static uint8_t late_bytes[PAIR_LEN];
static int failures = 0;

static void report(const char *name, const char *what, int ok) {
    printf("%s: %s, %s\n", ok ? "ok" : "FAILED", name, what);
    if (!ok) {
        failures++;
    }
}

static trabeculon_answer answer(uint32_t number, uint64_t words, uint64_t offset,
                                uint32_t waiting) {
    trabeculon_answer a = {number, waiting, words, offset};
    return a;
}

/* No padding, so two answers or two readers are the same if their bytes are. */
static int same_answer(trabeculon_answer got, trabeculon_answer want) {
    return memcmp(&got, &want, sizeof got) == 0;
}

static int same_reader(trabeculon_reader got, trabeculon_reader want) {
    return memcmp(&got, &want, sizeof got) == 0;
}

static int all_untouched(const uint8_t *bytes, size_t length) {
    for (size_t i = 0; i < length; i++) {
        if (bytes[i] != UNTOUCHED) {
            return 0;
        }
    }
    return 1;
}

/* What a host has of a log: the reader, the row that its list lives in, and the line so
 * far. The row is a little longer than it must be. */
typedef struct {
    trabeculon_piece_read last;
    uint32_t row[ROW_LEN];
    uint8_t line[LINE_LEN];
    size_t line_len;
    int clean; /* nothing was touched besides the words and the row's first 64 */
} host;

static host begin(void) {
    host h;
    memset(&h, 0, sizeof h);
    memset(h.row, UNTOUCHED, sizeof h.row);
    h.last.reader = trabeculon_reader_fresh();
    h.clean = 1;
    return h;
}

/* One piece with a run of so many bytes. */
static void take_piece(host *h, const uint8_t *piece, size_t piece_len, size_t run_len) {
    uint8_t run[RUN_LEN];
    memset(run, UNTOUCHED, sizeof run);
    trabeculon_piece_read got =
        trabeculon_reader_piece(h->last.reader, h->row, ROW_LEN, piece, piece_len, run, run_len);
    size_t written =
        got.answer.number == 2 ? 0 : 2 * (size_t)(got.answer.words - h->last.reader.words);
    memcpy(h->line + h->line_len, run, written);
    h->line_len += written;
    h->clean = h->clean && all_untouched(run + written, RUN_LEN - written)
        && all_untouched((const uint8_t *)(h->row + TRABECULON_MOST_PAIRS),
                         sizeof h->row - sizeof h->row[0] * TRABECULON_MOST_PAIRS);
    h->last = got;
}

static void finish(host *h) {
    h->last = trabeculon_reader_end(h->last.reader, h->row, ROW_LEN);
}

static void check_line(const char *name, const host *h, trabeculon_answer want,
                       const uint8_t *words) {
    report(name, "answer", same_answer(h->last.answer, want));
    report(name, "line", h->line_len == 2 * want.words && memcmp(h->line, words, h->line_len) == 0);
    report(name, "runs untouched besides", h->clean);
}

static void check_host(const char *name, const host *h, trabeculon_answer want) {
    check_line(name, h, want, WORDS);
}

/* A log from a place to another in pieces of one length, each with a run that
 * suffices. Before the end each answer is 0 and the bytes so far. */
static int feed_log(host *h, const uint8_t *log, size_t from, size_t to, size_t length) {
    int going = 1;
    for (size_t at = from; at < to; at += length) {
        size_t piece_len = to - at < length ? to - at : length;
        take_piece(h, log + at, piece_len, 4 * (piece_len / 13 + 2));
        going = going && h->last.answer.number == 0 && h->last.answer.offset == at + piece_len;
    }
    return going;
}

static int feed(host *h, size_t from, size_t to, size_t length) {
    return feed_log(h, log_bytes, from, to, length);
}

static void check_whole(const char *name, size_t length) {
    host h = begin();
    report(name, "going on", feed(&h, 0, LOG_LEN, length));
    finish(&h);
    check_host(name, &h, answer(0, 4, LOG_LEN, 0));
}

/* As trabeculon_read_log says, whatever the first bytes are. */
static void check_every_front(void) {
    int same = 1;
    for (size_t length = 0; length <= LOG_LEN; length++) {
        uint8_t run[RUN_LEN];
        trabeculon_answer want = trabeculon_read_log(log_bytes, length, run, sizeof run);
        host h = begin();
        feed(&h, 0, length, 5);
        finish(&h);
        same = same && same_answer(h.last.answer, want) && h.line_len == 2 * want.words
            && memcmp(h.line, run, h.line_len) == 0;
    }
    report("every front of the log", "as read whole", same);
}

/* Saved in the middle of a record, and gone on with by another host. */
static void check_saved(void) {
    uint8_t saved[sizeof(trabeculon_reader)];
    host h = begin();
    feed(&h, 0, 80, 7);
    memcpy(saved, &h.last.reader, sizeof saved);
    host other = h;
    memset(&other.last, 0xFF, sizeof other.last);
    memcpy(&other.last.reader, saved, sizeof saved);
    feed(&other, 80, LOG_LEN, 13);
    finish(&other);
    check_host("saved and gone on with", &other, answer(0, 4, LOG_LEN, 0));
}

/* After a refusal and after the end. */
static void check_kept(const char *name, host h) {
    trabeculon_piece_read before = h.last;
    size_t line_len = h.line_len;
    take_piece(&h, log_bytes, LOG_LEN, RUN_LEN);
    report(name, "a piece gets it again",
           same_answer(h.last.answer, before.answer) && same_reader(h.last.reader, before.reader));
    finish(&h);
    report(name, "an end gets it again",
           same_answer(h.last.answer, before.answer) && same_reader(h.last.reader, before.reader));
    report(name, "nothing written", h.clean && h.line_len == line_len);
}

static void check_refusals(void) {
    host h = begin();
    finish(&h);
    check_host("no byte at all", &h, answer(6, 0, 0, 0));

    h = begin();
    feed(&h, 0, 98, 7);
    finish(&h);
    check_host("cut in a body", &h, answer(6, 2, 86, 1));
    check_kept("cut in a body, after it", h);

    /* The words don't fit into the run of the piece that brings them. */
    h = begin();
    feed(&h, 0, 33, 11);
    take_piece(&h, log_bytes + 33, 1, 1);
    check_host("run too short", &h, answer(8, 0, 21, 1));
    check_kept("run too short, after it", h);

    /* A wrong tag is told with its record's last byte, not before. */
    const uint8_t wrong[4] = {9, 0, 1, 0};
    h = begin();
    take_piece(&h, wrong, 3, RUN_LEN);
    check_host("wrong tag, not whole", &h, answer(0, 0, 3, 0));
    take_piece(&h, wrong + 3, 1, RUN_LEN);
    check_host("wrong tag, whole", &h, answer(7, 0, 0, 0));

    /* A seventh key while six are held: that answer is for good too. */
    h = begin();
    take_piece(&h, log_bytes, 8, 0);
    for (uint8_t key = 10; key < 17; key++) {
        const uint8_t down[13] = {2, 0, 10, 1, key, 0, 0, 0, 0, 0, 0, 0, 0};
        take_piece(&h, down, 7, 0);
        take_piece(&h, down + 7, 6, 2);
        h.line_len = 0; /* the words are other ones here */
    }
    report("a seventh key", "answer", same_answer(h.last.answer, answer(11, 5, 86, 1)));
    report("a seventh key", "reader",
           h.last.reader.told == 1 && h.last.reader.number == TRABECULON_TOO_MANY_HELD
               && h.last.reader.count == 0 && h.last.reader.machine.held == 0xFC00);
    check_kept("a seventh key, after it", h);

    /* An empty piece changes nothing. */
    h = begin();
    feed(&h, 0, 20, 20);
    trabeculon_piece_read before = h.last;
    take_piece(&h, log_bytes, 0, 0);
    report("empty piece", "as before", memcmp(&h.last, &before, sizeof before) == 0);

    /* 14 bytes before the longest log: a record fits, one byte more does not. */
    h = begin();
    feed(&h, 0, 21, 21);
    h.last.reader.offset = LONGEST_LOG - 14;
    take_piece(&h, log_bytes + 21, 15, RUN_LEN);
    check_host("past the longest log", &h, answer(9, 0, LONGEST_LOG, 1));
    check_kept("past the longest log, after it", h);
}

static void check_2(const char *name, trabeculon_reader reader) {
    host h = begin();
    h.last.reader = reader;
    take_piece(&h, log_bytes, LOG_LEN, RUN_LEN);
    check_host(name, &h, answer(2, 0, 0, 0));
    report(name, "reader as given", same_reader(h.last.reader, reader));
    trabeculon_piece_read ended = trabeculon_reader_end(reader, h.row, ROW_LEN);
    report(name, "the same of the end",
           same_answer(ended.answer, answer(2, 0, 0, 0)) && same_reader(ended.reader, reader));
}

static void check_no_readers(void) {
    trabeculon_reader reader;
    memset(&reader, UNTOUCHED, sizeof reader);
    check_2("garbage", reader);

    reader = trabeculon_reader_fresh();
    reader.number = 1;
    check_2("a number that is not told", reader);

    reader = trabeculon_reader_fresh();
    reader.told = 2;
    check_2("told 2", reader);

    reader = trabeculon_reader_fresh();
    reader.told = 1;
    reader.number = 2;
    check_2("told the number 2", reader);

    reader = trabeculon_reader_fresh();
    reader.machine.last.ms = 1;
    check_2("neither a machine nor zeros", reader);

    reader = trabeculon_reader_fresh();
    reader.machine.held = 1;
    check_2("a held key and no machine", reader);

    reader = trabeculon_reader_fresh();
    reader.machine = trabeculon_open(100, 50, 50, 0).machine;
    reader.machine.held = 0x7F;
    check_2("seven keys are held", reader);
    reader.machine.held = UINT32_C(1) << 31;
    check_2("bit 31 is held", reader);

    reader = trabeculon_reader_fresh();
    reader.opened = 1;
    check_2("opened without settings", reader);
    reader.machine = trabeculon_open(100, 50, 50, 0).machine;
    reader.opened = 2;
    check_2("opened 2", reader);
    reader.opened = 0;
    reader.ts = 49;
    reader.n = 1;
    check_2("T_s below 50", reader);
    reader.ts = 50;
    reader.pairs = 65;
    check_2("65 pairs", reader);
    reader.pairs = 1;
    check_2("a row that is no list", reader);

    reader = trabeculon_reader_fresh();
    reader.told = 1;
    reader.number = 10;
    check_2("told the writer's number", reader);

    reader = trabeculon_reader_fresh();
    reader.count = 3;
    check_2("a whole record not read", reader);

    reader = trabeculon_reader_fresh();
    reader.words = 1;
    check_2("words out of no bytes", reader);

    reader = trabeculon_reader_fresh();
    reader.offset = LONGEST_LOG + 1;
    check_2("longer than the longest log", reader);
}

static void check_fresh(void) {
    trabeculon_reader zeros;
    memset(&zeros, 0, sizeof zeros);
    report("fresh reader", "every number 0", same_reader(trabeculon_reader_fresh(), zeros));
}

/* Bits above the bytes that came say nothing. */
static void check_stray_bits(void) {
    host h = begin();
    feed(&h, 0, 25, 25); /* four bytes of the third record came */
    h.last.reader.header |= (uint64_t)0xFF << 24;
    h.last.reader.front |= (uint64_t)0xFF << 8;
    h.last.reader.tail = UINT64_MAX;
    feed(&h, 25, LOG_LEN, 1);
    finish(&h);
    check_host("stray bits", &h, answer(0, 4, LOG_LEN, 0));
}

/* ---- A list of pairs ---- */

/* However the log is cut, two letters are a chord, and a millisecond later they are not. */
static void check_list(void) {
    int good = 1;
    for (size_t length = 1; length <= PAIR_LEN; length++) {
        host h = begin(), late = begin();
        good = good && feed_log(&h, pair_bytes, 0, PAIR_LEN, length) && h.clean;
        good = good && feed_log(&late, late_bytes, 0, PAIR_LEN, length) && late.clean;
        finish(&h);
        finish(&late);
        good = good && same_answer(h.last.answer, answer(0, 1, PAIR_LEN, 0))
            && memcmp(h.line, PAIR_WORDS, sizeof PAIR_WORDS) == 0
            && same_answer(late.last.answer, answer(0, 2, PAIR_LEN, 0))
            && memcmp(late.line, LATE_WORDS, sizeof LATE_WORDS) == 0;
    }
    report("a list of pairs", "the same words in pieces of every length", good);

    /* Behind the settings a list may come; behind it its pair stands in the row. */
    host h = begin();
    feed_log(&h, pair_bytes, 0, LIST_AT, LIST_AT);
    report("behind the settings", "opened", h.last.reader.opened == 1);
    feed_log(&h, pair_bytes, LIST_AT, LIST_END, 3);
    report("behind the list", "its numbers",
           h.last.reader.opened == 0 && h.last.reader.pairs == 1 && h.last.reader.ts == 100
               && h.last.reader.n == 50 && h.row[0] == 0x1518308E);

    /* Two letters wait. */
    feed_log(&h, pair_bytes, LIST_END, 44, 13);
    report("two letters", "both wait",
           h.last.answer.waiting == 2 && h.last.reader.machine.state == TRABECULON_S7);

    /* Saved in the middle of the list, the row with the reader, and gone on with. */
    for (size_t cut = LIST_AT; cut <= LIST_END; cut++) {
        host first = begin(), other = begin();
        feed_log(&first, pair_bytes, 0, cut, 1);
        other.last.reader = first.last.reader;
        memcpy(other.row, first.row, sizeof other.row);
        feed_log(&other, pair_bytes, cut, PAIR_LEN, 5);
        finish(&other);
        good = good && same_answer(other.last.answer, answer(0, 1, PAIR_LEN, 0));
    }
    report("saved within the list", "gone on with", good);

    /* Another row: what waits is no pair of it, so that is no reader. */
    trabeculon_reader reader = h.last.reader;
    h.row[0] = 0x15163042;
    feed_log(&h, pair_bytes, 44, PAIR_LEN, PAIR_LEN);
    report("another row", "refused 2",
           h.last.answer.number == TRABECULON_NOT_WELL_FORMED
               && same_reader(h.last.reader, reader));
}

static void check_list_refused(void) {
    uint8_t bytes[PAIR_LEN];
    memcpy(bytes, pair_bytes, PAIR_LEN);

    /* A key with itself: told with the list's last byte. */
    bytes[15] = bytes[14];
    host h = begin();
    feed_log(&h, bytes, 0, LIST_END - 1, 5);
    take_piece(&h, bytes + LIST_END - 1, 1, RUN_LEN);
    check_line("a key with itself", &h, answer(12, 0, LIST_AT, 0), WORDS);
    check_kept("a key with itself, after it", h);

    /* A length that is not 3 + 4n. */
    memcpy(bytes, pair_bytes, PAIR_LEN);
    bytes[10] = 6;
    h = begin();
    take_piece(&h, bytes, PAIR_LEN, RUN_LEN);
    check_line("a list of another length", &h, answer(7, 0, LIST_AT, 0), WORDS);

    /* A list behind an event. */
    h = begin();
    take_piece(&h, log_bytes, 21, RUN_LEN);
    take_piece(&h, pair_bytes + LIST_AT, LIST_END - LIST_AT, RUN_LEN);
    check_line("a list behind an event", &h, answer(7, 0, 21, 1), WORDS);
}

/* A row that is too short, whatever the reader. */
static void check_short_row(void) {
    host h = begin();
    uint8_t run[RUN_LEN];
    memset(run, UNTOUCHED, sizeof run);
    for (size_t length = 0; length < TRABECULON_MOST_PAIRS; length++) {
        trabeculon_reader reader = h.last.reader;
        trabeculon_piece_read got =
            trabeculon_reader_piece(reader, h.row, length, log_bytes, LOG_LEN, run, RUN_LEN);
        trabeculon_piece_read end = trabeculon_reader_end(reader, h.row, length);
        h.clean = h.clean && same_answer(got.answer, answer(2, 0, 0, 0))
            && same_answer(end.answer, got.answer) && same_reader(got.reader, reader)
            && same_reader(end.reader, reader) && all_untouched(run, RUN_LEN)
            && all_untouched((const uint8_t *)h.row, sizeof h.row);
    }
    report("a row of fewer than 64 numbers", "refused 2, nothing written", h.clean);
}

static int read_file(const char *path, uint8_t *bytes, size_t length) {
    FILE *file = fopen(path, "rb");
    int whole = 0;
    if (file != NULL) {
        whole = fread(bytes, 1, length, file) == length && fgetc(file) == EOF;
        fclose(file);
    }
    if (!whole) {
        fprintf(stderr, "%s cannot be read, or has another length\n", path);
    }
    return whole;
}

int main(void) {
    if (!read_file("examples/saigai.log", log_bytes, LOG_LEN)
        || !read_file("examples/pair.log", pair_bytes, PAIR_LEN)
        || !read_file("examples/pair-late.log", late_bytes, PAIR_LEN)) {
        return 2;
    }
    check_fresh();
    check_whole("pieces of 1 byte", 1);
    check_whole("pieces of 7 bytes", 7);
    check_whole("pieces of 13 bytes", 13);
    check_whole("one piece", LOG_LEN);
    check_every_front();
    check_saved();
    check_refusals();
    check_no_readers();
    check_stray_bits();
    check_list();
    check_list_refused();
    check_short_row();
    printf("%d failed\n", failures);
    return failures == 0 ? 0 : 1;
}
