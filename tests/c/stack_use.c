/*
 * How much stack the ten functions of include/trabeculon.h use. Each is called on
 * a stack of its own that was filled with a pattern: the deepest byte that changed
 * says how far it went. The inputs are random ones, right and damaged, so what is
 * printed is the most that was seen: bytes, with the call itself and what it hands
 * over and gets back on the stack.
 *
 * Link so that no function is bound at its first call (-Wl,-z,now), or the binding's
 * own stack is counted too.
 */
#define _GNU_SOURCE
#include "trabeculon.h"

#include <stdio.h>
#include <string.h>
#include <ucontext.h>

#define STACK_SIZE (64 * 1024)
#define PATTERN 0xA5
#define ROUNDS 2000
#define EVENTS 400
#define LINE 300
#define EVENT_LEN 13
#define SETTINGS_LEN 8

static unsigned char stack[STACK_SIZE] __attribute__((aligned(64)));
static ucontext_t outside, inside;

/* splitmix64, so that every run tries the same. */
static uint64_t seed = 1;

static uint64_t below(uint64_t n) {
    uint64_t z = seed += 0x9e3779b97f4a7c15;
    z = (z ^ z >> 30) * 0xbf58476d1ce4e5b9;
    z = (z ^ z >> 27) * 0x94d049bb133111eb;
    return (z ^ z >> 31) % n;
}

/* ---- What the calls are given ---- */

static uint16_t t;
static uint8_t j, l, solo;
static trabeculon_machine machine;
static uint8_t kind, key;
static trabeculon_stamp stamp;
static uint32_t pairs[TRABECULON_MOST_PAIRS];
static size_t pairs_len;
static uint16_t ts;
static uint8_t n;
static uint16_t line[LINE];
static uint8_t log_bytes[SETTINGS_LEN + 65 * LINE];
static size_t log_len;
static uint8_t out[4096];

static trabeculon_answer answer;
static trabeculon_drill drill;
static trabeculon_opened opened;
static trabeculon_stepped stepped;
static trabeculon_asked asked;
static trabeculon_machine keyboards[TRABECULON_MOST_KEYBOARDS];
static uint32_t board;
static trabeculon_row_stepped row_stepped;
static trabeculon_reader reader;
static uint32_t row[TRABECULON_MOST_PAIRS];
static trabeculon_piece_read piece_read;
static trabeculon_mended mended;
static uint8_t mended_bytes[sizeof log_bytes];
static uint64_t dropped[2 * TRABECULON_MOST_LISTED];
static const uint8_t *piece;
static size_t piece_len;

static void random_settings(void) {
    t = 50 + below(952);
    j = 1 + below(99);
    l = 1 + below(99);
    solo = below(2);
}

/* Of every length, its pairs among few keys or among many; now and then refused. */
static void random_list(void) {
    uint8_t first = 0, second = 1;
    ts = 50 + below(951);
    n = 1 + below(below(20) ? 99 : 100);
    pairs_len = below(2) ? below(8) : below(65);
    for (size_t i = 0; i < pairs_len; i++) {
        pairs[i] = (uint32_t)first << 24 | (uint32_t)second << 16 | (0x3041 + below(0x53));
        if (++first == second) {
            first = 0;
            second++;
        }
    }
}

static void random_event(void) {
    kind = 1 + below(6);
    key = kind < 3 ? below(7) : kind < 5 ? below(2) : 0;
    stamp.ms += below(4) ? below(1 + t / 2) : below(3);
    if (below(50) == 0) {
        key = below(256);
    }
}

static void random_log(void) {
    const uint8_t settings[SETTINGS_LEN] = {1, 0, 5, t >> 8, t & 255, j, l, solo};
    memcpy(log_bytes, settings, SETTINGS_LEN);
    log_len = SETTINGS_LEN;
    if (below(2)) {
        const size_t length = 3 + 4 * pairs_len;
        const uint8_t list[6] = {3, length >> 8, length & 255, ts >> 8, ts & 255, n};
        memcpy(log_bytes + log_len, list, sizeof list);
        log_len += sizeof list;
        for (size_t i = 0; i < pairs_len; i++) {
            for (int place = 0; place < 4; place++) {
                log_bytes[log_len++] = pairs[i] >> 8 * (3 - place);
            }
        }
    }
    stamp.ms = 0;
    for (int i = 0; i < EVENTS; i++) {
        random_event();
        const uint8_t event[5] = {2, 0, 10, kind, kind < 3 ? key % 31 : key % 2};
        memcpy(log_bytes + log_len, event, sizeof event);
        for (int place = 0; place < 8; place++) {
            log_bytes[log_len + 5 + place] = stamp.ms >> 8 * (7 - place);
        }
        if (kind > 4) {
            log_bytes[log_len + 4] = 0;
        }
        log_len += EVENT_LEN;
    }
    if (below(2)) {
        log_bytes[below(log_len)] = below(256);
        log_len -= below(EVENT_LEN);
    }
}

/* Short pieces, which leave a record begun, and longer ones. */
static void random_piece(size_t at) {
    piece = log_bytes + at;
    piece_len = below(2) ? below(14) : below(300);
    if (piece_len > log_len - at) {
        piece_len = log_len - at;
    }
}

static void random_line(void) {
    for (int i = 0; i < LINE; i++) {
        line[i] = 0x3041 + below(0x53);
        while (line[i] == 0x308E || line[i] == 0x3090 || line[i] == 0x3091) {
            line[i]++;
        }
    }
    if (below(2)) {
        line[below(LINE)] = below(65536);
    }
}

/* ---- The calls, each on the filled stack ---- */

static void no_call(void) {}
static void call_read_log(void) { answer = trabeculon_read_log(log_bytes, log_len, out, sizeof out); }
static void call_second_opinion(void) {
    answer = trabeculon_second_opinion(log_bytes, log_len, out, sizeof out);
}
static void call_write_drill(void) {
    drill = trabeculon_write_drill(t, j, l, solo, line, LINE, log_bytes, sizeof log_bytes);
}
static void call_open(void) { opened = trabeculon_open(t, j, l, solo); }
static void call_step(void) {
    stepped = trabeculon_step(machine, pairs, pairs_len, ts, n, kind, key, stamp);
}
static void call_distance(void) {
    asked = trabeculon_distance(machine, pairs, pairs_len, ts, n, stamp);
}
static void call_row_step(void) {
    row_stepped = trabeculon_row_step(keyboards, TRABECULON_MOST_KEYBOARDS, pairs, pairs_len, ts, n,
                                      board, kind, key, stamp);
}
static void call_row_distance(void) {
    asked = trabeculon_row_distance(keyboards, TRABECULON_MOST_KEYBOARDS, pairs, pairs_len, ts, n,
                                    board, stamp);
}
static void call_reader_fresh(void) { reader = trabeculon_reader_fresh(); }
static void call_reader_piece(void) {
    piece_read = trabeculon_reader_piece(reader, row, TRABECULON_MOST_PAIRS, piece, piece_len, out,
                                         sizeof out);
}
static void call_reader_end(void) {
    piece_read = trabeculon_reader_end(reader, row, TRABECULON_MOST_PAIRS);
}

static void call_mend(void) {
    mended = trabeculon_mend(log_bytes, log_len, mended_bytes, sizeof mended_bytes, dropped,
                             2 * TRABECULON_MOST_LISTED);
}

static size_t depth_of(void (*call)(void)) {
    memset(stack, PATTERN, STACK_SIZE);
    getcontext(&inside);
    inside.uc_stack.ss_sp = stack;
    inside.uc_stack.ss_size = STACK_SIZE;
    inside.uc_link = &outside;
    makecontext(&inside, call, 0);
    swapcontext(&outside, &inside);
    size_t low = 0;
    while (low < STACK_SIZE && stack[low] == PATTERN) {
        low++;
    }
    return STACK_SIZE - low;
}

static void deepest(size_t *most, void (*call)(void)) {
    size_t depth = depth_of(call);
    if (*most < depth) {
        *most = depth;
    }
}

int main(void) {
    size_t fresh = 0, piece_of_log = 0, end = 0;
    size_t opinion = 0;
    size_t read_log = 0, write_drill = 0, open = 0, step = 0, distance = 0;
    size_t row_step = 0, row_distance = 0, mend = 0;
    size_t refused = 0, commits = 0;
    for (int round = 0; round < ROUNDS; round++) {
        random_settings();
        random_list();
        deepest(&open, call_open);
        machine = opened.machine;
        stamp.ms = 0;
        for (int i = 0; i < 20; i++) {
            random_event();
            deepest(&step, call_step);
            deepest(&distance, call_distance);
            board = below(TRABECULON_MOST_KEYBOARDS + 1);
            if (board < TRABECULON_MOST_KEYBOARDS) {
                keyboards[board] = machine;
            }
            deepest(&row_step, call_row_step);
            deepest(&row_distance, call_row_distance);
            machine = stepped.machine;
            refused += stepped.number != 0;
            commits += stepped.items;
        }
        random_log();
        deepest(&read_log, call_read_log);
        deepest(&opinion, call_second_opinion);
        deepest(&mend, call_mend);
        deepest(&fresh, call_reader_fresh);
        for (size_t at = 0; at < log_len; at += piece_len) {
            random_piece(at);
            deepest(&piece_of_log, call_reader_piece);
            reader = piece_read.reader;
            deepest(&end, call_reader_end);
        }
        random_line();
        deepest(&write_drill, call_write_drill);
    }
    size_t none = depth_of(no_call);
    printf("trabeculon_read_log      %6zu\n", read_log - none);
    printf("trabeculon_second_opinion%6zu\n", opinion - none);
    printf("trabeculon_reader_fresh  %6zu\n", fresh - none);
    printf("trabeculon_reader_piece  %6zu\n", piece_of_log - none);
    printf("trabeculon_reader_end    %6zu\n", end - none);
    printf("trabeculon_write_drill   %6zu\n", write_drill - none);
    printf("trabeculon_open          %6zu\n", open - none);
    printf("trabeculon_step          %6zu\n", step - none);
    printf("trabeculon_distance      %6zu\n", distance - none);
    printf("trabeculon_row_step      %6zu\n", row_step - none);
    printf("trabeculon_row_distance  %6zu\n", row_distance - none);
    printf("trabeculon_mend          %6zu\n", mend - none);
    return refused == 0 || commits == 0;
}
