/* Mends a log with a bad record from C, and reads it back. */
#include <stdint.h>
#include <stdio.h>
#include <string.h>

#include "trabeculon.h"

/* Settings, key 21 down at 100, a record of an unknown tag, key 21 up at 150, and a cut tail. */
static const uint8_t damaged[] = {
    1, 0, 5, 0, 100, 50, 50, 0,
    2, 0, 10, 1, 21, 0, 0, 0, 0, 0, 0, 0, 100,
    9, 0, 2, 1, 1,
    2, 0, 10, 2, 21, 0, 0, 0, 0, 0, 0, 0, 150,
    2, 0,
};

static int failures = 0;

static void expect(int holds, const char *what)
{
    if (!holds) {
        printf("mend_log: %s\n", what);
        failures++;
    }
}

int main(void)
{
    uint8_t out[sizeof damaged];
    uint8_t words[16];
    uint64_t list[5];
    memset(out, 0xEE, sizeof out);
    memset(list, 0xEE, sizeof list);
    trabeculon_mended a = trabeculon_mend(damaged, sizeof damaged, out, sizeof out, list, 5);
    expect(a.number == 0 && a.bytes == 34 && a.listed == 2 && a.dropped == 2, "the answer");
    expect(memcmp(out, damaged, 21) == 0 && memcmp(out + 21, damaged + 26, 13) == 0, "the log");
    expect(out[34] == 0xEE && out[sizeof out - 1] == 0xEE, "bytes behind the log were touched");
    expect(list[0] == 21 && list[1] == 7 && list[2] == 39 && list[3] == 6, "the list");
    expect(list[4] == UINT64_C(0xEEEEEEEEEEEEEEEE), "the odd last number was touched");

    trabeculon_answer read = trabeculon_read_log(out, a.bytes, words, sizeof words);
    expect(read.number == 0 && read.words == 1 && read.offset == 34, "the mended log read back");
    expect(words[0] == 0x30 && words[1] == 0x4B, "its line");

    /* 8 comes last, and writes and lists nothing. */
    memset(out, 0xEE, sizeof out);
    memset(list, 0xEE, sizeof list);
    a = trabeculon_mend(damaged, sizeof damaged, out, 33, list, 5);
    expect(a.number == 8 && a.bytes == 0 && a.listed == 0 && a.dropped == 0, "33 bytes of room");
    expect(out[0] == 0xEE && list[0] == UINT64_C(0xEEEEEEEEEEEEEEEE), "8 left something behind");
    a = trabeculon_mend(damaged + 8, sizeof damaged - 8, out, 0, list, 5);
    expect(a.number == 7, "an event first");
    a = trabeculon_mend(damaged, 0, out, 0, list, 0);
    expect(a.number == 6, "an empty log");

    if (failures == 0)
        printf("mend_log: all as it should be\n");
    return failures != 0;
}
