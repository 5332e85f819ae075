/*
 * A host that hands its own time over where a stamp of the keyboard is wanted does
 * not compile, and the same host with a stamp does. tests/header compiles this file
 * with one of each:
 *
 *   GIVEN   what the host has: STAMP, a trabeculon_stamp; NUMBER, a plain number of
 *           milliseconds; OTHER, a struct of the host's own that looks the same
 *   WANTED  where it goes: STEP or DISTANCE, ROW_STEP or ROW_DISTANCE, or LAST, a
 *           machine's last stamp; or BRACES, a list that makes a whole machine, and
 *           in C++ an argument in braces, where a number is taken too
 *
 * It is C and C++.
 */
#include "trabeculon.h"

#define STAMP 1
#define NUMBER 2
#define OTHER 3

#define STEP 1
#define DISTANCE 2
#define LAST 3
#define BRACES 4
#define ROW_STEP 5
#define ROW_DISTANCE 6

typedef struct {
    uint64_t ms;
} host_time;

#if GIVEN == STAMP
typedef trabeculon_stamp given;
#elif GIVEN == NUMBER
typedef uint64_t given;
#elif GIVEN == OTHER
typedef host_time given;
#else
#error "GIVEN is STAMP, NUMBER or OTHER"
#endif

#if WANTED != LAST && (WANTED != BRACES || defined(__cplusplus))
/* A list of no pairs, lent with every call. */
static const uint32_t list[1] = {0};
#endif

#if WANTED == STEP
trabeculon_stepped tick(trabeculon_machine machine, given now);

trabeculon_stepped tick(trabeculon_machine machine, given now) {
    return trabeculon_step(machine, list, 0, 50, 1, TRABECULON_TICK, 0, now);
}
#elif WANTED == DISTANCE
trabeculon_asked ask(trabeculon_machine machine, given now);

trabeculon_asked ask(trabeculon_machine machine, given now) {
    return trabeculon_distance(machine, list, 0, 50, 1, now);
}
#elif WANTED == ROW_STEP
trabeculon_row_stepped tick(trabeculon_machine *row, given now);

trabeculon_row_stepped tick(trabeculon_machine *row, given now) {
    return trabeculon_row_step(row, 1, list, 0, 50, 1, 0, TRABECULON_TICK, 0, now);
}
#elif WANTED == ROW_DISTANCE
trabeculon_asked ask(const trabeculon_machine *row, given now);

trabeculon_asked ask(const trabeculon_machine *row, given now) {
    return trabeculon_row_distance(row, 1, list, 0, 50, 1, 0, now);
}
#elif WANTED == LAST
trabeculon_machine moved(trabeculon_machine machine, given now);

trabeculon_machine moved(trabeculon_machine machine, given now) {
    machine.last = now;
    return machine;
}
#elif WANTED == BRACES
trabeculon_machine made(given now);

trabeculon_machine made(given now) {
    trabeculon_machine machine = {now, now, now, now, now, 0, 0, 100, 50, 50, 0, 1, 0, 0};
#ifdef __cplusplus
    machine = trabeculon_step(machine, list, 0, 50, 1, TRABECULON_TICK, 0, {now}).machine;
#endif
    return machine;
}
#else
#error "WANTED is STEP, DISTANCE, ROW_STEP, ROW_DISTANCE, LAST or BRACES"
#endif
