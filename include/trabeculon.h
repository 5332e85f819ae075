/*
 * Trabeculon: a proved key-timing engine for NICOLA thumb-shift keyboards. This
 * is its face for a C host: twelve functions over runs and numbers. One reads a
 * log, one gives a second opinion on it, one mends a damaged one, and one writes
 * the log of a line; three drive a live keyboard: one opens a machine, one takes
 * an event, one says how far away the next deadline is; two take an event and say
 * the distance at a keyboard of a row; and three read a log that arrives in
 * pieces. All of them are in libtrabeculon.a.
 *
 * Each function is proved equal to a definition, for every input, and to
 * return. Behind "Proved:" stand the definitions and statements that carry what
 * is said above, with their files under crates/. docs/RULES.md has the rules in
 * words, and docs/ASSUMPTIONS.md what is believed and not proved: the compiler,
 * and that the caller lends what it says. A call needs less than 4 KiB of stack
 * (measured, tests/stack).
 *
 * Keys 0 to 4 are B01 to B05, 5 to 9 B06 to B10, 10 to 14 C01 to C05, 15 to 19
 * C06 to C10, 20 to 24 D01 to D05, 25 to 30 D06 to D11; so key 21 is D02. Their
 * faces are in docs/RULES.md.
 *
 * It is a header for C99 and later and for C++.
 */
#ifndef TRABECULON_H
#define TRABECULON_H

#include <stddef.h>
#include <stdint.h>

#ifdef __cplusplus
extern "C" {
#endif

/*
 * The version of this interface. It counts the changes after which a host has
 * to be looked at and compiled again: it goes up by 1 when what a function
 * takes or answers changes, the fields of a struct, or what a number means, and
 * stays where only words change or a function is added. Version 1 had no such
 * macro. Version 2 has held keys (request 7/12) and a type for stamps. Version
 * 3 has two letters as a chord (request 9/12).
 */
#define TRABECULON_VERSION 3

/* The kinds of events, in a log and of a live keyboard. */
#define TRABECULON_CHARACTER_DOWN 1
#define TRABECULON_CHARACTER_UP 2
#define TRABECULON_THUMB_DOWN 3
#define TRABECULON_THUMB_UP 4
#define TRABECULON_FUNCTION_DOWN 5
#define TRABECULON_TICK 6

/* The thumbs: the key of an event of kind 3 or 4, and a machine's thumb. */
#define TRABECULON_LEFT 0
#define TRABECULON_RIGHT 1

/* The words of their marks. */
#define TRABECULON_LEFT_MARK 1
#define TRABECULON_RIGHT_MARK 2

/* The states of a machine: see trabeculon_machine. */
#define TRABECULON_S1 1
#define TRABECULON_S2 2
#define TRABECULON_S3 3
#define TRABECULON_S4 4
#define TRABECULON_S5 5
#define TRABECULON_S6 6
#define TRABECULON_S7 7
#define TRABECULON_S8 8

/*
 * So many pairs a list may have, and so many numbers the row must have that is
 * lent to the reader of a log in pieces.
 */
#define TRABECULON_MOST_PAIRS 64

/* So many keyboards a row may have. */
#define TRABECULON_MOST_KEYBOARDS 16

/* A pair as one number: two character keys, and their character. */
#define TRABECULON_PAIR(a, b, c) \
    ((uint32_t)(a) << 24 | (uint32_t)(b) << 16 | (uint32_t)(c))

/*
 * The numbers given back: 0, and the refusals. Each function gives some of
 * them, in an order that is said there.
 */
#define TRABECULON_ACCEPTED 0
#define TRABECULON_SETTINGS_OUT_OF_RANGE 1
#define TRABECULON_NOT_WELL_FORMED 2
#define TRABECULON_NOT_ALLOWED 3     /* kind or key */
#define TRABECULON_STAMP_TOO_LARGE 4 /* above the largest */
#define TRABECULON_STAMP_TOO_EARLY 5 /* before the last accepted one */
#define TRABECULON_CUT 6             /* log empty, or header or body cut */
#define TRABECULON_WRONG_RECORD 7    /* tag, length or place */
#define TRABECULON_NO_ROOM 8         /* the run is too short */
#define TRABECULON_LOG_TOO_LONG 9    /* only in pieces */
#define TRABECULON_ON_NO_FACE 10     /* a drill's character */
#define TRABECULON_TOO_MANY_HELD 11  /* a new key while 6 are held */
#define TRABECULON_PAIRS_REFUSED 12  /* the list of pairs, T_s or N */
#define TRABECULON_NO_KEYBOARD 13    /* row above 16, or number past the row */
#define TRABECULON_HAS_PAIRS 14      /* only of a second opinion: a list of pairs */

/*
 * A moment of the keyboard's own clock, in milliseconds. It has a type of its
 * own, so that a host's time, by a clock that has nothing to do with the
 * keyboard's, does not compile where it is handed over or assigned as a stamp,
 * as a plain number or in a struct of the host's own. In braces a number is
 * taken: in a list that makes a whole machine, and in C++ as an argument. A
 * host makes a stamp where a number comes in from the keyboard, and nowhere
 * else:
 *
 *     trabeculon_stamp stamp = {number};
 *
 * Tested: what does not compile, and what does (tests/c/clock.c).
 */
typedef struct {
    uint64_t ms;
} trabeculon_stamp;

/*
 * What reading a log answers.
 *
 * number   0  every record was accepted
 *          1  settings out of range (T 50 to 1,000; J, L 1 to 99; solo 0 or 1)
 *          2  state not well formed; never given here, since the reader
 *             opens its own state
 *          3  kind or key not allowed
 *          4  stamp above the largest, 1,000,000,000,000
 *          5  stamp before the last accepted one
 *          6  log empty, or a record's header or body cut
 *          7  tag unknown, length wrong, settings missing first or met again,
 *             or a list of pairs that is not straight behind the settings
 *          8  the record's words don't all fit into the run
 *          11 a press of a new key while 6 are held: see trabeculon_step
 *          12 the list of pairs, T_s or N refused: see "A live keyboard" below
 *          On each record they are tried in the order 6, 7, then 1 (settings),
 *          12 (list of pairs) or 3, 4, 5, 11 (event), then 8; the first that
 *          holds is given, and reading stops there.
 * waiting  how many characters wait after the last accepted record, 0 to 2; a
 *          key whose face is empty counts too. 0 if the log never opened. The
 *          end of a log is no key event, so what waits is not committed.
 * words    how many words were written.
 * offset   where the refused record starts, in bytes from the log's start; the
 *          log's length if no record was refused.
 */
typedef struct {
    uint32_t number;
    uint32_t waiting;
    uint64_t words;
    uint64_t offset;
} trabeculon_answer;

/*
 * Reads a log and writes the committed line into a lent run of bytes.
 *
 * A log is a run of records: one byte tag, two bytes length, body; high byte
 * first. Tag 1, length 5, stands first and only there: T (2 bytes), J, L, solo.
 * Tag 2, length 10: kind, key, stamp (8 bytes). Kinds: 1 character down,
 * 2 character up, 3 thumb down, 4 thumb up, 5 function down, 6 tick. Key is
 * 0 to 30 for kinds 1 and 2, 0 (left) or 1 (right) for 3 and 4, 0 for 5 and 6.
 *
 * Tag 3, length 3 + 4n, is a list of n pairs (request 9/12): T_s (2 bytes), N,
 * then 4 bytes a pair: key, key, character (2 bytes). It stands straight behind
 * the settings and only there, or nowhere; n is at most 64. It is lent with
 * every event of the log; a log that has none has no pairs.
 *
 * A word is the code point of a character, of the layout or of a pair, 1 for
 * the left mark or 2 for the right mark; an empty face gives no word. Each word
 * leaves as two bytes, high byte first. The run has room for out_len / 2 words.
 *
 * Afterwards, whatever the number:
 *   - the first 2 * words bytes of out hold the words of the accepted records,
 *     in order;
 *   - every other byte of out holds what it held before, an odd last byte
 *     among them. A record refused 8 writes none of its words, and after
 *     refusal 1 or 12 there are no words at all;
 *   - the log is unchanged.
 * Nothing is kept between two calls.
 *
 * The caller lends log_len readable bytes at log and out_len writable bytes at
 * out, which don't overlap. Either length may be 0; the pointer is not null
 * even then. No alignment is asked.
 *
 * Proved: the answer and the run afterwards (Reads, keylog/specs/Runs.antt,
 * over Reader.antt); when each number is given and what an accepted record
 * leaves (RecordRefusals, keylog/specs/RecordRefusals.antt); that the words,
 * where there is room for them all, are the line of the log's accepted events,
 * and that 2 never comes (LogSequence, keylog/specs/LogSequence.antt); that one
 * number added to every event's stamp, all staying at most the largest, changes
 * nothing (LogMoved, keylog/specs/MovedLog.antt).
 */
trabeculon_answer trabeculon_read_log(const uint8_t *log, size_t log_len,
                                      uint8_t *out, size_t out_len);

/*
 * A plain second opinion on a log (request 11/12), for an inspector: another
 * engine, which keeps no waiting letter and looks forward over the log's
 * accepted events. It is lent what trabeculon_read_log is lent, and answers in
 * the same form:
 *
 *   - if the log's list has at least one pair: number 14, offset 8, the list's
 *     record, words and waiting 0, whatever comes behind it. A list that is
 *     refused is refused 12 there, and a list of no pairs changes nothing;
 *   - else, where the words don't all fit into the run: number 8, offset 0,
 *     words and waiting 0, also where a record is refused;
 *   - else number, waiting, words and offset of trabeculon_read_log for the
 *     same log and run, which holds the same words.
 *
 * 4 * (log_len / 13 + 1) bytes at out always suffice. Every byte of out but the
 * first 2 * words holds what it held before, an odd last byte among them. The
 * time that it takes may grow as the square of the log's length, where few keys
 * are in use (measured, docs/INSPECTION.md).
 *
 * Proved: the answer and the run afterwards (Gives,
 * second_opinion/specs/Whole.antt, over opined, log_opinions/specs/OfLog.antt);
 * that it is the reader's, that room of two words for every 13 bytes suffices,
 * and exactly when 14 and 8 are given (SameAsReader,
 * log_opinions/specs/SameAsReader.antt).
 */
trabeculon_answer trabeculon_second_opinion(const uint8_t *log, size_t log_len,
                                            uint8_t *out, size_t out_len);

/*
 * What writing a drill answers.
 *
 * number    0   the whole log was written
 *           1   settings out of range (T 50 to 1,000; J, L 1 to 99; solo 0 or 1)
 *           4   the character's stamp, 250 times its position, is above the
 *               largest, 1,000,000,000,000; so position 4,000,000,001 at the
 *               earliest
 *           8   the log doesn't fit into the run
 *           10  a character that is on no face
 *           They are tried in this order: 1; then the characters from the first
 *           on, each 10 before 4; then 8. The first that holds is given.
 * bytes     the length of the log that was written; 0 if number is not 0.
 * position  beside 1: 0. Beside 10 and 4: the refused character's position in
 *           the line, the first being 0. Beside 8 and 0: the line's length.
 */
typedef struct {
    uint64_t number;
    uint64_t bytes;
    uint64_t position;
} trabeculon_drill;

/*
 * Writes the log that plays a line (a drill) into a lent run of bytes.
 *
 * The line is line_len words of 16 bits in the host's own byte order, each the
 * code point of a character. The 86 characters of the layout are accepted: kana
 * and signs from U+3000 to U+30FF, the full-width comma U+FF0C and the
 * full-width stop U+FF0E. Every other word is on no face, the words of marks, 1
 * and 2, and the ideographic space, U+3000, among them.
 *
 * The log, in the form that trabeculon_read_log reads, is a settings record
 * with t, j, l and solo and then the events of each character, in the line's
 * order. All events of the character at position n have stamp 250 * n. They
 * are, for a character on a plain face: key down, key up; for one on a thumb's
 * face: key down, thumb down, tick, thumb up, key up. The settings take 8
 * bytes, a plain character 26 and a chord 65; so a run of 8 + 65 * line_len
 * bytes always suffices.
 *
 * Afterwards:
 *   - if number is 0, the first bytes bytes of out hold the log and every other
 *     byte of out holds what it held before;
 *   - if not, every byte of out holds what it held before;
 *   - the line is unchanged.
 * Nothing is kept between two calls.
 *
 * Given those bytes and a run of at least 2 * line_len bytes, whatever the
 * settings, trabeculon_read_log answers number 0, waiting 0, words line_len and
 * offset bytes, and gives the same line (there each word is two bytes, high
 * byte first).
 *
 * The caller lends line_len readable words at line, aligned as a uint16_t is,
 * and out_len writable bytes at out, which don't overlap. Either length may be
 * 0; the pointer is not null even then.
 *
 * Proved: the answer and the run afterwards (Writes, writer/specs/Writes.antt,
 * over Drills.antt); the characters (PlaceFacts, lookup/specs/PlaceFacts.antt);
 * the bytes of each (place_size, writer/specs/Parts.antt), and that 8 + 65 for
 * each suffice (RoomSuffices, writer/specs/Room.antt); that it reads back
 * (RoundTripStatement, writer/specs/RoundTrip.antt).
 */
trabeculon_drill trabeculon_write_drill(uint16_t t, uint8_t j, uint8_t l,
                                        uint8_t solo, const uint16_t *line,
                                        size_t line_len, uint8_t *out,
                                        size_t out_len);

/*
 * A live keyboard: what its host does.
 *
 *   - Once: trabeculon_open with the settings.
 *   - On each event of the keyboard: trabeculon_step with the machine, the
 *     list of pairs, the event and its stamp. The machine of the answer takes
 *     the place of the old one, whatever the number; a refused step hands back
 *     the one that was given. Downs that the hardware repeats while a key is
 *     held are handed over like all others.
 *   - Show: take the last sign on the screen back, as many times as backspaces
 *     says; then add those of sent_first, sent_second and sent_third that are
 *     not 0.
 *   - The committed line grows by those of first and second that are not 0.
 *     They are on the screen already and are not to be shown once more: after
 *     every step the screen is the committed line and behind it the characters
 *     that wait, none, one or two (one whose face is empty shows nothing).
 *   - Then: trabeculon_distance with the machine, the same list and a stamp of
 *     the keyboard: the event's if it was accepted, else the machine's own
 *     last, since asking is refused where a tick with that stamp would be. If
 *     number is 0 and there is a deadline, arrange a tick for when it is due:
 *     in so many milliseconds, or at once if the answer is 0 or negative. A
 *     tick is a step with kind 6, key 0 and the stamp of the keyboard's clock
 *     at that time. One too early or too many does no harm. Nor does a late one
 *     or a missing one, but that signs come late, since every event first does
 *     what is due before it. No stamp may run ahead of the keyboard's clock, or
 *     the keyboard's next event comes before it and is refused 5.
 *
 * The list of pairs (request 9/12) is lent with every call and not kept: two
 * character keys pressed together give a third character. A pair is one number
 * of 32 bits in the host's own byte order, made by TRABECULON_PAIR: the first
 * key in bits 24 to 31, the second in bits 16 to 23, the character below. Up to
 * 64 pairs, in any order, and in a pair the keys in any order; no pair twice,
 * no key with itself, keys below 31, the character U+0020 to U+FFFF and no
 * surrogate; ts, T_s in milliseconds, 50 to 1,000; n, N in percent, 1 to 99.
 * Anything else is refused 12, before all other numbers (at a row 13 comes
 * before it, see below). The caller lends
 * pairs_len readable numbers at pairs, so many pairs, aligned as a uint32_t is;
 * the pointer is not null even if there are none. A host without pairs lends a
 * list of length 0, with any ts and n in range, and all is as if there were no
 * pairs. What is said here of calls one after another has one list, ts and n in
 * all of them. To change them wait until state is not 7 or 8: there, with a
 * list in which the two letters that wait are no pair, the machine is not well
 * formed, and every call with it is refused 2 until the old list is lent again.
 *
 * All stamps are of the keyboard's own clock, never of the host's; a host's
 * time is no trabeculon_stamp. The host keeps the machine. Nothing is kept here
 * between two calls, so any number of keyboards can be driven side by side,
 * each with its own machine; up to 16 of them in one row, see below.
 *
 * Where that clock begins does not matter. With one number added to every
 * stamp, all staying at most the largest, each call gives the same number,
 * items, signs and milliseconds, and a machine that differs in its stamps
 * alone. The last stamp of a fresh machine, 0, is no moment of the clock: it is
 * 0 whatever is added.
 *
 * Proved, of calls from opening on: each is answered as document 01 answers
 * that event (KeyboardFacts, keyboard/specs/KeyboardFacts.antt); the screen and
 * the line (screen_is and line_is in HostFacts,
 * keyboard/specs/HostScreen.antt); that ticks do no harm, and that a backspace
 * never takes a committed sign (Demand3, rules/specs/Demand3.antt); that only
 * differences of stamps count (KeyboardMovedStatement,
 * keyboard/specs/MovedKeyboard.antt). Of the list: when it is accepted
 * (GoodExactly, rules/specs/PairFacts.antt), that the order of a pair's keys
 * does not matter (either_order there), that every pair that is accepted has
 * such a number (CanBeLent, pairs/specs/LentFacts.antt), and that all is as
 * before where there are no pairs (AsBeforeStatement, rules/specs/Before.antt).
 */

/*
 * A machine as numbers: a keyboard's settings, its last accepted stamp, the
 * character keys that are held and what it waits with. M is a character key, K
 * a second one, O a thumb.
 *
 * last     the last accepted stamp; 0 in a fresh machine
 * m        when M was pressed: states 2, 4, 5, 6, 7, 8
 * k        when K was pressed: states 7, 8
 * o        when O was pressed: states 3, 4, 5, 6
 * r        when O was released: state 6; when M was released: state 8
 * held     bit k, counted from the lowest as bit 0, is 1 if key k is held: it
 *          went down and not up since, in accepted events. 0 in a fresh machine
 * second   K, 0 to 30: states 7, 8
 * t, j, l, the settings T, J, L and solo, as trabeculon_open was given them
 * solo
 * state    1  nothing
 *          2  M
 *          3  O
 *          4  M, then O
 *          5  O, then M
 *          6  O, then M, then O was released
 *          7  M, then K, a pair of the list
 *          8  M, then K, then M was released
 * key      M, 0 to 30: states 2, 4, 5, 6, 7, 8
 * thumb    O, 0 left, 1 right: states 3, 4, 5, 6
 *
 * A host keeps these numbers and hands them on. It may look into them, and it
 * may save them and go on later. Any numbers may be handed over; those that are
 * no machine are refused:
 *
 * They name a machine if state is 1 to 8, thumb is 0 or 1 in the states that
 * use it, second is below 256 in states 7 and 8, and every one of m, k, o, r,
 * key, second and thumb that the state does not use is 0. That machine is well
 * formed if the settings are in range, key and second are below 31, every stamp
 * that the state uses is at most last, last is at most 1,000,000,000,000,
 * m <= o in state 4, o <= m in state 5, o <= m <= r in state 6, m <= k in state
 * 7, m <= k <= r in state 8, in held bit 31 is 0 and at most 6 are 1, and in
 * states 7 and 8 M and K are a pair of the list. Numbers that name no machine,
 * or one that is not well formed, are refused 2. The machine that
 * trabeculon_open answers beside number 0 is well formed, and an accepted event
 * leaves every well-formed machine well formed, however the host came by it; so
 * numbers that were saved go on without a 2, with the same list. That M is held
 * is not asked, nor that K is, but in every machine that calls from opening on
 * lead to they are, M in state 8 apart.
 *
 * It is 56 bytes with no padding, so two can be compared byte for byte.
 *
 * Proved: every machine whose K is a number of 8 bits, as all here are, has one
 * form in numbers, which names it (LosesNothing and AllFit,
 * machine_numbers/specs/LosesNothing.antt); events keep it well formed
 * (keeps_formed in KeyboardFacts, keyboard/specs/KeyboardFacts.antt); held is a
 * set of keys, and its ones are counted as keys (HeldFacts and CountsKeys,
 * rules/specs/HeldFacts.antt); after any events from a fresh machine on a key
 * is held as its accepted downs and ups say, M and K are held, M in state 8
 * apart, and at most 6 are (HeldInSequences, rules/specs/HeldRules.antt). Which
 * bit and which field is whose is said by the definitions is_held
 * (rules/specs/Held.antt) and in_numbers (machine_numbers/specs/Fields.antt).
 * Tested: the 56 bytes (below, and tests/c/live_keyboard.c).
 */
typedef struct {
    trabeculon_stamp last;
    trabeculon_stamp m;
    trabeculon_stamp k;
    trabeculon_stamp o;
    trabeculon_stamp r;
    uint32_t held;
    uint32_t second;
    uint16_t t;
    uint8_t j;
    uint8_t l;
    uint8_t solo;
    uint8_t state;
    uint8_t key;
    uint8_t thumb;
} trabeculon_machine;

/*
 * What opening answers.
 *
 * machine  beside 0: a fresh machine with these settings, state 1 and all else
 *          0. Beside 1: every number is 0, which names no machine.
 * number   0  opened
 *          1  settings out of range (T 50 to 1,000; J, L 1 to 99; solo 0 or 1)
 */
typedef struct {
    trabeculon_machine machine;
    uint64_t number;
} trabeculon_opened;

/*
 * Opens a fresh machine. t is T in milliseconds, j and l are J and L in
 * percent, and solo is 1 if a lone thumb press gives a mark, else 0.
 *
 * Proved: open_numbers (keyboard/specs/Keyboard.antt) of opening
 * (rules/specs/States.antt).
 */
trabeculon_opened trabeculon_open(uint16_t t, uint8_t j, uint8_t l, uint8_t solo);

/*
 * What a step answers.
 *
 * machine      beside 0: the machine after the event. Beside any other number:
 *              the one that was given, byte for byte, even if it is none.
 * number       0  accepted
 *              12 the list of pairs, ts or n is not accepted
 *              2  the numbers name no machine, or one that is not well formed
 *              3  kind or key not allowed
 *              4  stamp above the largest, 1,000,000,000,000
 *              5  stamp before the last accepted one
 *              11 a press of a new key while 6 are held
 *              They are tried in this order; the first that holds is given.
 * items        how many items the event commits, 0 to 2. An item is a
 *              character, one whose face is empty too, a mark, or the
 *              character of a pair.
 * first,       the items' words, in order: a character's code point, 1 for the
 * second       left mark, 2 for the right mark, 0 for an empty face. 0 also
 *              where there is no such item.
 * backspaces   how many of the last signs on the screen are to be taken back
 *              first, 0 to 2. They are characters that waited, never committed
 *              ones.
 * sent_first,  the signs to be shown then, in order, as words like the items'.
 * sent_second, There are 0 to 3 of them; behind the last stands 0.
 * sent_third
 *
 * Beside any number but 0, all that stands behind number is 0. The answer has 4
 * bytes of padding at its end, so compare its fields and not its bytes.
 */
typedef struct {
    trabeculon_machine machine;
    uint32_t number;
    uint32_t items;
    uint16_t first;
    uint16_t second;
    uint16_t backspaces;
    uint16_t sent_first;
    uint16_t sent_second;
    uint16_t sent_third;
} trabeculon_stepped;

/*
 * Takes one event. Kinds and keys are those of a log: 1 character down, 2
 * character up, 3 thumb down, 4 thumb up, 5 function down, 6 tick. Key is 0 to
 * 30 for kinds 1 and 2, 0 (left) or 1 (right) for 3 and 4, 0 for 5 and 6. The
 * stamp is the keyboard's.
 *
 * If the machine's deadline is at or before the stamp, what is due is done
 * first, and then the event acts. Stepping through the events that
 * trabeculon_read_log accepts of a log, with the log's own list, T_s and N lent
 * (no pairs where it has none), commits the words that it writes, given room
 * for them all.
 *
 * A character key is held from its down to its up, and nothing else lets go of
 * it, a function key neither. A down of a key that is held already is a repeat
 * of the hardware and no press. It does what a tick with that stamp does: what
 * is due, and last moves; nothing else changes. So does an up of a key that is
 * not held, say a second one, or one whose down was refused. A down of a key
 * that is not held, while 6 others are, is refused 11, since a keyboard may
 * ghost then; a repeat never is. Thumbs are not held in this sense.
 *
 * Proved: step_numbers (keyboard/specs/Keyboard.antt) of step
 * (rules/specs/GivenBack.antt); when each number is given, 11 too (Refusals,
 * rules/specs/Refusals.antt); that a repeat, and an up of a key not held, give
 * what a tick gives, refusals too (ActsAsTick), and which keys an event leaves
 * held (HeldAfterwards, both in rules/specs/HeldRules.antt); that the numbers
 * say that number and all that is sent and committed (number_back,
 * sendings_back and words_back in HostFacts, keyboard/specs/HostScreen.antt);
 * at most 2 items and 4 sendings, 2 backspaces and 3 signs (StepSizes and
 * StepSendable, rules/specs/StepFacts.antt). Of the words of a log: words_are
 * in LogSequence (keylog/specs/LogSequence.antt) and line_is in HostFacts both
 * speak of the line of the same events with the same list.
 */
trabeculon_stepped trabeculon_step(trabeculon_machine machine,
                                   const uint32_t *pairs, size_t pairs_len,
                                   uint16_t ts, uint8_t n, uint8_t kind,
                                   uint8_t key, trabeculon_stamp stamp);

/*
 * What asking for the distance answers.
 *
 * number        0  answered
 *               12 the list of pairs, ts or n is not accepted
 *               2  the numbers name no machine, or one that is not well formed
 *               4  stamp above the largest, 1,000,000,000,000
 *               5  stamp before the last accepted one
 *               They are tried in this order; the first that holds is given.
 * deadline      1 if the machine has a deadline. 0 if it has none: then no tick
 *               is needed before the next event. 0 also beside any number but
 *               0, which says nothing of a deadline: look at number first.
 * milliseconds  from the stamp to the deadline: positive still to wait, 0 due
 *               now, negative overdue by so many. 0 where deadline is 0.
 */
typedef struct {
    uint32_t number;
    uint32_t deadline;
    int64_t milliseconds;
} trabeculon_asked;

/*
 * Says how far the machine's next deadline is from a stamp of the keyboard's
 * clock. A host's own time has nothing to do with it, and is no
 * trabeculon_stamp.
 *
 * While the answer for a stamp is positive, or that there is no deadline, a
 * tick with that stamp changes only the last stamp; at 0 or below it does what
 * is due. There is no deadline in state 1, one in state 3 only with solo 1, and
 * always one in the other states.
 *
 * Proved: distance_numbers (keyboard/specs/Keyboard.antt) of asking
 * (rules/specs/Distance.antt, over deadline in States.antt); what a tick does,
 * and that asking is refused as a tick is (DistanceNumbers,
 * keyboard/specs/DistanceNumbers.antt).
 */
trabeculon_asked trabeculon_distance(trabeculon_machine machine,
                                     const uint32_t *pairs, size_t pairs_len,
                                     uint16_t ts, uint8_t n,
                                     trabeculon_stamp stamp);

/*
 * A row of live keyboards at one console (request 10/12): what its host does.
 *
 * Up to 16 machines lie side by side in an array of the host's, each opened by
 * trabeculon_open with settings of its own. A keyboard's number is its place in
 * that row, the first being 0. On an event of a keyboard the host calls
 * trabeculon_row_step with the row and that number, and the machine is advanced
 * where it lies; then trabeculon_row_distance, with the same row and number.
 * For each keyboard it does what "A live keyboard" says: each has its own
 * clock, and a screen and a committed line of its own. One list of pairs, ts
 * and n serve the row; to change them wait until no machine in it is in state 7
 * or 8.
 *
 * An event answers what trabeculon_step answers for that machine alone, does
 * the same to the machine in the row, and leaves every other byte of the row as
 * it was, also where other places hold numbers that name no machine. So what a
 * keyboard gets depends neither on what the others hold or get nor on its place
 * in the row, and no stamp is ever compared with one of another keyboard. The
 * host may put other numbers in a place of the row between any two calls, say
 * those of a keyboard that it opens now, or lend a longer row of at most 16.
 *
 * Proved: while the host leaves a keyboard's own numbers alone and lends one
 * list, ts and n, calls at rows are, for that keyboard, calls of trabeculon_step
 * with its own events (OwnCalls); two hosts who lend the same, whose keyboards
 * get the same events from the same numbers, see the same there, whatever else
 * their rows hold (IsolatedNumbers); a keyboard that was opened and then got
 * calls at the row alone is answered as document 01 answers its own events, and
 * so when it is asked, its screen and line are its own, demand 3 holds of them,
 * and 5 is given by its own last stamp (OpenedInRowStatement); where the clock
 * of one keyboard begins does not matter (MovedInRowStatement, all four in
 * keyboard_row/specs/KeyboardsRuns.antt); and a row of numbers is stepped and
 * asked as the row of machines that they name (AsMachinesStatement,
 * keyboard_row/specs/KeyboardsFacts.antt, over step_at, row/specs/Row.antt).
 */

/*
 * What an event at a row answers: what trabeculon_step does, but for the
 * machine, which is in the row.
 *
 * number       13 row_len is above 16, or board is not below row_len: tried
 *                 first, before 12 too, whatever the row holds, whatever is
 *                 lent and whatever the event is
 *              Else the number of trabeculon_step for that machine: 0, 12, 2,
 *              3, 4, 5 or 11, in the order that is said there.
 * items,       as in trabeculon_stepped
 * first,
 * second,
 * backspaces,
 * sent_first,
 * sent_second,
 * sent_third
 *
 * Beside any number but 0, all that stands behind number is 0. It is 20 bytes
 * with no padding.
 */
typedef struct {
    uint32_t number;
    uint32_t items;
    uint16_t first;
    uint16_t second;
    uint16_t backspaces;
    uint16_t sent_first;
    uint16_t sent_second;
    uint16_t sent_third;
} trabeculon_row_stepped;

/*
 * Takes one event at a keyboard of a row. Kind, key and stamp are those of
 * trabeculon_step.
 *
 * Afterwards:
 *   - beside number 0, the machine at place board of the row is the one after
 *     the event;
 *   - beside any other number it is as it was, byte for byte, even if it is
 *     none;
 *   - every other byte of the row holds what it held before, whatever the
 *     number;
 *   - the list is unchanged.
 *
 * The caller lends row_len writable machines at row, aligned as a
 * trabeculon_machine is, and pairs_len readable numbers at pairs as
 * trabeculon_step takes them, which don't overlap. Either length may be 0; the
 * pointer is not null even then. In a row of none every number is refused 13.
 *
 * Proved: row_step_numbers (keyboard_row/specs/Keyboards.antt), over
 * step_numbers (keyboard/specs/Keyboard.antt); exactly when 13 is given and
 * then 12, that all else is the machine's own, what a refused event leaves, and
 * that the other machines and the row's length stay (RowStepFacts,
 * keyboard_row/specs/KeyboardsFacts.antt).
 */
trabeculon_row_stepped trabeculon_row_step(trabeculon_machine *row,
                                           size_t row_len,
                                           const uint32_t *pairs,
                                           size_t pairs_len, uint16_t ts,
                                           uint8_t n, uint32_t board,
                                           uint8_t kind, uint8_t key,
                                           trabeculon_stamp stamp);

/*
 * Says how far the next deadline of a keyboard of a row is from a stamp of that
 * keyboard's clock. It answers what trabeculon_distance answers for the machine
 * at place board; but 13, deadline 0 and milliseconds 0 if row_len is above 16
 * or board is not below row_len, which is tried first, before 12 too. The row
 * is read and not written. What the caller lends is as for trabeculon_row_step.
 *
 * Proved: row_distance_numbers (keyboard_row/specs/Keyboards.antt), over
 * distance_numbers (keyboard/specs/Keyboard.antt); exactly when 13 is given,
 * and that it is refused as a tick at that keyboard is (RowDistanceFacts,
 * keyboard_row/specs/KeyboardsFacts.antt).
 */
trabeculon_asked trabeculon_row_distance(const trabeculon_machine *row,
                                         size_t row_len, const uint32_t *pairs,
                                         size_t pairs_len, uint16_t ts,
                                         uint8_t n, uint32_t board,
                                         trabeculon_stamp stamp);

/*
 * A log that arrives in pieces, of any size, even of no bytes: what its host
 * does.
 *
 *   - Once: trabeculon_reader_fresh, and a row of TRABECULON_MOST_PAIRS numbers
 *     of 32 bits for the log's list of pairs, whatever they are.
 *   - On each piece: trabeculon_reader_piece with the reader, the row, the
 *     piece, and a run of its own for the words of the records whose last byte
 *     it brings. The reader of the answer takes the place of the old one,
 *     whatever the number. The line grows by the words at the run's front, as
 *     many as the total has grown by.
 *   - When the log has ended: trabeculon_reader_end with the reader and row.
 *
 * A list of pairs (request 9/12) is longer than a reader has room for, so it
 * lives in that row, which belongs to the reader: it is lent with every call
 * for the log, as the last call left it. A log that has no list needs it too,
 * since any may have one. It may be longer than 64 numbers; one that is shorter
 * is refused 2. The numbers behind the 64th are never written. Once an event or
 * a list was accepted, or an answer is for good, nothing in it is.
 *
 * However the log is cut, until an 8 or 9 the words joined, the totals, the
 * number and the offset are those that trabeculon_read_log answers for the
 * whole log, given a run with room enough (two words for every 13 bytes). Only
 * 6 has to wait for the end: until then a record that is not whole is no
 * refused one, number is 0 and offset is the bytes so far. Every other refusal
 * is told with the piece that brings the refused record's last byte.
 *
 * Once a number other than 0 was told, or the end was said, that answer is for
 * good: every further piece or end gets it again, and nothing is written.
 *
 * The host keeps the reader and its row. Nothing is kept here between two
 * calls, so any number of logs can be read side by side, each with its own
 * reader and row; and the host may save both, byte for byte, and go on with
 * them later, in another process too.
 *
 * Proved, of calls from a fresh reader on: the words, the answers, that they
 * are those of the whole log, that a reader which a call handed back is not
 * refused 2, and that the answer stays (InPiecesFacts,
 * host/specs/InPiecesFacts.antt, over HoweverCut,
 * keylog/specs/HoweverCut.antt).
 */

/*
 * A reader between two calls, as numbers.
 *
 * machine  the machine after the last accepted record; before the settings
 *          every number of it is 0
 * offset   where the next record starts; once told is 1, the answer's offset
 * words    how many words were written, in all pieces
 * count    how many bytes of the record at offset came already
 * header   of these, bytes 0 to 2 as one number, high byte first
 * front    bytes 3 and 4 in the same way
 * tail     bytes 5 to 12 in the same way. Bytes behind these are only counted,
 *          since a record that has them is refused 7 whatever they are.
 *          Of a record with tag 3 where opened is 1 byte 5 alone: its pairs
 *          stand in the row, one number a pair, of the last one as many bytes
 *          as came, at the number's low end. Bytes behind 64 pairs are only
 *          counted, since such a record is refused 7 or 12.
 * told     1 once a record was refused or the end was said, else 0
 * number   the number of that answer; 0 if told is 0
 * pairs    how many numbers at the row's front are lent to the events, in the
 *          form that trabeculon_step takes
 * ts, n    T_s and N beside them. Where the log has no list these three are
 *          0 pairs, 50 and 1.
 * opened   1 straight behind the settings, where a list may come; else 0
 *
 * A host keeps these numbers and hands them on. It may look into them, and it
 * may save them and go on later. Any numbers may be handed over; those that are
 * no reader are refused:
 *
 * They name a reader if the machine's numbers are all 0 and so is opened, or if
 * they name a machine and opened is 0 or 1; and told is 1, or told and number
 * are 0. That reader is well formed if its machine is, if it has one: with no
 * pairs where opened is 1, else with the list that pairs, ts, n and the row
 * name, which must be one that trabeculon_step accepts; pairs is then at most
 * 64; 13 * words <= 2 * offset; offset + count is at most 1,000,000,000,000;
 * count is below the length that the record states, 3 plus 256 times byte 1
 * plus byte 2, a byte that did not come counting 0; and, if told is 1, number
 * is 0, 1, 3 to 9, 11 or 12 and count is 0. Numbers that name no reader, or one
 * that is not well formed, are refused 2. The fresh reader is well formed, and
 * a call with a well-formed reader and its row, however the host came by them,
 * hands back a well-formed one; so numbers that were saved go on without a 2.
 *
 * Bits of header, front and tail above the bytes that came say nothing, and a
 * call may leave any bits there. With count 4, say, these are the bits of
 * header from 24 on, those of front from 8 on, and all of tail. Nor do pairs,
 * ts and n before the settings and where opened is 1.
 *
 * It is 120 bytes with no padding.
 *
 * Proved: the numbers lose nothing of a reader and name it (ReadersBack,
 * log_reader/specs/ReadersBack.antt, over reader_numbers and reader_named,
 * Readers.antt); which are well formed (accepted there, over formed,
 * keylog/specs/Pieces.antt), and that calls keep them so (piece_goes_on and
 * end_goes_on in InPiecesFacts).
 * Tested: the 120 bytes (below, and tests/c/read_pieces.c).
 */
typedef struct {
    trabeculon_machine machine;
    uint64_t offset;
    uint64_t words;
    uint64_t count;
    uint64_t header;
    uint64_t front;
    uint64_t tail;
    uint32_t told;
    uint32_t number;
    uint32_t pairs;
    uint16_t ts;
    uint8_t n;
    uint8_t opened;
} trabeculon_reader;

/*
 * What a call of the reader in pieces answers.
 *
 * reader          the reader after the call; beside 2 the one that was given,
 *                 byte for byte, even if it is none
 * answer.number   0  no record was refused; from trabeculon_reader_end, nor is
 *                    one cut
 *                 2  the row is shorter than 64 numbers, or the numbers name
 *                    no reader, or one that is not well formed
 *                 6  the log is empty, or a record's header or body cut: only
 *                    once the end was said
 *                 8  the record's words don't all fit into the run of the piece
 *                    that brings its last byte
 *                 9  the piece takes the log past 1,000,000,000,000 bytes; no
 *                    byte of it is read
 *                 1, 3, 4, 5, 7, 11 and 12 as trabeculon_read_log gives them.
 *                 In a call 2 is tried first, then whether an answer is for
 *                 good, then 9, then the records as there.
 * answer.waiting  how many characters wait after the last accepted record, 0 to
 *                 2; beside 2: 0
 * answer.words    how many words were written, in all pieces; beside 2: 0
 * answer.offset   where the refused record starts, in bytes from the log's
 *                 start; beside 0 the bytes so far, beside 9
 *                 1,000,000,000,000, beside 2: 0
 *
 * It is 144 bytes with no padding.
 */
typedef struct {
    trabeculon_reader reader;
    trabeculon_answer answer;
} trabeculon_piece_read;

/*
 * The reader before the first piece. Every number of it is 0.
 *
 * Proved: fresh_numbers (host/specs/InPieces.antt), and that they name the
 * fresh reader (fresh in InPiecesFacts).
 */
trabeculon_reader trabeculon_reader_fresh(void);

/*
 * Reads a piece of a log, in the form that trabeculon_read_log reads, and
 * writes the words of the records whose last byte it brings into a lent run of
 * bytes, two bytes a word, high byte first. The run has room for out_len / 2
 * words. 4 * (piece_len / 13 + 2) bytes always suffice.
 *
 * Afterwards, whatever the number:
 *   - the first bytes of out hold those words, in order: answer.words less the
 *     words of the reader that was given (beside 2 there are none);
 *   - every other byte of out holds what it held before, an odd last byte
 *     among them. A record refused 8 writes none of its words;
 *   - the row at list holds what the reader of the answer needs; beside 2, and
 *     where no list may come any more, what it held before;
 *   - the piece is unchanged.
 *
 * The caller lends list_len writable numbers at list, aligned as a uint32_t is,
 * piece_len readable bytes at piece and out_len writable bytes at out, which
 * don't overlap. Each length may be 0; the pointer is not null even then. No
 * alignment is asked of the bytes.
 *
 * Proved: the answer, the reader and the run afterwards (GivesPiece,
 * host/specs/InPieces.antt, over piece, keylog/specs/Pieces.antt); 9, and what
 * the totals count (PieceFacts, keylog/specs/PieceFacts.antt); that a run of so
 * many bytes suffices (room_suffices and never_8 in InPiecesFacts).
 */
trabeculon_piece_read trabeculon_reader_piece(trabeculon_reader reader,
                                              uint32_t *list, size_t list_len,
                                              const uint8_t *piece,
                                              size_t piece_len, uint8_t *out,
                                              size_t out_len);

/*
 * Says that the log has ended. The end of a log is no key event, so what waits
 * is not committed, and there are no words to write. The row is read and not
 * written.
 *
 * Proved: the answer and the reader (GivesEnd, host/specs/InPieces.antt, over
 * end, keylog/specs/Pieces.antt).
 */
trabeculon_piece_read trabeculon_reader_end(trabeculon_reader reader,
                                            const uint32_t *list,
                                            size_t list_len);

/* ---- Mending a damaged log (request 12/12) ---- */

/* So many of the dropped records are listed; all are counted. */
#define TRABECULON_MOST_LISTED 1000

/*
 * What the mender answers: the number, how many bytes the mended log has, how
 * many dropped records stand in the list, and how many were dropped in all. If
 * number is not 0, the others are 0.
 */
typedef struct {
    uint64_t number;
    uint64_t bytes;
    uint64_t listed;
    uint64_t dropped;
} trabeculon_mended;

/*
 * Mends a damaged log into a lent run of bytes.
 *
 * The log is log_len bytes, in the form that trabeculon_read_log reads. Its
 * records are copied to out where the reader, word room apart, accepts them
 * after the ones already copied; the others are dropped, each stepped over by
 * its stated length. A cut tail is dropped as one record, with 6. A list of
 * pairs behind a dropped second record is copied if it is good.
 *
 * The number is
 *   0  the log is mended;
 *   n  of the first record, if that is not good settings (6 for an empty log);
 *      or of the second, if its tag is 3 and it is not accepted, cut included;
 *   8  what is copied does not fit out (checked last).
 *
 * The list has two numbers for each dropped record: its offset in log, and the
 * number with which the reader refuses it there (see trabeculon_read_log).
 * Listed are the first 1,000, in order, or as many as list has room for:
 * list_len / 2; an odd last number of it is never touched.
 *
 * Afterwards:
 *   - if number is 0, the first bytes bytes of out hold the mended log, the
 *     first 2 * listed numbers of list the list, and all else of both holds
 *     what it held before;
 *   - if not, both hold what they held before;
 *   - the log is unchanged.
 * Nothing is kept between two calls. A run of log_len bytes always suffices.
 *
 * What it writes is accepted by the reader given enough room; a log that the
 * reader accepts comes out byte for byte the same; mending what it wrote writes
 * the same bytes and drops nothing. Demand 3 is claimed of the mended log only.
 *
 * The caller lends log_len readable bytes at log, out_len writable bytes at out
 * and list_len writable numbers at list, aligned as a uint64_t is; no two of
 * them overlap. Each length may be 0; the pointer is not null even then.
 *
 * Proved: the answer and both runs afterwards (Mends, mender/specs/Runs.antt,
 * over mending/specs/Mending.antt); the sentences above (MendLawsStatement,
 * mending/specs/Laws.antt); which records are copied, with which number and
 * offset the others are dropped, and the first 1,000 (WhichRecordsStatement,
 * FirstListedStatement, mending/specs/WhichRecords.antt).
 */
trabeculon_mended trabeculon_mend(const uint8_t *log, size_t log_len,
                                  uint8_t *out, size_t out_len,
                                  uint64_t *list, size_t list_len);

/*
 * The structs are as large here as in the library, or this does not compile.
 * Before C11 and C++11 a row of less than no bytes says so.
 */
#if defined(__cplusplus) && __cplusplus >= 201103L
#define TRABECULON_SIZE(type, size) static_assert(sizeof(type) == (size), #type)
#elif defined(__STDC_VERSION__) && __STDC_VERSION__ >= 201112L
#define TRABECULON_SIZE(type, size) _Static_assert(sizeof(type) == (size), #type)
#else
#define TRABECULON_SIZE(type, size) \
    typedef char type##_size[sizeof(type) == (size) ? 1 : -1]
#endif
TRABECULON_SIZE(trabeculon_stamp, 8);
TRABECULON_SIZE(trabeculon_answer, 24);
TRABECULON_SIZE(trabeculon_drill, 24);
TRABECULON_SIZE(trabeculon_machine, 56);
TRABECULON_SIZE(trabeculon_opened, 64);
TRABECULON_SIZE(trabeculon_stepped, 80);
TRABECULON_SIZE(trabeculon_asked, 16);
TRABECULON_SIZE(trabeculon_row_stepped, 20);
TRABECULON_SIZE(trabeculon_reader, 120);
TRABECULON_SIZE(trabeculon_piece_read, 144);
TRABECULON_SIZE(trabeculon_mended, 32);
#undef TRABECULON_SIZE

#ifdef __cplusplus
}
#endif

#endif
