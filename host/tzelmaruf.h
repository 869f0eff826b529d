/*
 * Tzelmaruf: checks timing tables and the papers that come with them, and makes a paper for a table that came without one.
 *
 * Which function to call: tzelmaruf_admit for a table alone. For a table and a paper: tzelmaruf_check_run if the paper begins with
 * the two bytes RN (it is a run list), else tzelmaruf_check_regions (it is a region list, or nothing). For a table without a paper:
 * tzelmaruf_make_list, which writes the region list. All of them admit the table first.
 *
 * Each function takes files as bytes in memory, reads nothing past the lengths given, keeps nothing between calls and always
 * returns. The first three write to no memory of the caller's; tzelmaruf_make_list writes to its buffer and its waiting list, and
 * nowhere else. Every byte string of every length is a legal input: there is nothing to test first. A pointer must lead to as many
 * readable bytes as its length says (writable ones, and records, for the buffer and the waiting list, which must not overlap each
 * other or the table). With length 0 it is not used, and may be null; a null pointer with a length above 0 is undefined behaviour
 * and must not be passed. A call needs at most 16 KiB of stack, one of tzelmaruf_make_list at most 20 KiB, and none needs a heap.
 *
 * Threads: as nothing is kept between calls, calls from several threads do not meet, also on the same files, as long as no thread
 * changes the lent bytes during a call, and each has a buffer and a waiting list of its own.
 *
 * Each function returns one number:
 *   accepted: the count (records of a table, steps of a run list, rows of a region list), which is below 65,536;
 *   refused:  the refusal number times 65,536 plus the place, the number of the record in its file (the header is 0).
 *
 * Link with libtzelmaruf.a (`make -C host` writes it to target/host/). It needs nothing from outside but the
 * C library's memcpy and memset.
 */
#ifndef TZELMARUF_H
#define TZELMARUF_H

#include <stddef.h>
#include <stdint.h>

/*
 * The release, as text and as a number: 10,000 for each major, 100 for each minor, 1 for each patch. From 1.1.0 on a table may have
 * comparison 5, not equal; 1.0.0 refuses it as out of range (TZELMARUF_TABLE_RANGE). From 1.2.0 on the place of
 * TZELMARUF_NEXT_ROW_MISSING is that of the first row that lacks a next row; an older release may name a later one that does. From
 * 1.3.0 on there is tzelmaruf_make_list; the other functions are as they were.
 */
#define TZELMARUF_VERSION "1.3.0"
#define TZELMARUF_VERSION_NUMBER 10300

#ifdef __cplusplus
extern "C" {
#endif

/* Admits a table: refusals 1 to 6, or the count of its records. */
uint32_t tzelmaruf_admit(const uint8_t *table, size_t table_length);

/* Checks a run list against a table: refusals 1 to 13, or the count of its steps. Accepted: the run enters a final location. */
uint32_t tzelmaruf_check_run(const uint8_t *table, size_t table_length, const uint8_t *paper, size_t paper_length);

/*
 * Checks a region list against a table: refusals 1 to 9 and 14 to 17, or the count of its rows. Accepted: no run enters a final location.
 * The place of 14, 15 and 17 is that of the first row at fault: 17 names the first row that lacks a next row.
 */
uint32_t tzelmaruf_check_regions(const uint8_t *table, size_t table_length, const uint8_t *paper, size_t paper_length);

/* A row that waits to be followed. Its values are the library's own business: any are taken, and all are 0 after a call. */
struct tzelmaruf_row {
    uint8_t location;
    uint16_t intervals[4];
    uint8_t ranks[4];
};

/* The bytes of the longest list, a buffer that is enough for every table; and the records that a waiting list must have. */
#define TZELMARUF_LONGEST_LIST 45060
#define TZELMARUF_WAITING_ROWS 4096

/*
 * Makes the region list of a table: refusals 1 to 6, 20 and 21, the last two at place 0, or the count of its rows. Accepted: no run
 * enters a final location, the buffer begins with the list (tzelmaruf_list_length), which tzelmaruf_check_regions accepts with the
 * same count, and its later bytes stay. Refused by 21: some run does enter one. Refused by 20: more than 4,096 rows, or a buffer or
 * a waiting list that is too short; this says nothing of final locations. After every refusal, those of the table too, the buffer is
 * all zero. The waiting list needs TZELMARUF_WAITING_ROWS records, whatever their values; all that were lent are zero after the
 * call, accepted or refused.
 */
uint32_t tzelmaruf_make_list(const uint8_t *table, size_t table_length, uint8_t *buffer, size_t buffer_length,
                             struct tzelmaruf_row *waiting, size_t waiting_count);

/*
 * Why a file is refused: number, name and words of each refusal. `./run`, `./make`, README.md and the tests go by these lines. 18 and
 * 19 are answers of a call that is not in this library.
 */
#define TZELMARUF_REFUSALS(X) \
    X(1, TABLE_CUT, "the table ends inside a record, or a record has another mark") \
    X(2, HEADER_RANGE, "a field of the table's header is out of range") \
    X(3, TABLE_RANGE, "a field of a location or an edge is out of range") \
    X(4, TABLE_LONG, "bytes follow the table's last record") \
    X(5, CONSTANT_ABOVE_BOUND, "a guard or a constant update exceeds its clock's bound") \
    X(6, CLOCK_BREAKS_BOUND, "a clock update breaks the bound rule") \
    X(7, LIST_CUT, "the paper ends inside a record, or a record has another mark") \
    X(8, LIST_RANGE, "a field of the paper is out of range, ranks included") \
    X(9, LIST_LONG, "bytes follow the paper's last record") \
    X(10, EDGE_FROM_ELSEWHERE, "a step's edge leaves from another location") \
    X(11, GUARD_FAILS, "a guard fails after the delay") \
    X(12, VALUE_NOT_ALLOWED, "a new clock value is not allowed") \
    X(13, END_NOT_FINAL, "the run ends in a location that is not final") \
    X(14, ROWS_NOT_ASCENDING, "a row is not above the one before") \
    X(15, ROW_FINAL, "a row's location is final") \
    X(16, INITIAL_ROW_MISSING, "the initial row is missing") \
    X(17, NEXT_ROW_MISSING, "a row lacks a next row, by waiting or by an edge") \
    X(20, NO_ROOM, "the list would have more than 4,096 rows, or the buffer or the waiting list is too short") \
    X(21, FINAL_ENTERED, "a run of the table enters a final location, so that there is no closed list")

#define TZELMARUF_AS_ENUMERATOR(number, name, words) TZELMARUF_##name = number,
#define TZELMARUF_AS_CASE(number, name, words) \
    case number: \
        return words;

/* The refusals' numbers by name: TZELMARUF_TABLE_CUT = 1 and so on. */
enum tzelmaruf_refusal {
    TZELMARUF_ACCEPTED = 0,
    TZELMARUF_REFUSALS(TZELMARUF_AS_ENUMERATOR)
};

/* What a refusal's number means, in words. */
static inline const char *tzelmaruf_meaning(unsigned number) {
    switch (number) {
    case TZELMARUF_ACCEPTED:
        return "accepted";
    TZELMARUF_REFUSALS(TZELMARUF_AS_CASE)
    default:
        return "unknown refusal";
    }
}

#undef TZELMARUF_AS_ENUMERATOR
#undef TZELMARUF_AS_CASE

/* The count of an answer; 0 of a refusal. */
static inline unsigned tzelmaruf_count(uint32_t answer) {
    return answer < 65536u ? (unsigned)answer : 0u;
}

/*
 * How many bytes the list has that tzelmaruf_make_list has made from the table with this answer; 0 of a refusal. The third byte of an
 * admitted table is the count of its clocks.
 */
static inline size_t tzelmaruf_list_length(const uint8_t *table, uint32_t answer) {
    return answer < 65536u ? 4u + (size_t)answer * (3u + 2u * table[2]) : 0u;
}

/*
 * The parts of an answer: the refusal's number, which is 0 where the file is accepted, and its place; or the count. The place of an
 * acceptance means nothing.
 */
#define TZELMARUF_NUMBER(answer) ((unsigned)((answer) >> 16))
#define TZELMARUF_PLACE(answer) ((unsigned)((answer) & 0xFFFFu))
#define TZELMARUF_COUNT(answer) (tzelmaruf_count(answer))

#ifdef __cplusplus
}
#endif

#endif
