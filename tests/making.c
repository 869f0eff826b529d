/*
 * Lists made into buffers, and with waiting lists, of many lengths, under a tool that watches the heap:
 *   making TABLE LIST                  the list is what is made of the table
 *   making TABLE BYTES NUMBER PLACE    the table is refused so, where there is room for so many bytes
 *
 * Each thing that is lent stands in a heap block of exactly its size, buffer and waiting list full of rubbish. What is expected is
 * reckoned here once more: without the room, or with fewer than 4,096 records, the answer is 20 at 0, unless the table is refused by
 * itself; after a refusal the buffer is all zero, else the list stands first and later bytes are as they were; the records are zero in
 * every case, and no byte of the table changes. The number of calls is printed.
 */
#include "tzelmaruf.h"

#include <stdio.h>
#include <stdlib.h>
#include <string.h>

enum { RUBBISH = 0xA5, AROUND = 16 };

struct file {
    uint8_t bytes[65536];
    size_t length;
};

/* What is expected: the list, or how many bytes it would take; and the answer where these fit. */
struct expected {
    struct file list;
    size_t bytes;
    uint32_t answer;
};

static unsigned long calls;

static void *block(size_t size, int byte) {
    void *start = malloc(size ? size : 1);
    if (!start) {
        fprintf(stderr, "making: no memory\n");
        exit(2);
    }
    memset(start, byte, size);
    return start;
}

static void read_file(const char *name, struct file *file) {
    FILE *stream = fopen(name, "rb");
    if (!stream) {
        fprintf(stderr, "making: cannot open %s\n", name);
        exit(2);
    }
    file->length = fread(file->bytes, 1, sizeof file->bytes, stream);
    fclose(stream);
}

static int is_filled(const uint8_t *bytes, size_t from, size_t to, int byte) {
    while (from < to)
        if (bytes[from++] != byte)
            return 0;
    return 1;
}

/* By its fields: what stands between them is nobody's. */
static int is_zero(struct tzelmaruf_row row) {
    unsigned clock, sum = row.location;
    for (clock = 0; clock < 4; clock++)
        sum |= row.intervals[clock] | row.ranks[clock];
    return sum == 0;
}

static void fail(const char *what, size_t length, size_t records, uint32_t answer) {
    printf("making: %s: a buffer of %lu bytes, %lu records, answer %u at %u\n", what, (unsigned long)length, (unsigned long)records,
           TZELMARUF_NUMBER(answer), TZELMARUF_PLACE(answer));
    exit(1);
}

static void call(const struct file *table, const struct expected *expected, size_t length, size_t records) {
    uint8_t *lent = block(table->length, 0), *buffer = block(length, RUBBISH);
    struct tzelmaruf_row *waiting = block(records * sizeof *waiting, 0xFF);
    int is_fit = length >= expected->bytes && records >= TZELMARUF_WAITING_ROWS;
    int is_table = TZELMARUF_NUMBER(expected->answer) <= 6 && TZELMARUF_NUMBER(expected->answer) > 0;
    uint32_t wanted = is_fit || is_table ? expected->answer : (uint32_t)TZELMARUF_NO_ROOM << 16, answer;
    size_t end = 0, row;
    memcpy(lent, table->bytes, table->length);
    answer = tzelmaruf_make_list(lent, table->length, buffer, length, waiting, records);
    calls++;
    if (answer != wanted)
        fail("another answer", length, records, answer);
    if (TZELMARUF_NUMBER(answer) == TZELMARUF_ACCEPTED) {
        end = tzelmaruf_list_length(lent, answer);
        if (end != expected->list.length || memcmp(buffer, expected->list.bytes, end) != 0)
            fail("another list", length, records, answer);
        if (!is_filled(buffer, end, length, RUBBISH))
            fail("later bytes have changed", length, records, answer);
    } else if (!is_filled(buffer, 0, length, 0)) {
        fail("the buffer is not all zero", length, records, answer);
    }
    for (row = 0; row < records; row++)
        if (!is_zero(waiting[row]))
            fail("a record is not zero", length, records, answer);
    if (memcmp(lent, table->bytes, table->length) != 0)
        fail("the table has changed", length, records, answer);
    free(waiting);
    free(buffer);
    free(lent);
}

int main(int argc, char **argv) {
    static const size_t records[] = {0, 1, TZELMARUF_WAITING_ROWS - 1, TZELMARUF_WAITING_ROWS, TZELMARUF_WAITING_ROWS + 1, 5000};
    static struct file table;
    static struct expected expected;
    size_t length, k;
    if (argc != 3 && argc != 5) {
        fprintf(stderr, "usage: making TABLE LIST | making TABLE BYTES NUMBER PLACE\n");
        return 2;
    }
    read_file(argv[1], &table);
    if (argc == 3) {
        read_file(argv[2], &expected.list);
        expected.bytes = expected.list.length;
        expected.answer = (uint32_t)(expected.list.bytes[2] * 256 + expected.list.bytes[3]);
    } else {
        expected.bytes = strtoul(argv[2], NULL, 10);
        expected.answer = (uint32_t)(strtoul(argv[3], NULL, 10) << 16 | strtoul(argv[4], NULL, 10));
    }
    for (k = 0; k < sizeof records / sizeof *records; k++) {
        for (length = 0; length <= AROUND; length++)
            call(&table, &expected, length, records[k]);
        for (length = expected.bytes > AROUND ? expected.bytes - AROUND : 0; length <= expected.bytes + AROUND; length++)
            call(&table, &expected, length, records[k]);
        call(&table, &expected, TZELMARUF_LONGEST_LIST, records[k]);
    }
    printf("%lu calls\n", calls);
    return 0;
}
