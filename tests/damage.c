/*
 * Damaged forms of a table and a paper, put to the three functions under a tool that watches the heap: damage TABLE PAPER
 *
 * Every cut, and every byte changed to some telling values, of either file. Each form stands in a heap block of exactly its size,
 * and must come back unchanged. How often each refusal number came is printed, so that two builds can be compared.
 * With `damage past` one byte behind a block is read, to see that the tool is awake.
 */
#include "tzelmaruf.h"

#include <stdio.h>
#include <stdlib.h>
#include <string.h>

/* Bytes right up to the end of a heap block. Of an empty file the first byte is past the end too. */
struct lent {
    uint8_t *block;
    uint8_t *bytes;
    size_t length;
};

struct file {
    uint8_t bytes[65536];
    size_t length;
};

enum { NUMBERS = 20 };

static unsigned long counts[NUMBERS];
static unsigned long calls;

static struct lent lend(const uint8_t *bytes, size_t length) {
    struct lent lent = {malloc(length ? length : 1), NULL, length};
    if (!lent.block) {
        fprintf(stderr, "damage: no memory\n");
        exit(2);
    }
    lent.bytes = length ? lent.block : lent.block + 1;
    if (length)
        memcpy(lent.bytes, bytes, length);
    return lent;
}

static void count(uint32_t answer) {
    unsigned number = TZELMARUF_NUMBER(answer);
    if (number >= NUMBERS) {
        fprintf(stderr, "damage: the answer %lu has no meaning\n", (unsigned long)answer);
        exit(1);
    }
    counts[number]++;
    calls++;
}

/* One table and one paper to all three functions. */
static void put(const uint8_t *table, size_t table_length, const uint8_t *paper, size_t paper_length) {
    struct lent t = lend(table, table_length), p = lend(paper, paper_length);
    count(tzelmaruf_admit(t.bytes, t.length));
    count(tzelmaruf_check_run(t.bytes, t.length, p.bytes, p.length));
    count(tzelmaruf_check_regions(t.bytes, t.length, p.bytes, p.length));
    if ((t.length && memcmp(t.bytes, table, t.length)) || (p.length && memcmp(p.bytes, paper, p.length))) {
        fprintf(stderr, "damage: a lent file was changed\n");
        exit(1);
    }
    free(t.block);
    free(p.block);
}

static void put_both(const struct file *damaged, size_t length, const struct file *whole, int is_table) {
    if (is_table)
        put(damaged->bytes, length, whole->bytes, whole->length);
    else
        put(whole->bytes, whole->length, damaged->bytes, length);
}

/* Every form of one file beside the other, which is whole. */
static void damage(struct file *file, const struct file *whole, int is_table) {
    for (size_t length = 0; length <= file->length; length++)
        put_both(file, length, whole, is_table);
    for (size_t at = 0; at < file->length; at++) {
        uint8_t byte = file->bytes[at];
        const uint8_t values[] = {(uint8_t)(byte + 1), (uint8_t)(byte - 1), byte ^ 0x80, byte ^ 0x20, 0, 127, 255};
        for (size_t i = 0; i < sizeof values; i++) {
            file->bytes[at] = values[i];
            put_both(file, file->length, whole, is_table);
        }
        file->bytes[at] = byte;
    }
    file->bytes[file->length] = 0;
    put_both(file, file->length + 1, whole, is_table);
}

/* Empty files without a block. */
static int answers_nothing(void) {
    const uint32_t cut = (uint32_t)TZELMARUF_TABLE_CUT << 16;
    return tzelmaruf_admit(NULL, 0) == cut && tzelmaruf_check_run(NULL, 0, NULL, 0) == cut &&
           tzelmaruf_check_regions(NULL, 0, NULL, 0) == cut;
}

static int read_file(const char *name, struct file *file) {
    FILE *stream = fopen(name, "rb");
    if (!stream) {
        fprintf(stderr, "damage: cannot open %s\n", name);
        return 0;
    }
    file->length = fread(file->bytes, 1, sizeof file->bytes - 1, stream);
    fclose(stream);
    return 1;
}

/* Reads one byte behind a block, which a tool that watches the heap has to see. */
static int read_past(size_t length) {
    uint8_t zeros[4] = {0};
    struct lent lent = lend(zeros, length);
    volatile const uint8_t *bytes = lent.bytes;
    int byte = bytes[lent.length];
    free(lent.block);
    printf("read %d behind a block\n", byte & 0);
    return 0;
}

int main(int argc, char **argv) {
    static struct file table, paper;
    if (argc == 2 && !strcmp(argv[1], "past"))
        return read_past(4);
    if (argc == 2 && !strcmp(argv[1], "past-empty"))
        return read_past(0);
    if (argc != 3) {
        fprintf(stderr, "usage: damage TABLE PAPER\n");
        return 2;
    }
    if (!read_file(argv[1], &table) || !read_file(argv[2], &paper))
        return 2;
    if (!answers_nothing()) {
        fprintf(stderr, "damage: empty files are not refused\n");
        return 1;
    }
    damage(&table, &paper, 1);
    damage(&paper, &table, 0);
    printf("%lu calls:", calls);
    for (int number = 0; number < NUMBERS; number++)
        if (counts[number])
            printf(" %d: %lu", number, counts[number]);
    printf("\n");
    return 0;
}
