/* Checks a table, or a table and a paper, and says in words what was found: check TABLE [PAPER]; or makes the paper: check --make TABLE PAPER */
#include "tzelmaruf.h"

#include <errno.h>
#include <stdio.h>
#include <stdlib.h>
#include <string.h>

/* Only a good library gives 0: an accepted run shows that the library is bad, and so does a list that cannot be made as a final location is entered. */
enum { EXIT_GOOD = 0, EXIT_REFUSED = 1, EXIT_TROUBLE = 2, EXIT_REACHED = 3 };

/*
 * A file in memory, right up to the end of its block, so that a read past its end does not go unnoticed under valgrind. Of an empty
 * file even the first byte is past the end.
 */
struct file {
    uint8_t *block;
    uint8_t *bytes;
    size_t length;
};

/* No table or paper that is accepted is as long as this; what is longer is refused by its first so many bytes. */
enum { ENOUGH = 65536 };

static int read_file(const char *name, struct file *file) {
    static uint8_t buffer[ENOUGH];
    FILE *stream = fopen(name, "rb");
    if (!stream) {
        fprintf(stderr, "check: cannot open %s: %s\n", name, strerror(errno));
        return 0;
    }
    file->length = fread(buffer, 1, sizeof buffer, stream);
    if (ferror(stream)) {
        fprintf(stderr, "check: cannot read %s: %s\n", name, strerror(errno));
        fclose(stream);
        return 0;
    }
    fclose(stream);
    file->block = malloc(file->length ? file->length : 1);
    if (!file->block) {
        fprintf(stderr, "check: no memory for %s\n", name);
        return 0;
    }
    file->bytes = file->length ? file->block : file->block + 1;
    memcpy(file->bytes, buffer, file->length);
    return 1;
}

/* Prints the answer in words, and gives the exit status: `accepted` if it is an acceptance, which `verdict` and `counted` name. */
static int report(uint32_t answer, int accepted, const char *verdict, const char *counted) {
    unsigned number = TZELMARUF_NUMBER(answer);
    if (number == TZELMARUF_ACCEPTED) {
        printf("%s: %u %s\n", verdict, TZELMARUF_COUNT(answer), counted);
        return accepted;
    }
    printf("REFUSED %u at record %u: %s\n", number, TZELMARUF_PLACE(answer), tzelmaruf_meaning(number));
    return number == TZELMARUF_FINAL_ENTERED ? EXIT_REACHED : EXIT_REFUSED;
}

static int is_run(struct file paper) {
    return paper.length >= 2 && paper.bytes[0] == 'R' && paper.bytes[1] == 'N';
}

static int check(struct file table, struct file paper) {
    if (is_run(paper)) {
        uint32_t answer = tzelmaruf_check_run(table.bytes, table.length, paper.bytes, paper.length);
        return report(answer, EXIT_REACHED, "REACHED a final location", "steps");
    }
    uint32_t answer = tzelmaruf_check_regions(table.bytes, table.length, paper.bytes, paper.length);
    return report(answer, EXIT_GOOD, "EMPTY, no run enters a final location", "rows");
}

/* Writes a file that is not there yet ("x": C11 has it, and so have the C libraries of Linux), whole, or leaves none. */
static int write_file(const char *name, const uint8_t *bytes, size_t length) {
    FILE *stream = fopen(name, "wbx");
    if (!stream) {
        fprintf(stderr, "check: cannot make %s: %s\n", name, strerror(errno));
        return 0;
    }
    int is_whole = fwrite(bytes, 1, length, stream) == length;
    if (fclose(stream) == 0 && is_whole)
        return 1;
    fprintf(stderr, "check: cannot write %s: %s\n", name, strerror(errno));
    remove(name);
    return 0;
}

/* Makes the list of the table. Buffer and waiting list are lent, here for as many rows as there can be. */
static int make(struct file table, const char *name) {
    static uint8_t list[TZELMARUF_LONGEST_LIST];
    static struct tzelmaruf_row waiting[TZELMARUF_WAITING_ROWS];
    uint32_t answer = tzelmaruf_make_list(table.bytes, table.length, list, sizeof list, waiting, TZELMARUF_WAITING_ROWS);
    if (TZELMARUF_NUMBER(answer) == TZELMARUF_ACCEPTED && !write_file(name, list, tzelmaruf_list_length(table.bytes, answer)))
        return EXIT_TROUBLE;
    return report(answer, EXIT_GOOD, "MADE, no run enters a final location", "rows");
}

static const char usage[] =
    "usage: check TABLE [PAPER]         (tzelmaruf-check where it is installed)\n"
    "       check --make TABLE PAPER\n"
    "\n"
    "Admits the table, or checks the paper (a run list or a region list) against it, and says in one line what was found. With --make the\n"
    "paper is made: a region list of the table, in a file that is not there yet.\n"
    "\n"
    "Exit status:\n"
    "  0   EMPTY or MADE: no run of the table enters a final location; for a table alone: ADMITTED\n"
    "  1   REFUSED: the paper shows nothing, or the table is none, or its list would have too many rows\n"
    "  2   no answer: wrong usage, a file could not be read or written, or the answer not be written\n"
    "  3   REACHED, or REFUSED 21: a run enters a final location, the library is bad\n"
    "\n"
    "Options: -h, --help   this text;   --version   the release\n";

/* Whether all that was printed has been written. */
static int is_written(void) {
    if (fflush(stdout) == 0 && !ferror(stdout))
        return 1;
    fprintf(stderr, "check: cannot write the answer: %s\n", strerror(errno));
    return 0;
}

static int say(const char *text) {
    fputs(text, stdout);
    return is_written() ? EXIT_GOOD : EXIT_TROUBLE;
}

int main(int argc, char **argv) {
    struct file table = {0}, paper = {0};
    int status = EXIT_TROUBLE;
    if (argc == 2 && (!strcmp(argv[1], "-h") || !strcmp(argv[1], "--help")))
        return say(usage);
    if (argc == 2 && !strcmp(argv[1], "--version"))
        return say("tzelmaruf " TZELMARUF_VERSION "\n");
    int is_making = argc == 4 && !strcmp(argv[1], "--make");
    if (argc != 2 && argc != 3 && !is_making) {
        fputs(usage, stderr);
        return EXIT_TROUBLE;
    }
    if (!read_file(argv[is_making ? 2 : 1], &table))
        return EXIT_TROUBLE;
    if (is_making)
        status = make(table, argv[3]);
    else if (argc == 2)
        status = report(tzelmaruf_admit(table.bytes, table.length), EXIT_GOOD, "ADMITTED", "records");
    else if (read_file(argv[2], &paper))
        status = check(table, paper);
    if (!is_written())
        status = EXIT_TROUBLE;
    free(paper.block);
    free(table.block);
    return status;
}
