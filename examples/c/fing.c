/* Does what the program `fing` does, in C over the library: it takes the same words and the source on standard input, writes
 * the reply, and ends with the same status.
 *
 *     tools/make-library
 *     cc -I include examples/c/fing.c -L crates/fing_c/out -lfing -Wl,-rpath,"$PWD/crates/fing_c/out" -o /tmp/fing
 *     /tmp/fing check < examples/sum.fing
 */
#include "fing.h"

#include <stdio.h>
#include <stdlib.h>
#include <string.h>

/* The statuses of the program that the library has no use for. */
enum { READ_FAULT = 5, WRITE_FAULT = 6 };

/* One byte more than the longest source. */
enum { SOURCE_ROOM = 1048577 };

/* The words, one on each line; no bytes where there is no memory. */
static uint8_t *join_lines(char **words, size_t *length) {
    size_t room = 1;
    for (char **word = words; *word; word++) room += strlen(*word) + 1;
    char *lines = malloc(room);
    if (!lines) return NULL;
    char *end = lines;
    for (char **word = words; *word; word++) {
        size_t count = strlen(*word);
        memcpy(end, *word, count);
        end[count] = '\n';
        end += count + 1;
    }
    *length = (size_t)(end - lines);
    return (uint8_t *)lines;
}

/* The status, after the reply was written to standard output. */
static int write_reply(int status, const uint8_t *page, size_t written) {
    if (fwrite(page, 1, written, stdout) != written || fflush(stdout) != 0) return WRITE_FAULT;
    return status;
}

/* Asks with larger and larger pages until the reply fits. */
static int answer(const uint8_t *lines, size_t lines_length, const uint8_t *source, size_t source_length) {
    for (size_t room = 1 << 20;; room *= 8) {
        size_t written = 0;
        uint8_t *page = malloc(room);
        if (!page) return FING_OUT_OF_MEMORY;
        int status = fing_reply(lines, lines_length, source, source_length, page, room, &written);
        int too_small = status == FING_PAGE_TOO_SMALL;
        if (!too_small) status = write_reply(status, page, written);
        free(page);
        if (!too_small) return status;
    }
}

int main(int count, char **words) {
    static uint8_t source[SOURCE_ROOM];
    size_t lines_length = 0, source_length = 0;
    /* `gen` leaves standard input as it was. */
    if (count < 2 || strcmp(words[1], "gen") != 0) source_length = fread(source, 1, sizeof source, stdin);
    if (ferror(stdin)) return READ_FAULT;
    uint8_t *lines = join_lines(words + (count > 0), &lines_length);
    if (!lines) return FING_OUT_OF_MEMORY;
    int status = answer(lines, lines_length, source, source_length);
    free(lines);
    return status;
}
