/* fing as a library: one call, which does over memory what the program `fing` does.
 *
 *     size_t written;
 *     uint8_t page[65536];
 *     uint8_t status = fing_reply((const uint8_t *)"check", 5, source, length, page, sizeof page, &written);
 *
 * tools/make-library builds libfing_c.a and libfing.so from the proved crate crates/fing_c: link with either. The contract
 * of `fing_reply` in crates/fing_c/src/lib.rt says what is proved of the call. examples/c/fing.c is a whole program. */
#ifndef FING_H
#define FING_H

#include <stddef.h>
#include <stdint.h>

#ifdef __cplusplus
extern "C" {
#endif

/* What the call returns: the exit status of the program `fing`. There is no 5, which is the program's status for a failed
 * read. */
enum fing_status {
    FING_OK = 0,             /* the source is accepted, and the reply is the answer */
    FING_REFUSED = 1,        /* the source is refused, and the reply is the line of the refusal */
    FING_WORDS = 2,          /* the words are no command line; nothing was written */
    FING_FAULTED = 3,        /* `run` or `gen`: the program met an arithmetic fault, which the reply names */
    FING_SPENT = 4,          /* `run` or `gen`: the program spent its budget of steps */
    FING_PAGE_TOO_SMALL = 6, /* the reply is longer than the page, which its prefix fills */
    FING_OUT_OF_MEMORY = 7,  /* there was no memory, or a tree met a limit of fing; nothing was written */
    FING_TOO_LONG = 8        /* the source has more than 1,048,576 bytes; nothing was written */
};

/* Answers a command for a source.
 *
 * words   UTF-8, with one word of the command line on each line: "check", "emit", "emit\n--simplify", "link", "verify",
 *         "run", "run\n--budget\n100" or "gen\n10". What follows the last line feed is a word unless it is empty; a carriage return before a line
 *         feed belongs to the line's end.
 * source  What the program `fing` reads from standard input: any bytes. No zero byte ends them. `gen` does not look at
 *         them.
 * page    The room for the reply. No zero byte is added to the reply.
 * written Receives the number of bytes that were written to the beginning of the page. The rest of the page keeps what it
 *         had.
 *
 * After FING_PAGE_TOO_SMALL call again with a larger page: the reply is the same. A page of 1 MiB serves nearly always.
 *
 * What the caller sees to:
 * - No pointer is null, also where the length is 0. `page` and `written` overlap neither each other nor the rest.
 * - The calling thread has 8 MiB of stack, as the main thread has by default on Linux. With less, a source that nests
 *   deeply can overflow the stack.
 * - The call is made neither by a signal handler nor in the forked child of a process with several threads.
 * - `malloc`, `realloc` and `free` are one allocator that aligns each block as C asks.
 *
 * The call keeps nothing once it returns, and it uses nothing but its arguments, memory from `malloc` and the stack: no
 * file, no clock, no locale. Any number of threads may call it at once. */
uint8_t fing_reply(const uint8_t *words, size_t words_length,
                   const uint8_t *source, size_t source_length,
                   uint8_t *page, size_t page_length,
                   size_t *written);

#ifdef __cplusplus
}
#endif

#endif
