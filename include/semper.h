/* semper.h: runs a trace and checks a report from a C program.
 *
 * The functions belong to the static library libsemper_c.a. docs/embedding.md says how to build and
 * link it, docs/texts.md what the texts are, and crates/semper_c/README.md what is proved.
 *
 * A text goes in, a text comes out into a buffer of the caller, and a status comes back. No
 * function opens a file, starts a thread or waits for one, and none keeps anything between two
 * calls. So several threads may call at a time, each with memory of its own.
 *
 * The proofs suppose what no compiler checks here. At every call the caller owes:
 *
 *   - `text`, `out` and `written` are not null, even where a length is 0.
 *   - `length` bytes at `text` can be read, and all of them are set. No length exceeds PTRDIFF_MAX.
 *   - `capacity` bytes at `out` are set, and they and `*written` can be read and written.
 *   - These three pieces of memory do not overlap, and nobody else writes to them during the call,
 *     or reads `out` and `*written`.
 *   - The stack has 256 KiB left. (128 KiB were enough where it was tried, and 96 KiB were not.)
 *   - It is not called from a signal handler, nor from the forked child of a process with threads.
 *
 * The program that links the library owes:
 *
 *   - malloc, realloc and free are of one allocator. malloc and realloc align a block to each power
 *     of two up to 16 that divides its size. If they give null, a call ends with SEMPER_MEMORY.
 *   - memmove, memcpy, memset and memcmp are those of the C library, and no other function has a
 *     name of the library.
 */
#ifndef SEMPER_H
#define SEMPER_H

#include <stddef.h>
#include <stdint.h>

#ifdef __cplusplus
extern "C" {
#endif

/* How a call ended. The numbers are those of the exit statuses of the program, and one more. */
enum {
    /* Done: the text is the answer. */
    SEMPER_DONE = 0,
    /* The input is no trace: the text is the line that tells the first bad line, and why. */
    SEMPER_TRACE_REFUSED = 2,
    /* Memory was refused: there is no text. */
    SEMPER_MEMORY = 5,
    /* The input is not the report of a complete schedule: the text is the line that tells why. */
    SEMPER_REPORT_REFUSED = 9,
    /* The buffer is too small for the text: it is as it was, and `*written` says what is needed. */
    SEMPER_TOO_SMALL = 10
};

/* The version of this interface: 1. It changes when a function here does something else. */
uint32_t semper_version(void);

/* Runs the trace of `length` bytes at `text` on one thread; `seed` draws which of the possible
 * steps comes next. The text is what `semper run SEED` writes.
 *
 *   SEMPER_DONE           the report of the run
 *   SEMPER_TRACE_REFUSED  "trace refused: line L: CAUSE"
 *   SEMPER_MEMORY         no text
 *   SEMPER_TOO_SMALL      one of these texts, but it is longer than `capacity`
 *
 * `*written` is the length of the text. With SEMPER_TOO_SMALL no byte of `out` has changed. With
 * any other status the text stands at the front of `out`, and the bytes behind it have not changed.
 *
 * The same trace and seed have the same text at each call, unless memory is refused. So after
 * SEMPER_TOO_SMALL call again, with a buffer of `*written` bytes. */
uint32_t semper_run(const uint8_t *text, size_t length, uint64_t seed,
                    uint8_t *out, size_t capacity, size_t *written);

/* Says whether the `length` bytes at `text` are the report of a complete schedule of its trace. The
 * text is what `semper check` writes.
 *
 *   SEMPER_DONE             "ok": they are
 *   SEMPER_REPORT_REFUSED   "report refused: ..": they are not
 *   SEMPER_MEMORY           no text
 *   SEMPER_TOO_SMALL        one of these texts, but it is longer than `capacity`
 *
 * `out` and `*written` are as after semper_run. A buffer of 1,024 bytes is large enough. */
uint32_t semper_check(const uint8_t *text, size_t length,
                      uint8_t *out, size_t capacity, size_t *written);

/* Says who wrote each address of memory last, after the schedule of the report of `length` bytes at
 * `text`. The text is what `semper contents` writes.
 *
 *   SEMPER_DONE             what memory holds
 *   SEMPER_REPORT_REFUSED   as semper_check
 *   SEMPER_MEMORY           no text
 *   SEMPER_TOO_SMALL        one of these texts, but it is longer than `capacity`
 *
 * `out` and `*written` are as after semper_run. */
uint32_t semper_contents(const uint8_t *text, size_t length,
                         uint8_t *out, size_t capacity, size_t *written);

#ifdef __cplusplus
}
#endif

#endif
