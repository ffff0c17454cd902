/* Runs the trace on standard input by a seed, checks the report, and writes it to standard output.
 *
 * usage: run_and_check SEED < NAME.trace
 * Ends with the status of the run, or with that of the check if the run is done. docs/embedding.md
 * says how to compile it. */
#include "semper.h"

#include <stdio.h>
#include <stdlib.h>

/* A text, and how many bytes there are of it and room for. */
struct text {
    uint8_t *bytes;
    size_t length, room;
};

/* Makes room for so many bytes, at least one: a buffer has an address even if it is empty. */
static void make_room(struct text *text, size_t room) {
    uint8_t *bytes = calloc(room ? room : 1, 1);
    if (!bytes) {
        fputs("run_and_check: out of memory\n", stderr);
        exit(SEMPER_MEMORY);
    }
    for (size_t i = 0; i < text->length; i++)
        bytes[i] = text->bytes[i];
    free(text->bytes);
    text->bytes = bytes;
    text->room = room;
}

/* Reads standard input to its end. */
static struct text read_all(void) {
    struct text text = {0};
    make_room(&text, 4096);
    size_t count;
    while ((count = fread(text.bytes + text.length, 1, text.room - text.length, stdin)) > 0) {
        text.length += count;
        if (text.length == text.room)
            make_room(&text, 2 * text.room);
    }
    return text;
}

/* Runs the trace into a buffer that is large enough: the first call may only say how large. */
static uint32_t run(struct text trace, uint64_t seed, struct text *report) {
    size_t written;
    uint32_t status;
    make_room(report, 512);
    while ((status = semper_run(trace.bytes, trace.length, seed, report->bytes, report->room,
                                &written)) == SEMPER_TOO_SMALL)
        make_room(report, written);
    report->length = written;
    return status;
}

int main(int count, char **words) {
    struct text trace = read_all(), report = {0};
    uint32_t status = run(trace, count > 1 ? strtoull(words[1], NULL, 10) : 0, &report);
    fwrite(report.bytes, 1, report.length, stdout);
    if (status == SEMPER_DONE) {
        uint8_t verdict[1024] = {0};
        size_t written;
        status = semper_check(report.bytes, report.length, verdict, sizeof verdict, &written);
        fprintf(stderr, "the check says: %.*s", (int)written, (const char *)verdict);
    }
    free(trace.bytes);
    free(report.bytes);
    return (int)status;
}
