/* Tries what include/semper.h says of each function, for checks/embedding.
 *
 * usage: embedding TRACE REPORT CONTENTS
 *
 * The memory of the library is that of this program, which can refuse one request, and counts the
 * blocks that are not freed. Prints how many calls it made; ends with 1 at the first that does
 * something else, and says which on standard error. */
#include "semper.h"

#include <stdbool.h>
#include <stdio.h>
#include <stdlib.h>
#include <string.h>

#define MARK 0xA5
#define BEHIND 64

struct tried {
    bool ok;
    unsigned char *at;
};

static unsigned char nothing;
static long blocks, left = -1, calls;

/* Whether this request is the one that is refused. */
static bool refused(void) {
    return left > 0 && --left == 0;
}

struct tried rattle_alloc(size_t size, size_t align) {
    struct tried got = {false, &nothing};
    unsigned char *at = refused() ? NULL : malloc(size ? size : align);
    if (at) {
        got.ok = true;
        got.at = at;
        blocks++;
    }
    return got;
}

struct tried rattle_realloc(unsigned char *at, size_t kept, size_t size, size_t align) {
    struct tried got = {false, &nothing};
    unsigned char *moved = refused() ? NULL : realloc(at, size ? size : align);
    (void)kept;
    if (moved) {
        got.ok = true;
        got.at = moved;
    }
    return got;
}

void rattle_dealloc(unsigned char *at) {
    blocks--;
    free(at);
}

/* Ends with 1, and says why. */
static void wrong(const char *name, const char *why, size_t number) {
    fprintf(stderr, "%s: %s, %zu\n", name, why, number);
    exit(1);
}

struct text {
    uint8_t *bytes;
    size_t length;
};

/* A function and what it is given. */
struct asked {
    const char *name;
    struct text input;
};

/* What a file holds. */
static struct text contents_of(const char *path) {
    struct text text = {malloc(1 << 20), 0};
    FILE *file = fopen(path, "rb");
    if (!text.bytes || !file)
        wrong(path, "it cannot be read", 0);
    text.length = fread(text.bytes, 1, 1 << 20, file);
    fclose(file);
    return text;
}

/* Makes the call, into a buffer of that capacity. */
static uint32_t call(struct asked it, uint8_t *out, size_t capacity, size_t *written) {
    uint32_t status;
    calls++;
    if (!strcmp(it.name, "run"))
        status = semper_run(it.input.bytes, it.input.length, 0, out, capacity, written);
    else if (!strcmp(it.name, "check"))
        status = semper_check(it.input.bytes, it.input.length, out, capacity, written);
    else
        status = semper_contents(it.input.bytes, it.input.length, out, capacity, written);
    if (blocks)
        wrong(it.name, "memory is kept", (size_t)blocks);
    return status;
}

/* Makes the call into a marked buffer, and compares the text and the status; the status is 10 where
 * the buffer is too small, and may be 5 where a request is refused. Gives whether it is 5. */
static bool holds(struct asked it, struct text wanted, uint32_t status, size_t capacity) {
    bool may_lack = left > 0;
    uint8_t *out = malloc(capacity + BEHIND);
    size_t written = 77, length = wanted.length;
    memset(out, MARK, capacity + BEHIND);
    uint32_t got = call(it, out, capacity, &written);
    bool lacks = may_lack && got == SEMPER_MEMORY;
    if (lacks)
        length = 0;
    if (written != length)
        wrong(it.name, "another length", written);
    if (!lacks && got != (length > capacity ? SEMPER_TOO_SMALL : status))
        wrong(it.name, "another status", got);
    size_t text = got == SEMPER_TOO_SMALL ? 0 : length;
    if (memcmp(out, wanted.bytes, text))
        wrong(it.name, "another text, at the capacity", capacity);
    for (size_t i = text; i < capacity + BEHIND; i++)
        if (out[i] != MARK)
            wrong(it.name, "a byte behind the text has changed, at the capacity", capacity);
    free(out);
    return lacks;
}

/* Tries capacities around the length, then refuses each request for memory in turn. */
static void try_call(struct asked it, struct text wanted, uint32_t status) {
    size_t length = wanted.length;
    size_t capacities[] = {0, 1, length / 2, length - 1, length, length + 1, length + 999};
    for (size_t i = 0; i < sizeof capacities / sizeof *capacities; i++)
        holds(it, wanted, status, capacities[i]);
    size_t lacked = 0;
    for (long turn = 1;; turn++) {
        left = turn;
        lacked += holds(it, wanted, status, length);
        if (left > 0)
            break;
    }
    left = -1;
    if (!lacked)
        wrong(it.name, "no call has asked for memory", 0);
}

/* A text that is written here. */
static struct text literal(const char *bytes) {
    struct text text = {(uint8_t *)bytes, strlen(bytes)};
    return text;
}

int main(int count, char **words) {
    if (count != 4 || semper_version() != 1)
        wrong("version", "another one", semper_version());
    struct text trace = contents_of(words[1]), report = contents_of(words[2]);
    struct text told = contents_of(words[3]), made = {malloc(1 << 20), 0};
    struct asked run = {"run", trace}, check = {"check", report}, contents = {"contents", report};
    if (call(run, made.bytes, 1 << 20, &made.length) != SEMPER_DONE)
        wrong("run", "the trace is not run", 0);
    try_call(run, made, SEMPER_DONE);
    try_call(check, literal("ok\n"), SEMPER_DONE);
    try_call(contents, told, SEMPER_DONE);
    run.input = literal("");
    try_call(run, literal("trace refused: line 1: Missing\n"), SEMPER_TRACE_REFUSED);
    report.bytes[report.length - 1] = ' ';
    try_call(check, literal("report refused: line 45: NotCanonical\n"), SEMPER_REPORT_REFUSED);
    try_call(contents, literal("report refused: line 45: NotCanonical\n"), SEMPER_REPORT_REFUSED);
    printf("as_promised: %ld calls\n", calls);
    return 0;
}
