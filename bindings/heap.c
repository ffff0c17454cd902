/* The memory of the library: three functions that it calls, over malloc, realloc and free. The
 * toolchain's own archive of these, liblibc_c.a, can be linked in the place of this file. */
#include <stdbool.h>
#include <stddef.h>
#include <stdlib.h>

/* Whether there is a block, and where. Without one the address is some other, and not null. */
struct tried {
    bool ok;
    unsigned char *at;
};

static unsigned char nothing;

static struct tried tried(void *at) {
    struct tried got = {at != NULL, at ? at : &nothing};
    return got;
}

/* A new block of `size` bytes, at least one. malloc aligns it to `align`, which is at most 16. */
struct tried rattle_alloc(size_t size, size_t align) {
    return tried(malloc(size ? size : align));
}

/* The block at `at` with `size` bytes, of which the first `kept` are as they were. It may move. If
 * there is no memory, it is as it was. */
struct tried rattle_realloc(unsigned char *at, size_t kept, size_t size, size_t align) {
    (void)kept;
    return tried(realloc(at, size ? size : align));
}

/* Frees the block. */
void rattle_dealloc(unsigned char *at) {
    free(at);
}
