/* The heap of the library, over that of the C library. Another one may stand in its place. */
#include <stdbool.h>
#include <stddef.h>
#include <stdlib.h>

struct tried { bool ok; unsigned char *block; };
static unsigned char nothing;

static struct tried answer(void *block) {
    return (struct tried){block != NULL, block ? block : &nothing};
}

/* The alignment divides 16, to which malloc aligns. A size of 0 asks for some bytes. */
struct tried rattle_alloc(size_t size, size_t alignment) {
    return answer(malloc(size ? size : alignment));
}

struct tried rattle_realloc(unsigned char *block, size_t kept, size_t size, size_t alignment) {
    (void)kept;
    return answer(realloc(block, size ? size : alignment));
}

void rattle_dealloc(unsigned char *block) { free(block); }
