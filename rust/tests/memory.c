// The memory that a program gives the library.

#include "guppy.h"
#include <stdlib.h>

static char nothing;

static struct rattle_tried tried(void *block) {
    return (struct rattle_tried){block != NULL, block != NULL ? block : &nothing};
}

struct rattle_tried rattle_alloc(size_t bytes, size_t alignment) {
    return tried(malloc(bytes == 0 ? alignment : bytes));
}

struct rattle_tried rattle_realloc(void *block, size_t kept, size_t bytes, size_t alignment) {
    (void)kept;
    return tried(realloc(block, bytes == 0 ? alignment : bytes));
}

void rattle_dealloc(void *block) {
    free(block);
}
