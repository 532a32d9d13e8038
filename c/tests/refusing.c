/* Grants as many requests for memory as the variable GRANTED says, and refuses each further one: for a program that is
 * linked with -Wl,--wrap=malloc,--wrap=realloc. */
#include <stdlib.h>

void *__real_malloc(size_t);
void *__real_realloc(void *, size_t);

static int is_granted(void) {
    static long requests;
    return requests++ < atol(getenv("GRANTED"));
}

void *__wrap_malloc(size_t size) { return is_granted() ? __real_malloc(size) : NULL; }

void *__wrap_realloc(void *block, size_t size) { return is_granted() ? __real_realloc(block, size) : NULL; }
