/* faults FILE COMMAND: lets the Nth request for memory of a call fail, for N from 1 on until none is reached.
 * Link with -Wl,--wrap=malloc,--wrap=realloc,--wrap=free. After each call all memory is given back, the text is a front
 * of the right one, and the status is the right one, or says that memory ran out: then no text stands, or of session
 * and live whole replies, or where it ran out while the text was gathered some front. */
#include <stdio.h>

#include "sketch.h"

void *__real_malloc(size_t);
void *__real_realloc(void *, size_t);
void __real_free(void *);

static long requests_left = -1, live;

static int fails(void) { return requests_left > 0 && --requests_left == 0; }

void *__wrap_malloc(size_t size) {
    if (fails()) return NULL;
    live++;
    return __real_malloc(size);
}

void *__wrap_realloc(void *block, size_t size) { return fails() ? NULL : __real_realloc(block, size); }

void __wrap_free(void *block) {
    live -= block != NULL;
    __real_free(block);
}

enum { MOST = 1 << 20 };
static uint8_t input[MOST], text[MOST], output[MOST];
static size_t length, whole;
static int32_t right;
static int is_session;

static int32_t call(const char *command, uint8_t *to, size_t *size) {
    return sketch_answer((const uint8_t *)command, strlen(command), input, length, to, MOST, size);
}

static int is_right(int32_t status, size_t size, long before) {
    if (live != before || size > whole || memcmp(output, text, size) != 0) return 0;
    if (status == right && size == whole) return 1;
    if (status == SKETCH_NO_MEMORY) return size == 0 || (is_session && output[size - 1] == '\n');
    return status == SKETCH_WRITE_FAULT;
}

int main(int count, char **words) {
    if (count != 3) return 2;
    FILE *file = fopen(words[1], "rb");
    if (file == NULL) return 3;
    length = fread(input, 1, MOST, file);
    fclose(file);
    is_session = strncmp(words[2], "session", 7) == 0 || strncmp(words[2], "live", 4) == 0;
    right = call(words[2], text, &whole);

    long wrong = 0, requests = 0;
    for (int reached = 1; reached; requests += reached) {
        long before = live;
        size_t size;
        requests_left = requests + 1;
        int32_t status = call(words[2], output, &size);
        reached = requests_left == 0;
        requests_left = -1;
        wrong += !is_right(status, size, before);
    }
    printf("%s: %ld requests for memory refused in turn, %ld wrong\n", words[2], requests, wrong);
    return wrong != 0;
}
