/* places: solves a sketch that the program itself writes, and reads where its points lie. */
#include <stdio.h>

#include "sketch.h"

static const char triangle[] =
    "sketch 1\n"
    "point A 0 0\n"
    "point B 40 0\n"
    "point C 40 30\n"
    "distance A B 40\n"
    "distance B C 30\n"
    "distance A C 50\n"
    "end\n";

int main(void) {
    char *text;
    size_t size;
    int32_t status = sketch_run("solve", triangle, sizeof triangle - 1, &text, &size);
    if (status != SKETCH_DONE) {
        int lacks_memory = status == SKETCH_NO_MEMORY || status == SKETCH_WRITE_FAULT;
        fprintf(stderr, "status %d: %s", (int)status, lacks_memory ? "out of memory\n" : text);
        free(text);
        return status;
    }
    char *rest = text;
    for (char *line = rest; *line != 0; line = rest) {
        char name[17];
        long long x, y;
        rest = strchr(line, '\n') + 1;
        if (sscanf(line, "point %16s %lld %lld", name, &x, &y) == 3)
            printf("%s lies at %.6f, %.6f mm\n", name, (double)x / 1e6, (double)y / 1e6);
    }
    free(text);
    return 0;
}
