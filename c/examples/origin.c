/* origin: solves a plate, and moves the result so that its corner A lies at the origin and its edge Bottom runs along x. */
#include <stdio.h>

#include "sketch.h"

static const char plate[] =
    "sketch 1\n"
    "point A 0 0\n"
    "point B 98 1\n"
    "point C 97 61\n"
    "point D 1 60\n"
    "line Bottom 0 0 98 1\n"
    "line Right 98 1 97 61\n"
    "line Top 97 61 1 60\n"
    "line Left 1 60 0 0\n"
    "on B Right\n"
    "on B Bottom\n"
    "on A Bottom\n"
    "on A Left\n"
    "on C Right\n"
    "on C Top\n"
    "on D Top\n"
    "on D Left\n"
    "angle Bottom Right 1/0\n"
    "angle Right Top 1/0\n"
    "angle Top Left 1/0\n"
    "distance A B 100\n"
    "distance B C 60\n"
    "end\n";

/* Reads up to three numbers of the line that begins with these words, such as "point A"; returns how many there are. */
static int numbers_of(const char *text, const char *words, double *found) {
    size_t length = strlen(words);
    for (const char *line = text; *line != 0; line = strchr(line, '\n') + 1)
        if (strncmp(line, words, length) == 0 && line[length] == ' ')
            return sscanf(line + length, "%lf %lf %lf", &found[0], &found[1], &found[2]);
    return 0;
}

/* Prints each point in mm, as it lies with `corner` (x, y in nm) at the origin and the direction of `edge` (its normal a, b
 * in parts per 10^9) along x. The edge runs in the direction (b, -a), and its left side is where a x + b y is greater. */
static void print_moved(const char *text, const double *corner, const double *edge) {
    for (const char *line = text; *line != 0; line = strchr(line, '\n') + 1) {
        char name[17];
        double x, y;
        if (sscanf(line, "point %16s %lf %lf", name, &x, &y) != 3) continue;
        double dx = x - corner[0], dy = y - corner[1];
        double along = (edge[1] * dx - edge[0] * dy) / 1e9;
        double across = (edge[0] * dx + edge[1] * dy) / 1e9;
        printf("%s lies at %.3f, %.3f mm\n", name, along / 1e6, across / 1e6);
    }
}

/* Says why there are no coordinates. Out of memory there is no text, or only its beginning. */
static void print_failure(int32_t status, const char *text) {
    int lacks_memory = status == SKETCH_NO_MEMORY || status == SKETCH_WRITE_FAULT;
    fprintf(stderr, "status %d: %s", (int)status, lacks_memory ? "out of memory\n" : text);
}

int main(void) {
    char *text;
    size_t size;
    double corner[3], edge[3];
    int32_t status = sketch_run("solve", plate, sizeof plate - 1, &text, &size);
    if (status == SKETCH_DONE && numbers_of(text, "point A", corner) == 2 && numbers_of(text, "line Bottom", edge) == 3)
        print_moved(text, corner, edge);
    else
        print_failure(status, text);
    free(text);
    return status;
}
