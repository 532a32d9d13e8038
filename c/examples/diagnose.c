/* diagnose: reads what is more than coordinates: what is redundant or conflicts, what is missing, and why nothing is placed. */
#include <stdio.h>

#include "sketch.h"

#define CORNERS "sketch 1\npoint A 0 0\npoint B 40 0\npoint C 40 30\n"

static const char too_many[] =
    CORNERS "distance A B 40\ndistance B C 30\ndistance A C 50\ndistance A B 41\ndistance B C 30\nend\n";
static const char too_few[] = CORNERS "distance A B 40\ndistance B C 30\nend\n";
static const char impossible[] = CORNERS "distance A B 5\ndistance A C 1\ndistance B C 1\nend\n";

/* The text that a command answers, and its status; the text is empty if there is no memory. */
static char *answer(const char *command, const char *sketch, int32_t *status) {
    char *text;
    size_t size;
    *status = sketch_run(command, sketch, strlen(sketch), &text, &size);
    return text != NULL ? text : (char *)calloc(1, 1);
}

/* The end of the next `count` words of a line. */
static const char *after_words(const char *line, int count) {
    line += strcspn(line, " ");
    while (--count > 0 && *line == ' ') line += 1 + strcspn(line + 1, " ");
    return line;
}

/* The end of the constraint with which a line begins. Count its words, and search for none of those that follow: an
 * element may be called "repeat", or "off". */
static const char *after_constraint(const char *line) {
    if (strncmp(line, "distance ", 9) == 0 || strncmp(line, "angle ", 6) == 0) return after_words(line, 4);
    if (strncmp(line, "block ", 6) != 0) return after_words(line, 3);
    const char *end = after_words(line, 1);
    double x, y;
    while (sscanf(end, " %*s %lf %lf", &x, &y) == 2) end = after_words(end + 1, 3);
    return end;
}

/* Each line of `excess` that names a constraint: "c4 : distance A B 41 conflict off -1000000 nm". */
static void print_excess(char *text) {
    for (char *line = strtok(text, "\n"); line != NULL; line = strtok(NULL, "\n")) {
        int number, at = 0, off = 0;
        if (sscanf(line, "c%d : %n", &number, &at) != 1 || at == 0) continue;
        const char *constraint = line + at, *rest = after_constraint(constraint);
        char kind[9];
        if (sscanf(rest, " %8s off %n", kind, &off) != 1 || off == 0) /* a line after the constraints says why */
            printf("one too many: %s\n", constraint);
        else
            printf("%s: %.*s, off by %s\n", strcmp(kind, "repeat") == 0 ? "redundant" : "conflicting",
                   (int)(rest - constraint), constraint, rest + off);
    }
}

/* The constraints of a sketch are its lines that are no element, no header and no `end`. */
static int is_constraint(const char *line) {
    static const char *const others[] = {"sketch ", "point ", "line ", "circle ", "end"};
    for (size_t i = 0; i < sizeof others / sizeof *others; i++)
        if (strncmp(line, others[i], strlen(others[i])) == 0) return 0;
    return 1;
}

/* `complete` writes the given constraints first, and then those that were missing. */
static void print_added(char *text, int given) {
    int count = 0;
    for (char *line = strtok(text, "\n"); line != NULL; line = strtok(NULL, "\n"))
        if (is_constraint(line) && ++count > given) printf("missing: %s\n", line);
}

/* The fault line of `solve`: "fault s1 build height C gap LO HI bits B". LO and HI enclose the number under a root, or
 * a divisor, and may be too long for 64 bits. */
static void print_fault(const char *text) {
    char step[16], stage[16], quantity[16], element[17], cause[16];
    double low, high;
    int bits;
    if (sscanf(text, "fault %15s %15s %15s %16s %15s %lf %lf bits %d", step, stage, quantity, element, cause, &low, &high,
               &bits) != 8) {
        printf("%s", text); /* another form of fault */
        return;
    }
    double unit = 1.0 / (double)(1LL << bits);
    printf("%s of %s in step %s: %s, between %g and %g\n", quantity, element, step, cause, low * unit, high * unit);
}

int main(void) {
    int32_t status;
    char *text = answer("excess", too_many, &status);
    if (status == SKETCH_DONE) print_excess(text);
    free(text);

    text = answer("complete", too_few, &status);
    if (status == SKETCH_DONE) print_added(text, 2);
    free(text);

    text = answer("solve", impossible, &status);
    if (status == SKETCH_STEP_FAULT) print_fault(text);
    free(text);
    return status == SKETCH_STEP_FAULT ? 0 : 1;
}
