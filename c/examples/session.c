/* session: a few edits, each tried and taken back, in one call; a reply stands for each line. */
#include <stdio.h>

#include "sketch.h"

static const char edits[] =
    "point A 0 0\n"
    "point B 4 0\n"
    "point C 4 3\n"
    "distance A B 4\n"
    "distance B C 3\n"
    "check\n"
    "distance A C 5\n"
    "check\n"
    "set 3 9\n"
    "solve\n"
    "undo\n"
    "solve\n";

int main(void) {
    char *replies;
    size_t size;
    int32_t status = sketch_run("session", edits, sizeof edits - 1, &replies, &size);
    if (replies != NULL) fputs(replies, stdout);
    free(replies);
    return status;
}
