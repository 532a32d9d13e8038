/* judge FILE [COMMAND]: does a command on a file, `check` where none is given, and ends with its status. */
#include <stdio.h>

#include "sketch.h"

/* One byte more than an input may have, so that a longer file is refused as too long. */
enum { MOST = 1048577 };

int main(int count, char **words) {
    static unsigned char input[MOST];
    if (count < 2) {
        fprintf(stderr, "usage: %s FILE [COMMAND]\n", words[0]);
        return SKETCH_USAGE;
    }
    FILE *file = fopen(words[1], "rb");
    if (file == NULL) {
        perror(words[1]);
        return SKETCH_READ_FAULT;
    }
    size_t length = fread(input, 1, MOST, file);
    if (ferror(file)) { /* a folder can be opened, and not read */
        perror(words[1]);
        fclose(file);
        return SKETCH_READ_FAULT;
    }
    fclose(file);

    char *text;
    size_t size;
    int32_t status = sketch_run(count > 2 ? words[2] : "check", input, length, &text, &size);
    if (text != NULL) fwrite(text, 1, size, stdout);
    free(text);
    return fflush(stdout) == 0 && !ferror(stdout) ? status : SKETCH_WRITE_FAULT;
}
