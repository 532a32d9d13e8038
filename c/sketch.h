/* SPDX-License-Identifier: MIT OR Apache-2.0 */
/* The sketch solver as a library: libsketch.a, or libsketch.so.
 *
 * A call takes a command, such as "check" or "solve place=points", and a text: what the program `sketch` takes as arguments
 * and on its standard input. It gives the status and the text of the program. docs/LANGUAGE.md describes the texts,
 * docs/EMBEDDING.md says how to link.
 *
 * The header needs C99 or later, or C++. The library needs nothing but the C library's malloc, realloc, free and memory
 * functions. It has no state: nothing is kept from call to call, so live too takes its whole input in one call, and any
 * number of threads may call at once. It never aborts, prints, or opens a file. */
#ifndef SKETCH_H
#define SKETCH_H

#include <stddef.h>
#include <stdint.h>
#include <stdlib.h>
#include <string.h>

/* The version of the release that this header belongs to, and the number in the SONAME of libsketch.so. That number goes
 * up with each release that changes a function or a status of this header. A change of what a report says changes the
 * version alone. */
#define SKETCH_VERSION "0.2.0"
#define SKETCH_INTERFACE 1

#ifdef __cplusplus
extern "C" {
#endif

/* What a call answers: the statuses of the program. */
enum sketch_status {
    SKETCH_DONE = 0,         /* the command did its work: the text is its report */
    SKETCH_REFUSED = 1,      /* the input is rejected: the text is the refusal line; for live it follows the replies to the
                              * lines before */
    SKETCH_USAGE = 2,        /* the command or one of its keys isn't valid: the text is the usage line */
    SKETCH_READ_FAULT = 3,   /* never: reading from memory can't fail */
    SKETCH_WRITE_FAULT = 4,  /* out of memory while the text was collected: it is only the beginning of the text, and may
                              * end within a line */
    SKETCH_NO_MEMORY = 5,    /* out of memory before that: the text is empty; for session and live it is the whole replies
                              * so far */
    SKETCH_NOT_WELL = 6,     /* the sketch isn't fully constrained: the text is the report of check; for complete it follows
                              * the line that says why nothing is added */
    SKETCH_STEP_FAULT = 7,   /* a step has no positions, or a sign isn't as drawn: the text is the fault line; for measure it
                              * follows the other lines */
    SKETCH_TOLERANCE = 8,    /* a tolerance is beyond the limit: the text is the fault line; for measure it follows the other
                              * lines */
    SKETCH_NOT_VERIFIED = 9  /* something of the claim fails, or for measure an element has no position: the text is the line
                              * that names it */
};

/* Runs a command on an input.
 *
 * command       command_length bytes; the words are separated by spaces, and needn't end in a 0
 * input         input_length bytes
 * output        room for `room` bytes. The text goes here, or the prefix that fits; the bytes after it stay as they were
 * size          receives the length of the whole text. If it is greater than room, call again with that much room: this
 *               does all the work again
 *
 * All pointers belong to the caller, before and after; the library keeps none of them. None may be null, even if its
 * length or room is 0, and output and *size must overlap nothing else. No contract bounds the stack of a call: leave
 * 64 KiB for it. The most that was measured is 24 kB.
 *
 * SKETCH_WRITE_FAULT and SKETCH_NO_MEMORY both mean out of memory, and any call may answer so: treat both alike.
 *
 * It is proved that the status and the text are those of the program. The pointers are trusted. It is proved that
 * SKETCH_WRITE_FAULT comes only where the text needs more memory than was allocated for it so far. It is tested that
 * SKETCH_NO_MEMORY comes only where memory was refused. */
int32_t sketch_answer(const uint8_t *command, size_t command_length, const uint8_t *input, size_t input_length,
                      uint8_t *output, size_t room, size_t *size);

/* The same, with a text that this function allocates by malloc. It ends in a 0 that *size doesn't count. Free it with
 * free(). If the text has more than 4096 bytes, it makes the whole call twice; where that costs too much, call
 * sketch_answer with a larger buffer.
 *
 * command       ends in a 0
 * input         input_length bytes; may be null if input_length is 0
 * text, size    receive the text and its length. If there is no memory for the text, *text is null and *size is 0, with
 *               the status SKETCH_NO_MEMORY
 *
 * Written in C, and not proved. */
static inline int32_t sketch_run(const char *command, const void *input, size_t input_length, char **text,
                                 size_t *size) {
    const uint8_t *given = (const uint8_t *)(input_length != 0 ? input : "");
    size_t room = 4096;
    for (;;) {
        *size = 0;
        *text = (char *)malloc(room + 1);
        if (*text == NULL) return SKETCH_NO_MEMORY;
        int32_t status = sketch_answer((const uint8_t *)command, strlen(command), given, input_length,
                                       (uint8_t *)*text, room, size);
        if (*size <= room) {
            (*text)[*size] = 0;
            return status;
        }
        free(*text);
        room = *size;
    }
}

#ifdef __cplusplus
}
#endif

#endif
