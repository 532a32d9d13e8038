/* threads THREADS ROUNDS FILE..: each of several threads does every command on every file, in an order of its own, and
 * compares with what one thread alone answered before. */
#include <pthread.h>
#include <stdio.h>

#include "sketch.h"

static const char *const commands[] = {"check", "plan", "solve", "solve place=points bits=27", "solve frame=drawn",
                                       "dxf", "parts", "excess", "why", "complete", "offers", "migrate", "spare", "flips",
                                       "derive", "measure", "session", "live", "grow n=20", "nonsense"};
enum { COMMANDS = sizeof commands / sizeof *commands, FILES = 64, MOST = 65536, THREADS = 64 };

static struct {
    unsigned char input[MOST];
    size_t length;
    char *texts[COMMANDS];
    int32_t statuses[COMMANDS];
} files[FILES];
static int file_count, rounds;

static int is_as_before(int file, int command) {
    char *text;
    size_t size;
    int32_t status = sketch_run(commands[command], files[file].input, files[file].length, &text, &size);
    int same = text != NULL && status == files[file].statuses[command] && strcmp(text, files[file].texts[command]) == 0;
    free(text);
    return same;
}

static void *work(void *given) {
    long at = *(long *)given * 7, wrong = 0;
    for (long call = 0; call < (long)rounds * file_count * COMMANDS; call++, at += 13)
        wrong += !is_as_before((int)(at % file_count), (int)(at / file_count % COMMANDS));
    *(long *)given = wrong;
    return NULL;
}

static int read_file(const char *name) {
    FILE *file = fopen(name, "rb");
    if (file == NULL) return 0;
    files[file_count].length = fread(files[file_count].input, 1, MOST, file);
    fclose(file);
    for (int command = 0; command < COMMANDS; command++) {
        size_t size;
        files[file_count].statuses[command] = sketch_run(commands[command], files[file_count].input,
                                                         files[file_count].length, &files[file_count].texts[command], &size);
    }
    file_count++;
    return 1;
}

int main(int count, char **words) {
    int threads = count > 3 ? atoi(words[1]) : 0;
    if (threads < 1 || threads > THREADS) return 2;
    rounds = atoi(words[2]);
    for (int at = 3; at < count && file_count < FILES; at++)
        if (!read_file(words[at])) return 3;

    pthread_t ids[THREADS];
    long counts[THREADS], wrong = 0;
    for (long thread = 0; thread < threads; thread++) {
        counts[thread] = thread;
        if (pthread_create(&ids[thread], NULL, work, &counts[thread]) != 0) return 5;
    }
    for (int thread = 0; thread < threads; thread++) {
        pthread_join(ids[thread], NULL);
        wrong += counts[thread];
    }
    for (int file = 0; file < file_count; file++)
        for (int command = 0; command < COMMANDS; command++) free(files[file].texts[command]);
    printf("%d threads, %d calls each, %ld wrong\n", threads, rounds * file_count * COMMANDS, wrong);
    return wrong != 0;
}
