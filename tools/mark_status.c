/* mark-status BOOK RUN [LIMIT]: marks a run over a book by the static library, and says by its exit status whether all steps were accepted. Its
 * lines are the first of those that the program mark prints. */
#define _POSIX_C_SOURCE 200809L
#include "yirtabun.h"
#include <pthread.h>
#include <stdio.h>
#include <string.h>

enum { ALL_ACCEPTED = 0, REFUSED = 1, BAD = 2 };

static const char help[] =
    "usage: mark-status BOOK RUN [LIMIT]\n"
    "Marks a run over a book. LIMIT is the most visits, from 1 to 1000000, which it is where none is given.\n"
    "Exit status:\n"
    "  0  all steps are accepted, and there is at least one\n"
    "  1  a step is refused (verdict 10 to 42), or there are no steps\n"
    "  2  nothing was judged: a bad command line, a file that cannot be read, an answer that cannot be written,\n"
    "     or a book or a run that is not well formed (verdict 2 to 7)\n"
    "The program mark says in words what is refused and why.\n";

/* One byte more than a book and a run may have, so that a longer file shows. */
static uint8_t book[65537], run[16385], work[YIRTABUN_WORK], answer[YIRTABUN_CHECK_ANSWER];
static size_t book_len, run_len;
static uint32_t limit = YIRTABUN_MOST_VISITS;

/* Reads a file, and says so where that fails. */
static int load(const char *path, uint8_t *bytes, size_t most, size_t *len) {
    FILE *f = fopen(path, "rb");
    if (!f) {
        perror(path);
        return 0;
    }
    *len = fread(bytes, 1, most, f);
    int bad = ferror(f);
    if (bad)
        perror(path);
    fclose(f);
    return !bad;
}

/* The limit that a word of digits gives; 0 where it gives none. */
static uint32_t limit_of(const char *word) {
    uint64_t visits = 0;
    if (!*word)
        return 0;
    for (; *word; word++) {
        if (*word < '0' || *word > '9' || visits > YIRTABUN_MOST_VISITS)
            return 0;
        visits = 10 * visits + (uint64_t)(*word - '0');
    }
    return yirtabun_limit(visits);
}

static uint32_t number(int k) {
    const uint8_t *p = answer + 4 * k;
    return p[0] | (uint32_t)p[1] << 8 | (uint32_t)p[2] << 16 | (uint32_t)p[3] << 24;
}

/* How many of the first steps are assumed. */
static uint32_t assumed(uint32_t steps) {
    uint32_t found = 0;
    for (size_t k = 0; k + 4 <= run_len && steps; k += 4)
        if (run[k] == 'S') {
            found += run[k + 1] == 0;
            steps--;
        }
    return found;
}

static void *marked(void *none) {
    yirtabun_check(book, book_len, run, run_len, limit, work, sizeof work, answer, sizeof answer);
    return none;
}

/* Marks on a thread that has enough stack. */
static int mark(void) {
    pthread_attr_t how;
    pthread_t thread;
    if (pthread_attr_init(&how) || pthread_attr_setstacksize(&how, YIRTABUN_STACK) || pthread_create(&thread, &how, marked, NULL))
        return 0;
    return !pthread_join(thread, NULL);
}

static int status(uint32_t verdict, uint32_t steps) {
    if (verdict)
        return verdict < 10 ? BAD : REFUSED;
    return steps ? ALL_ACCEPTED : REFUSED;
}

int main(int argc, char **argv) {
    if (argc == 2 && (!strcmp(argv[1], "--help") || !strcmp(argv[1], "-h"))) {
        fputs(help, stdout);
        return fflush(stdout) ? BAD : 0;
    }
    if (argc < 3 || argc > 4 || argv[1][0] == '-') {
        fputs(help, stderr);
        return BAD;
    }
    if (argc == 4 && !(limit = limit_of(argv[3]))) {
        fprintf(stderr, "mark-status: LIMIT is not a number from 1 to %d: %s\n", YIRTABUN_MOST_VISITS, argv[3]);
        return BAD;
    }
    if (!load(argv[1], book, sizeof book, &book_len) || !load(argv[2], run, sizeof run, &run_len))
        return BAD;
    if (!mark()) {
        fputs("mark-status: there is no thread to be had\n", stderr);
        return BAD;
    }
    uint32_t verdict = number(0), steps = number(1);
    printf("verdict %u\naccepted steps %u\nvisits %u\nassumed steps %u\n", verdict, steps, number(2), assumed(steps));
    if (!verdict && !steps)
        puts("no steps: the run is empty, and nothing was marked");
    if (fflush(stdout) || ferror(stdout)) {
        perror("mark-status: standard output");
        return BAD;
    }
    return status(verdict, steps);
}
