/* stack BOOK RUN: how many bytes of stack yirtabun_check and yirtabun_elaborate take over a book and a run. Each is called on a thread whose
 * stack is full of one byte, and what has another byte afterwards has been used; once with one byte, once with another. Prints the verdict,
 * the accepted steps, the visits, and the bytes of each function. tools/stack makes the books and runs. */
#define _GNU_SOURCE
#include "yirtabun.h"
#include <pthread.h>
#include <stdio.h>
#include <string.h>
#include <sys/mman.h>

enum { SPACE = 16 << 20 };

static uint8_t book[65537], run[16385], work[YIRTABUN_WORK], out_run[YIRTABUN_OUT_RUN], out_tail[YIRTABUN_OUT_TAIL];
static uint8_t answer[YIRTABUN_ELABORATE_ANSWER];
static size_t book_len, run_len;
static uint8_t *top;

static void *call_check(void *none) {
    uint8_t here = 0;
    top = &here;
    yirtabun_check(book, book_len, run, run_len, YIRTABUN_MOST_VISITS, work, sizeof work, answer, sizeof answer);
    return none;
}

static void *call_elaborate(void *none) {
    uint8_t here = 0;
    top = &here;
    yirtabun_elaborate(book, book_len, run, run_len, YIRTABUN_MOST_VISITS, work, sizeof work, out_run, sizeof out_run, out_tail, sizeof out_tail,
                       answer, sizeof answer);
    return none;
}

/* The bytes between the caller's frame and the lowest byte that has changed; 0 where there is no thread. */
static size_t used(void *(*call)(void *), uint8_t *space, int byte) {
    pthread_attr_t how;
    pthread_t thread;
    memset(space, byte, SPACE);
    if (pthread_attr_init(&how) || pthread_attr_setstack(&how, space, SPACE))
        return 0;
    if (pthread_create(&thread, &how, call, NULL) || pthread_join(thread, NULL))
        return 0;
    pthread_attr_destroy(&how);
    uint8_t *low = space;
    while (*low == byte)
        low++;
    return (size_t)(top - low);
}

static size_t most(void *(*call)(void *), uint8_t *space) {
    size_t a = used(call, space, 0xA5), b = used(call, space, 0x5A);
    return a < b ? b : a;
}

static size_t load(const char *path, uint8_t *bytes, size_t room) {
    FILE *f = fopen(path, "rb");
    size_t n = f ? fread(bytes, 1, room, f) : 0;
    int bad = !f || ferror(f);
    if (bad)
        perror(path);
    if (f)
        fclose(f);
    return bad ? (size_t)-1 : n;
}

static uint32_t number(int k) {
    const uint8_t *p = answer + 4 * k;
    return p[0] | (uint32_t)p[1] << 8 | (uint32_t)p[2] << 16 | (uint32_t)p[3] << 24;
}

int main(int argc, char **argv) {
    if (argc != 3) {
        fprintf(stderr, "usage: stack BOOK RUN\n");
        return 2;
    }
    book_len = load(argv[1], book, sizeof book);
    run_len = load(argv[2], run, sizeof run);
    uint8_t *space = mmap(NULL, SPACE, PROT_READ | PROT_WRITE, MAP_PRIVATE | MAP_ANONYMOUS | MAP_STACK, -1, 0);
    if (book_len == (size_t)-1 || run_len == (size_t)-1 || space == MAP_FAILED)
        return 2;
    size_t check = most(call_check, space), elaborate = most(call_elaborate, space);
    printf("%u %u %u %zu %zu\n", number(0), number(1), number(2), check, elaborate);
    return check && elaborate ? 0 : 2;
}
