/* compare FILE: replays whole runs (the format of tools/run_cases.py) through the static library, and compares verdict, accepted steps,
 * visits and every lent byte with what the file says. Memory is full of other bytes before each call, and the bytes around each lent
 * area must stay. Prints how many runs and accepted steps there were and how many runs differ; tools/compare.py calls it. */
#include "yirtabun.h"
#include <stdio.h>
#include <stdlib.h>
#include <string.h>

enum { MOST = 70000, EDGE = 16, DIRT = 0xA5 };

static uint8_t book[MOST], run[MOST], want_run[MOST], want_tail[MOST];
static uint8_t work[MOST + 2 * EDGE], out_run[MOST + 2 * EDGE], out_tail[MOST + 2 * EDGE];

static uint32_t number(const uint8_t *p) { return p[0] | (uint32_t)p[1] << 8 | (uint32_t)p[2] << 16 | (uint32_t)p[3] << 24; }

static void soil(uint8_t *area) { memset(area, DIRT, MOST + 2 * EDGE); }

/* Whether the n lent bytes are the text and then zeros, and the others are as they were. */
static int left(const uint8_t *area, size_t n, const uint8_t *text, size_t len) {
    if (len > n || memcmp(area + EDGE, text, len))
        return 0;
    for (size_t k = len; k < n; k++)
        if (area[EDGE + k])
            return 0;
    for (size_t k = 0; k < EDGE; k++)
        if (area[k] != DIRT || area[EDGE + n + k] != DIRT)
            return 0;
    return 1;
}

static int part(FILE *f, uint8_t *to, size_t n) { return n <= MOST && fread(to, 1, n, f) == n; }

int main(int argc, char **argv) {
    FILE *f = argc == 2 ? fopen(argv[1], "rb") : NULL;
    uint8_t head[48], count[4], a[YIRTABUN_ELABORATE_ANSWER];
    if (!f || fread(count, 1, 4, f) != 4) {
        fprintf(stderr, "usage: compare FILE\n");
        return 2;
    }
    uint32_t cases = number(count), differ = 0;
    unsigned long long steps = 0, visits = 0;
    for (uint32_t k = 0; k < cases; k++) {
        uint32_t h[12];
        if (fread(head, 1, 48, f) != 48)
            break;
        for (int i = 0; i < 12; i++)
            h[i] = number(head + 4 * i);
        if (!part(f, book, h[0]) || !part(f, run, h[1]) || !part(f, want_run, h[10]) || !part(f, want_tail, h[11]) || h[3] > MOST || h[4] > MOST ||
            h[5] > MOST) {
            fprintf(stderr, "run %u: the file is broken\n", k);
            return 2;
        }
        soil(work);
        uint32_t v = yirtabun_check(book, h[0], run, h[1], h[2], work + EDGE, h[3], a, 12);
        int good = v == number(a) && (h[6] == 8 || v == h[6]) && number(a + 4) == h[7] && number(a + 8) == h[8] && left(work, h[3], work, 0);
        soil(work), soil(out_run), soil(out_tail);
        v = yirtabun_elaborate(book, h[0], run, h[1], h[2], work + EDGE, h[3], out_run + EDGE, h[4], out_tail + EDGE, h[5], a, 20);
        good = good && v == h[6] && number(a) == v && number(a + 4) == h[7] && number(a + 8) == h[8] && number(a + 12) == h[10] &&
               number(a + 16) == h[11] && left(work, h[3], work, 0) && left(out_run, h[4], want_run, h[10]) && left(out_tail, h[5], want_tail, h[11]) &&
               yirtabun_written(out_run + EDGE, h[4], h[10]) == h[10];
        steps += h[7], visits += h[8];
        if (!good) {
            differ++;
            printf("run %u differs: expected verdict %u, %u steps, %u visits; found %u, %u, %u\n", k, h[6], h[7], h[8], v, number(a + 4), number(a + 8));
        }
    }
    printf("%u runs %llu steps %llu visits %u differ\n", cases, steps, visits, differ);
    return differ != 0;
}
