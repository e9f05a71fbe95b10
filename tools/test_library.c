/* Tries what include/yirtabun.h promises of pointers, limits and overlap, with document 01's K1, K3 and K4, whose bytes are written out here.
 * Prints what fails, and how many promises were tried. */
#include "yirtabun.h"
#include <stdio.h>
#include <string.h>

static uint8_t work[YIRTABUN_WORK], out_run[YIRTABUN_OUT_RUN], out_tail[YIRTABUN_OUT_TAIL], answer[YIRTABUN_ELABORATE_ANSWER];
static int tried, failed;

#define HOLDS(claim)                                                                                                                            \
    do {                                                                                                                                        \
        tried++;                                                                                                                                \
        if (!(claim)) {                                                                                                                         \
            failed++;                                                                                                                           \
            printf("line %d does not hold: %s\n", __LINE__, #claim);                                                                            \
        }                                                                                                                                       \
    } while (0)

/* (not (< x 3)) (not (> x 2)): x, 3, (< x 3), its negation, 2, (> x 2), its negation, 1 */
static const uint8_t k1_book[8][32] = {{4, 0, 0, 2}, {1, 0, 0, 0, 3}, {5, 5, 2, 0, 0, 0, 1}, {5, 1, 1, 0, 2},
                                       {1, 0, 0, 0, 2}, {5, 7, 2, 0, 0, 0, 4}, {5, 1, 1, 0, 5}, {1, 0, 0, 0, 1}};
static const uint8_t k1_run[5][4] = {{'S', 5}, {'C', 0, 3}, {'C', 0, 6}, {'A', 0, 7}, {'A', 0, 7}};
static const uint8_t k3_run[4] = {'S', 5};
/* (not (<= x 3)) (not (>= x 4)), argument 1: as K1, and 1 is inferred, which the book has as an integer only */
static const uint8_t k4_book[8][32] = {{4, 0, 0, 2}, {1, 0, 0, 0, 3}, {5, 6, 2, 0, 0, 0, 1}, {5, 1, 1, 0, 2},
                                       {1, 0, 0, 0, 4}, {5, 8, 2, 0, 0, 0, 4}, {5, 1, 1, 0, 5}, {1, 0, 0, 0, 1}};
static const uint8_t k4_run[4][4] = {{'S', 6}, {'C', 0, 3}, {'C', 0, 6}, {'A', 0, 7}};
static const uint8_t k4_out[5][4] = {{'S', 5}, {'C', 0, 3}, {'C', 0, 6}, {'A', 0, 7}, {'A', 0, 8}};
static const uint8_t k4_tail[32] = {2, 0, 0, 0, 1, 0, 0, 0, 0, 0, 0, 0, 1};

static uint32_t number(int k) {
    const uint8_t *p = answer + 4 * k;
    return p[0] | (uint32_t)p[1] << 8 | (uint32_t)p[2] << 16 | (uint32_t)p[3] << 24;
}

static int zeros(const uint8_t *area, size_t from, size_t n) {
    for (size_t k = from; k < n; k++)
        if (area[k])
            return 0;
    return 1;
}

static uint32_t k1(uint32_t limit) {
    memset(work, 7, sizeof work);
    return yirtabun_check(k1_book[0], sizeof k1_book, k1_run[0], sizeof k1_run, limit, work, sizeof work, answer, sizeof answer);
}

static void answers(void) {
    HOLDS(k1(1000) == 0 && number(0) == 0 && number(1) == 1 && number(2) == 4 && zeros(answer, 12, sizeof answer) && zeros(work, 0, sizeof work));
    memset(work, 7, sizeof work), memset(out_run, 7, sizeof out_run), memset(out_tail, 7, sizeof out_tail);
    HOLDS(yirtabun_elaborate(k4_book[0], sizeof k4_book, k4_run[0], sizeof k4_run, 1000, work, sizeof work, out_run, sizeof out_run, out_tail,
                             sizeof out_tail, answer, sizeof answer) == 0);
    HOLDS(number(1) == 1 && number(2) == 4 && number(3) == sizeof k4_out && number(4) == sizeof k4_tail);
    HOLDS(!memcmp(out_run, k4_out, sizeof k4_out) && zeros(out_run, sizeof k4_out, sizeof out_run));
    HOLDS(!memcmp(out_tail, k4_tail, sizeof k4_tail) && zeros(out_tail, sizeof k4_tail, sizeof out_tail));
    HOLDS(yirtabun_written(out_run, sizeof out_run, number(3)) == number(3));
    HOLDS(yirtabun_written(out_run, sizeof out_run, 3) == 0 && yirtabun_written(out_run, 4, 8) == 0);
    uint8_t two[2] = {7, 7};
    HOLDS(yirtabun_check(NULL, 0, k3_run, 4, 1000, work, sizeof work, two, sizeof two) == 30 && two[0] == 30 && two[1] == 0);
}

/* Where a length is 0 the pointer may be null, or lead nowhere. */
static void no_bytes(void) {
    uint8_t *nowhere = (uint8_t *)8;
    HOLDS(yirtabun_elaborate(nowhere, 0, nowhere, 0, 1000, work, sizeof work, nowhere, 0, nowhere, 0, nowhere, 0) == 0);
    HOLDS(yirtabun_check(NULL, 0, NULL, 0, 1000, work, sizeof work, answer, sizeof answer) == 0 && zeros(answer, 0, sizeof answer));
    HOLDS(yirtabun_check(NULL, 0, NULL, 0, 1000, NULL, 0, NULL, 0) == 1);
    HOLDS(yirtabun_check(k1_book[0], sizeof k1_book, k1_run[0], sizeof k1_run, 1000, work, sizeof work, NULL, 0) == 0);
    HOLDS(yirtabun_elaborate(NULL, 0, NULL, 0, 1000, work, sizeof work, NULL, 0, NULL, 0, NULL, 0) == 0);
    HOLDS(yirtabun_elaborate(k4_book[0], sizeof k4_book, k4_run[0], sizeof k4_run, 1000, work, sizeof work, NULL, 0, NULL, 0, answer,
                             sizeof answer) == 8);
    HOLDS(yirtabun_written(NULL, 0, 0) == 0 && yirtabun_written(NULL, 0, 4) == 0);
}

/* A number of 64 bits is cut where it is handed over as a limit, and refused where yirtabun_limit is asked first. */
static void limits(void) {
    uint64_t wide = ((uint64_t)1 << 32) + 5;
    HOLDS((uint32_t)wide == 5 && k1((uint32_t)wide) == 0);
    HOLDS(yirtabun_limit(wide) == 0 && k1(yirtabun_limit(wide)) == 1 && zeros(work, 0, sizeof work));
    HOLDS(yirtabun_limit(0) == 0 && yirtabun_limit(1) == 1 && yirtabun_limit(1000000) == 1000000 && yirtabun_limit(1000001) == 0);
    HOLDS(k1(3) == 10 && k1(4) == 0 && k1(1000000) == 0 && k1(1000001) == 1 && k1(UINT32_MAX) == 1);
}

/* The smallest run over a work area that overlaps it; book and run may overlap. */
static void overlap(void) {
    HOLDS(yirtabun_check(work, 0, k3_run, 4, 1000, work, sizeof work, answer, sizeof answer) == 30);
    memcpy(work, k3_run, 4);
    HOLDS(yirtabun_check(NULL, 0, work, 4, 1000, work, sizeof work, answer, sizeof answer) == 7);
    HOLDS(yirtabun_check(k1_run[0], 0, k1_run[0], sizeof k1_run, 1000, work, sizeof work, answer, sizeof answer) == 7);
    HOLDS(yirtabun_check(k1_book[0], sizeof k1_book, k1_book[0], sizeof k1_book, 1000, work, sizeof work, answer, sizeof answer) == 7);
}

int main(void) {
    answers();
    no_bytes();
    limits();
    overlap();
    printf("%d promises of the header tried, %d fail\n", tried, failed);
    return failed != 0;
}
