/* Yirtabun: a proved checker and elaborator of Alethe's arithmetic steps, for C.
 *
 * Link target/staticlib/libyirtabun.a, which tools/staticlib proves and builds (x86-64, Linux). What is proved of each function is
 * in crates/yirtabun/src/lib.rt. Every function takes any bytes, any lengths and any limit; no proof can ask the following of a caller:
 *
 * Pointers. Each points to as many bytes as its length says. Where the length is 0 the pointer may be anything, null included.
 *
 * Overlap. No area that is written (work, answer, out_run, out_tail) overlaps another area of the same call; book and run are only read,
 * and may overlap each other. If areas overlap, no answer is promised. The smallest example: an empty book, and at the start of the
 * work area the run of four bytes S 5 0 0, an la_generic step of no literals. The work area is cleared before the run is read, so that
 * the verdict is 7 and not 30.
 *
 * The limit. It is a uint32_t, and C cuts a wider number to its lowest 32 bits without a word: 4294967301, which is 2^32 + 5, becomes 5.
 * `yirtabun_limit` makes a limit of 64 bits one that is refused where it is above the range.
 *
 * Stack. The functions use no memory but what they are lent, and stack: see YIRTABUN_STACK. A call that finds less ends the program as
 * the system ends one whose stack is full.
 */
#ifndef YIRTABUN_H
#define YIRTABUN_H

#include <stddef.h>
#include <stdint.h>

#ifdef __cplusplus
extern "C" {
#endif

/* The work area has this length, or the verdict is 1. */
#define YIRTABUN_WORK 65536
/* An elaboration never needs more than this. */
#define YIRTABUN_OUT_RUN 16384
#define YIRTABUN_OUT_TAIL 65536
/* A limit of visits is from 1 to this, or the verdict is 1. */
#define YIRTABUN_MOST_VISITS 1000000
/* A thread with this many bytes of stack has more than twice what a call needs. The most that tools/stack measures, on terms nested 2,046
 * deep: poly_simp 728 kB; la_tautology, la_generic and bounded_farkas 592 kB; the other rules 2 kB. These are measurements of the library
 * that the kit's compiler makes; the proofs say nothing of stack. */
#define YIRTABUN_STACK 2097152

/* The answers: numbers of four bytes, the lowest first. An answer area that is shorter takes as much as it has, a longer one gets zeros. */
#define YIRTABUN_CHECK_ANSWER 12     /* verdict, accepted steps, visits */
#define YIRTABUN_ELABORATE_ANSWER 20 /* and the bytes written to the out run and to the out tail */

/* A limit as the functions take it; 0, which has verdict 1, for one above the range. */
static inline uint32_t yirtabun_limit(uint64_t visits) { return visits <= YIRTABUN_MOST_VISITS ? (uint32_t)visits : 0; }

/* Marks a run over a book. Answers the verdict: 0, or document 01's number of the refusal. The work area is zeros afterwards. A run of no
 * steps has verdict 0 and no accepted steps. */
uint32_t yirtabun_check(const uint8_t *book, size_t book_len, const uint8_t *run, size_t run_len, uint32_t limit, uint8_t *work,
                        size_t work_len, uint8_t *answer, size_t answer_len);

/* Marks a run and writes the elaboration of its accepted steps: the run to one area, the records that the book lacks to the other. The
 * work area is zeros afterwards, and so is what is not written of the out areas. */
uint32_t yirtabun_elaborate(const uint8_t *book, size_t book_len, const uint8_t *run, size_t run_len, uint32_t limit, uint8_t *work,
                            size_t work_len, uint8_t *out_run, size_t out_run_len, uint8_t *out_tail, size_t out_tail_len,
                            uint8_t *answer, size_t answer_len);

/* How many bytes of the out run are written, given the byte count of the answer: the count itself, or 0 where it is above the area or
 * not a multiple of 4. */
size_t yirtabun_written(const uint8_t *out_run, size_t out_run_len, size_t bytes);

#ifdef __cplusplus
}
#endif
#endif
