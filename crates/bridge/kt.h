/* kt.h: the key table, seven proved calls. The archive out/libbridge.a has them (`rt lib`).
 *
 * The caller lends four buffers of uint32_t: two tables, a queue and a detector, each as a pointer and
 * its length in words. A call gets a record by value and answers the record for the next call. Give the
 * record and the buffers of one call to the next. Every call takes every record, number and length: it
 * accepts with number 0, or refuses with another number and leaves every word as it was.
 *
 * The caller answers for the pointers: none is null, even with length 0, each reaches as many words as
 * its length says, and the four buffers of a call that writes do not overlap.
 *
 *   number  when                                                         value
 *   0       accepted                                                     see each call
 *   1       r, Q, D, L or a function number out of range                 0
 *   2       a buffer's length is not 2r, 2r, 3Q or 2D words              0
 *   3       queue length above Q, or detector length above D             0
 *   4       key 0 or above 2147483647                                    0
 *   5       define of a key that find would find                         the value held
 *   6       define with Q entries waiting at entry                       0
 *   7       find, change, remove of a key not found                      0
 *   8       settle with n above L                                        0
 *   9       check of a store that is not sound                           0
 *
 * The first that applies, in the order 1, 2, 3, 4, 8, 5, 7, 6, 9, is answered. A refusal answers the
 * record that it received (open: a record of zeros), steps 0 and moves 0.
 */
#ifndef KT_H
#define KT_H

#include <stddef.h>
#include <stdint.h>

#ifdef __cplusplus
extern "C" {
#endif

/* The control record. */
typedef struct kt_record {
    uint32_t r;             /* cells in each table, 1 to 32768 */
    uint32_t queue_room;    /* Q, 1 to 64 */
    uint32_t detector_room; /* D in pairs, 2 to 128 */
    uint32_t step_limit;    /* L, most steps in one call, 1 to 64 */
    uint32_t a0;            /* table 0: home of x is ((a0 x + b0) mod 2147483647) mod r */
    uint32_t b0;            /* a0 and a1 from 1, b0 and b1 from 0, each to 2147483646 */
    uint32_t a1;
    uint32_t b1;
    uint32_t queue_len;    /* entries that wait, at most Q */
    uint32_t detector_len; /* pairs that are marked, at most D */
} kt_record;

/* What every call answers. */
typedef struct kt_answer {
    kt_record record; /* for the next call */
    uint32_t number;  /* 0, or why the call was refused */
    uint32_t value;
    uint32_t steps; /* the steps that the call did */
    uint32_t moves; /* how many of them moved a key out of its cell */
} kt_answer;

/* Open: takes the record's first eight numbers and ignores its lengths. Writes zero to every word and
 * answers a record with both lengths 0. Refuses 1, 2, and then answers a record of zeros. */
kt_answer kt_open(kt_record record,
                  uint32_t *table0, size_t table0_words,
                  uint32_t *table1, size_t table1_words,
                  uint32_t *queue, size_t queue_words,
                  uint32_t *detector, size_t detector_words);

/* Find: the key's cell in table 0, then in table 1, then the queue from the front. Answers the value.
 * Refuses 1, 2, 3, 4, 7. */
kt_answer kt_find(kt_record record, uint32_t key,
                  const uint32_t *table0, size_t table0_words,
                  const uint32_t *table1, size_t table1_words,
                  const uint32_t *queue, size_t queue_words,
                  const uint32_t *detector, size_t detector_words);

/* Define: the key joins the back of the queue with its value, then steps run until L are done or the
 * queue is empty. Answers value 0. Refuses 1, 2, 3, 4, 5, 6. */
kt_answer kt_define(kt_record record, uint32_t key, uint32_t value,
                    uint32_t *table0, size_t table0_words,
                    uint32_t *table1, size_t table1_words,
                    uint32_t *queue, size_t queue_words,
                    uint32_t *detector, size_t detector_words);

/* Change: another value for a key that find would find. Answers the old value. No steps.
 * Refuses 1, 2, 3, 4, 7. */
kt_answer kt_change(kt_record record, uint32_t key, uint32_t value,
                    uint32_t *table0, size_t table0_words,
                    uint32_t *table1, size_t table1_words,
                    uint32_t *queue, size_t queue_words,
                    uint32_t *detector, size_t detector_words);

/* Remove: the entry that find would find goes. Answers its value. No steps. Refuses 1, 2, 3, 4, 7. */
kt_answer kt_remove(kt_record record, uint32_t key,
                    uint32_t *table0, size_t table0_words,
                    uint32_t *table1, size_t table1_words,
                    uint32_t *queue, size_t queue_words,
                    uint32_t *detector, size_t detector_words);

/* Settle: steps run until n are done or the queue is empty. Answers value 0. Refuses 1, 2, 3, 8. */
kt_answer kt_settle(kt_record record, uint32_t n,
                    uint32_t *table0, size_t table0_words,
                    uint32_t *table1, size_t table1_words,
                    uint32_t *queue, size_t queue_words,
                    uint32_t *detector, size_t detector_words);

/* Check: accepted exactly for a sound store. Answers value 0. Refuses 1, 2, 3, 9. */
kt_answer kt_check(kt_record record,
                   const uint32_t *table0, size_t table0_words,
                   const uint32_t *table1, size_t table1_words,
                   const uint32_t *queue, size_t queue_words,
                   const uint32_t *detector, size_t detector_words);

#ifdef __cplusplus
}
#endif

#endif
