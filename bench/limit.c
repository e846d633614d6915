/* limit.c: the rules of kt.h by hand, for speed and with no proof. */
#include "limit.h"

#include <emmintrin.h>
#include <stdbool.h>
#include <string.h>

#define P 2147483647u

/* The home of a good key. P is 2^31 - 1, so the bits above the lowest 31 count once more; a, b < P and
 * x <= P leave less than 2 P. */
static inline uint32_t home_of_key(uint32_t a, uint32_t b, uint32_t r, uint32_t x)
{
    uint64_t s = (uint64_t)a * x + b;
    uint32_t m = (uint32_t)(s & P) + (uint32_t)(s >> 31);
    return (m >= P ? m - P : m) % r;
}

/* The home of any word: a word of 32 bits needs the fold twice. */
static inline uint32_t home_of(uint32_t a, uint32_t b, uint32_t r, uint32_t x)
{
    uint64_t s = (uint64_t)a * x + b;
    uint64_t t = (s & P) + (s >> 31);
    uint32_t m = (uint32_t)(t & P) + (uint32_t)(t >> 31);
    return (m >= P ? m - P : m) % r;
}

static inline bool is_key(uint32_t x)
{
    return x - 1u < P;
}

/* A word of 32 bits in each of four lanes, the first field in the lowest. */
static inline __m128i lanes(uint32_t x0, uint32_t x1, uint32_t x2, uint32_t x3)
{
    return _mm_set_epi32((int)x3, (int)x2, (int)x1, (int)x0);
}

/* The lanes of four fields that are out of range. SSE2 compares signed numbers only, hence the flipped sign. */
static inline __m128i outside(const uint32_t *fields, __m128i least, __m128i most)
{
    const __m128i sign = _mm_set1_epi32(INT32_MIN);
    __m128i above_least = _mm_sub_epi32(_mm_loadu_si128((const __m128i *)fields), least);
    return _mm_cmpgt_epi32(_mm_xor_si128(above_least, sign), _mm_xor_si128(_mm_sub_epi32(most, least), sign));
}

/* The first eight fields at once: one branch, and the record stays in two registers for the answer. */
static inline bool in_range(const kt_record *c)
{
    __m128i rooms = outside(&c->r, lanes(1, 1, 2, 1), lanes(32768, 64, 128, 64));
    __m128i functions = outside(&c->a0, lanes(1, 0, 1, 0), lanes(P - 1, P - 1, P - 1, P - 1));
    return _mm_movemask_epi8(_mm_or_si128(rooms, functions)) == 0;
}

static inline uint32_t fault(const kt_record *c, size_t n0, size_t n1, size_t nq, size_t nd)
{
    if (!in_range(c))
        return 1;
    if (n0 != 2 * (size_t)c->r || n1 != 2 * (size_t)c->r || nq != 3 * (size_t)c->queue_room
        || nd != 2 * (size_t)c->detector_room)
        return 2;
    return c->queue_len > c->queue_room || c->detector_len > c->detector_room ? 3 : 0;
}

static inline kt_answer reply(kt_record c, uint32_t number, uint32_t value)
{
    return (kt_answer){c, number, value, 0, 0};
}

/* One of two pointers, with no branch to be guessed. */
static inline const uint32_t *pick(bool first, const uint32_t *a, const uint32_t *b)
{
    uintptr_t mask = -(uintptr_t)first;
    return (const uint32_t *)(((uintptr_t)a & mask) | ((uintptr_t)b & ~mask));
}

/* The cell that holds a good key, or null. Both cells are read, so that no branch has to be guessed. */
static inline const uint32_t *cell_of(const kt_record *c, uint32_t x, const uint32_t *t0, const uint32_t *t1)
{
    const uint32_t *cell0 = t0 + 2 * (size_t)home_of_key(c->a0, c->b0, c->r, x);
    const uint32_t *cell1 = t1 + 2 * (size_t)home_of_key(c->a1, c->b1, c->r, x);
    const uint32_t *cell = pick(*cell0 == x, cell0, cell1);
    return *cell == x ? cell : NULL;
}

/* The first entry that waits with key x, or null. */
static inline const uint32_t *waiting(const kt_record *c, uint32_t x, const uint32_t *queue)
{
    const uint32_t *end = queue + 3 * c->queue_len;
    for (const uint32_t *e = queue; e < end; e += 3)
        if (*e == x)
            return e;
    return NULL;
}

/* Cells and entries both begin with key and value. */
static inline const uint32_t *place_of(const kt_record *c, uint32_t x, const uint32_t *t0, const uint32_t *t1,
                                       const uint32_t *queue)
{
    const uint32_t *cell = cell_of(c, x, t0, t1);
    return cell ? cell : waiting(c, x, queue);
}

/* The caller lent these words for writing. */
static inline uint32_t *writable(const uint32_t *word)
{
    return (uint32_t *)(uintptr_t)word;
}

static inline void tidy(const kt_record *c, uint32_t *queue, uint32_t *detector)
{
    size_t ql = c->queue_len, dl = c->detector_len;
    memset(queue + 3 * ql, 0, (c->queue_room - ql) * 3 * sizeof *queue);
    memset(detector + 2 * dl, 0, (c->detector_room - dl) * 2 * sizeof *detector);
}

static inline bool is_marked(const uint32_t *detector, uint32_t n, uint32_t y, uint32_t b)
{
    for (uint32_t i = 0; i < n; i++)
        if (detector[2 * i] == y && (detector[2 * i + 1] != 0) == b)
            return true;
    return false;
}

/* The queue while steps run: the front entry is held apart, entries at places head + 1 to end - 1 follow. */
struct line {
    uint32_t key, value, side;
    uint32_t head, end;
    uint32_t *words;
};

static inline void take_front(struct line *q)
{
    const uint32_t *e = q->words + 3 * q->head;
    q->key = e[0];
    q->value = e[1];
    q->side = e[2];
}

static inline void drop_front(struct line *q)
{
    q->head++;
    if (q->head < q->end)
        take_front(q);
}

static void to_back(struct line *q, uint32_t b)
{
    uint32_t behind = q->end - q->head - 1;
    memmove(q->words, q->words + 3 * (q->head + 1), behind * 3 * sizeof *q->words);
    uint32_t *e = q->words + 3 * behind;
    e[0] = q->key;
    e[1] = q->value;
    e[2] = b;
    q->head = 0;
    q->end = behind + 1;
    take_front(q);
}

/* Back to words, the front entry first. */
static inline uint32_t put_back(const struct line *q)
{
    uint32_t n = q->end - q->head;
    if (n == 0)
        return 0;
    if (q->head > 0)
        memmove(q->words, q->words + 3 * q->head, n * 3 * sizeof *q->words);
    q->words[0] = q->key;
    q->words[1] = q->value;
    q->words[2] = q->side;
    return n;
}

/* Steps until the budget is spent or nothing waits; what lies past the lengths is cleared once, at the end. */
static inline kt_answer run(kt_record c, uint32_t budget, struct line q, uint32_t *restrict t0,
                            uint32_t *restrict t1, uint32_t *restrict detector)
{
    uint32_t steps = 0, moves = 0, marks = c.detector_len;
    for (; steps < budget && q.head < q.end; steps++) {
        uint32_t b = q.side != 0;
        uint32_t i = b ? home_of(c.a1, c.b1, c.r, q.key) : home_of(c.a0, c.b0, c.r, q.key);
        uint32_t *cell = (b ? t1 : t0) + 2 * i;
        uint32_t key = cell[0], value = cell[1];
        if (key == 0) {
            cell[0] = q.key;
            cell[1] = q.value;
            drop_front(&q);
            marks = 0;
        } else if (marks == c.detector_room || is_marked(detector, marks, q.key, b)) {
            to_back(&q, b);
            marks = 0;
        } else {
            detector[2 * marks] = q.key;
            detector[2 * marks + 1] = b;
            marks++;
            cell[0] = q.key;
            cell[1] = q.value;
            q.key = key;
            q.value = value;
            q.side = 1 - b;
            moves++;
        }
    }
    c.queue_len = put_back(&q);
    c.detector_len = marks;
    tidy(&c, q.words, detector);
    return (kt_answer){c, 0, 0, steps, moves};
}

kt_answer limit_open(kt_record c, uint32_t *t0, size_t n0, uint32_t *t1, size_t n1, uint32_t *queue, size_t nq,
                     uint32_t *detector, size_t nd)
{
    c.queue_len = 0;
    c.detector_len = 0;
    uint32_t k = fault(&c, n0, n1, nq, nd);
    if (k != 0)
        return reply((kt_record){0}, k, 0);
    memset(t0, 0, n0 * sizeof *t0);
    memset(t1, 0, n1 * sizeof *t1);
    memset(queue, 0, nq * sizeof *queue);
    memset(detector, 0, nd * sizeof *detector);
    return reply(c, 0, 0);
}

kt_answer limit_find(kt_record c, uint32_t x, const uint32_t *t0, size_t n0, const uint32_t *t1, size_t n1,
                     const uint32_t *queue, size_t nq, const uint32_t *detector, size_t nd)
{
    (void)detector;
    uint32_t k = fault(&c, n0, n1, nq, nd);
    if (k != 0)
        return reply(c, k, 0);
    if (!is_key(x))
        return reply(c, 4, 0);
    const uint32_t *e = place_of(&c, x, t0, t1, queue);
    return e ? reply(c, 0, e[1]) : reply(c, 7, 0);
}

/* A key whose home is free while nothing waits lands at once: that is its one step. */
static inline kt_answer land(kt_record c, uint32_t x, uint32_t v, uint32_t *cell, uint32_t *queue,
                             uint32_t *detector)
{
    cell[0] = x;
    cell[1] = v;
    c.detector_len = 0;
    tidy(&c, queue, detector);
    return (kt_answer){c, 0, 0, 1, 0};
}

/* The entry at the back of the queue; if it is alone it is also the front. */
static inline struct line joined(const kt_record *c, uint32_t x, uint32_t v, uint32_t *queue)
{
    struct line q = {x, v, 0, 0, c->queue_len + 1, queue};
    if (c->queue_len > 0) {
        uint32_t *e = queue + 3 * c->queue_len;
        e[0] = x;
        e[1] = v;
        e[2] = 0;
        take_front(&q);
    }
    return q;
}

kt_answer limit_define(kt_record c, uint32_t x, uint32_t v, uint32_t *t0, size_t n0, uint32_t *t1, size_t n1,
                       uint32_t *queue, size_t nq, uint32_t *detector, size_t nd)
{
    uint32_t k = fault(&c, n0, n1, nq, nd);
    if (k != 0)
        return reply(c, k, 0);
    if (!is_key(x))
        return reply(c, 4, 0);
    const uint32_t *e = place_of(&c, x, t0, t1, queue);
    if (e)
        return reply(c, 5, e[1]);
    if (c.queue_len == c.queue_room)
        return reply(c, 6, 0);
    uint32_t *cell = t0 + 2 * (size_t)home_of_key(c.a0, c.b0, c.r, x);
    if (c.queue_len == 0 && *cell == 0)
        return land(c, x, v, cell, queue, detector);
    return run(c, c.step_limit, joined(&c, x, v, queue), t0, t1, detector);
}

kt_answer limit_change(kt_record c, uint32_t x, uint32_t v, uint32_t *t0, size_t n0, uint32_t *t1, size_t n1,
                       uint32_t *queue, size_t nq, uint32_t *detector, size_t nd)
{
    (void)detector;
    uint32_t k = fault(&c, n0, n1, nq, nd);
    if (k != 0)
        return reply(c, k, 0);
    if (!is_key(x))
        return reply(c, 4, 0);
    uint32_t *e = writable(place_of(&c, x, t0, t1, queue));
    if (!e)
        return reply(c, 7, 0);
    uint32_t old = e[1];
    e[1] = v;
    return reply(c, 0, old);
}

static inline void close_gap(kt_record *c, uint32_t *e, uint32_t *queue)
{
    const uint32_t *end = queue + 3 * c->queue_len;
    memmove(e, e + 3, (size_t)(end - (e + 3)) * sizeof *e);
    c->queue_len--;
}

kt_answer limit_remove(kt_record c, uint32_t x, uint32_t *t0, size_t n0, uint32_t *t1, size_t n1, uint32_t *queue,
                       size_t nq, uint32_t *detector, size_t nd)
{
    uint32_t k = fault(&c, n0, n1, nq, nd);
    if (k != 0)
        return reply(c, k, 0);
    if (!is_key(x))
        return reply(c, 4, 0);
    uint32_t *cell = writable(cell_of(&c, x, t0, t1));
    uint32_t *e = cell ? cell : writable(waiting(&c, x, queue));
    if (!e)
        return reply(c, 7, 0);
    uint32_t old = e[1];
    if (cell)
        cell[0] = cell[1] = 0;
    else
        close_gap(&c, e, queue);
    tidy(&c, queue, detector);
    return reply(c, 0, old);
}

kt_answer limit_settle(kt_record c, uint32_t n, uint32_t *t0, size_t n0, uint32_t *t1, size_t n1, uint32_t *queue,
                       size_t nq, uint32_t *detector, size_t nd)
{
    uint32_t k = fault(&c, n0, n1, nq, nd);
    if (k != 0)
        return reply(c, k, 0);
    if (n > c.step_limit)
        return reply(c, 8, 0);
    struct line q = {0, 0, 0, 0, c.queue_len, queue};
    if (c.queue_len > 0)
        take_front(&q);
    return run(c, n, q, t0, t1, detector);
}

static inline bool is_held(const kt_record *c, uint32_t b, uint32_t x, const uint32_t *t)
{
    return t[2 * (b ? home_of_key(c->a1, c->b1, c->r, x) : home_of_key(c->a0, c->b0, c->r, x))] == x;
}

static inline bool cells_ok(const kt_record *c, uint32_t b, const uint32_t *t, const uint32_t *other)
{
    for (uint32_t i = 0; i < c->r; i++) {
        uint32_t key = t[2 * i];
        if (key == 0) {
            if (t[2 * i + 1] != 0)
                return false;
            continue;
        }
        if (!is_key(key))
            return false;
        uint32_t home = b ? home_of_key(c->a1, c->b1, c->r, key) : home_of_key(c->a0, c->b0, c->r, key);
        if (home != i || is_held(c, 1 - b, key, other))
            return false;
    }
    return true;
}

static bool queue_ok(const kt_record *c, const uint32_t *t0, const uint32_t *t1, const uint32_t *queue)
{
    const uint32_t *end = queue + 3 * c->queue_len;
    for (const uint32_t *e = queue; e < end; e += 3) {
        if (!is_key(e[0]) || e[2] > 1 || is_held(c, 0, e[0], t0) || is_held(c, 1, e[0], t1))
            return false;
        for (const uint32_t *later = e + 3; later < end; later += 3)
            if (*later == *e)
                return false;
    }
    return true;
}

static bool marks_ok(const uint32_t *detector, uint32_t n)
{
    for (uint32_t i = 0; i < n; i++) {
        const uint32_t *pair = detector + 2 * i;
        if (!is_key(pair[0]) || pair[1] > 1 || is_marked(pair + 2, n - i - 1, pair[0], pair[1]))
            return false;
    }
    return true;
}

static bool all_zero(const uint32_t *from, const uint32_t *to)
{
    uint32_t any = 0;
    for (; from < to; from++)
        any |= *from;
    return any == 0;
}

kt_answer limit_check(kt_record c, const uint32_t *t0, size_t n0, const uint32_t *t1, size_t n1,
                      const uint32_t *queue, size_t nq, const uint32_t *detector, size_t nd)
{
    uint32_t k = fault(&c, n0, n1, nq, nd);
    if (k != 0)
        return reply(c, k, 0);
    bool sound = cells_ok(&c, 0, t0, t1) && cells_ok(&c, 1, t1, t0) && queue_ok(&c, t0, t1, queue)
                 && marks_ok(detector, c.detector_len) && all_zero(queue + 3 * c.queue_len, queue + nq)
                 && all_zero(detector + 2 * c.detector_len, detector + nd);
    return reply(c, sound ? 0 : 9, 0);
}
