/* The key table from C: four rails are set, a second line for one of them is refused. Build with the archive that
 * `rt lib` in crates/bridge writes:
 *     cc -std=c99 -Icrates/bridge examples/rails.c crates/bridge/out/libbridge.a
 */
#include <kt.h>
#include <stdio.h>

enum { CELLS = 64, QUEUE = 8, DETECTOR = 16, LIMIT = 4 };

static uint32_t table0[2 * CELLS], table1[2 * CELLS], queue[3 * QUEUE], detector[2 * DETECTOR];

/* A key of the rail profile. */
static uint32_t key(uint32_t rail, uint32_t parameter) { return rail * 65536 + parameter; }

static kt_record told(const char *call, kt_answer a) {
    printf("%s: number %u, value %u, steps %u, moves %u\n", call, a.number, a.value, a.steps, a.moves);
    return a.record;
}

static kt_record define(kt_record store, uint32_t k, uint32_t value) {
    return told("define", kt_define(store, k, value, table0, 2 * CELLS, table1, 2 * CELLS, queue, 3 * QUEUE, detector, 2 * DETECTOR));
}

int main(void) {
    kt_record numbers = {CELLS, QUEUE, DETECTOR, LIMIT, 48271, 11, 16807, 7, 0, 0};
    kt_record store = told("open", kt_open(numbers, table0, 2 * CELLS, table1, 2 * CELLS, queue, 3 * QUEUE, detector, 2 * DETECTOR));
    store = define(store, key(1, 1), 3300);
    store = define(store, key(2, 1), 900);
    store = define(store, key(3, 1), 1800);
    store = define(store, key(4, 1), 1200);
    store = define(store, key(2, 1), 1200); /* refused 5: 900 is held */
    told("find", kt_find(store, key(2, 1), table0, 2 * CELLS, table1, 2 * CELLS, queue, 3 * QUEUE, detector, 2 * DETECTOR));
    told("check", kt_check(store, table0, 2 * CELLS, table1, 2 * CELLS, queue, 3 * QUEUE, detector, 2 * DETECTOR));
    return 0;
}
