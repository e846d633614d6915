// The benchmark: one process, one run. Markdown goes to standard output, the plot's points to the folder named.
#include <cstdio>
#include <cstdlib>
#include <malloc.h>
#include <sched.h>

#include "report.h"

namespace {

constexpr Rooms ROOMS = {16, 16, 8};
constexpr uint64_t SEEDS = 20;
constexpr size_t ROUNDS = 51;

// The last processor that the process may use: the first often serves the machine's interrupts.
void stay_on_one_processor()
{
    cpu_set_t allowed, one;
    CPU_ZERO(&one);
    if (sched_getaffinity(0, sizeof allowed, &allowed) != 0)
        return;
    for (int i = CPU_SETSIZE - 1; i >= 0; i--)
        if (CPU_ISSET(i, &allowed)) {
            CPU_SET(i, &one);
            break;
        }
    if (sched_setaffinity(0, sizeof one, &one) != 0)
        std::fprintf(stderr, "not pinned to a processor\n");
}

// Freed memory stays with the process, so that a peer that grows pays for no new pages after its first round.
void keep_memory()
{
    mallopt(M_MMAP_THRESHOLD, 1 << 30);
    mallopt(M_TRIM_THRESHOLD, 1 << 30);
}

std::vector<ScanRow> scan(const Work &a, const Work &b)
{
    static constexpr Rooms tried[] = {{64, 32, 4}, {64, 32, 8}, {64, 16, 8}, {32, 16, 8}, {16, 32, 8}, {16, 16, 16},
                                      ROOMS,       {16, 8, 8},  {16, 16, 4}, {8, 16, 16}, {8, 16, 8},  {8, 8, 8}};
    std::vector<ScanRow> rows;
    for (Rooms rooms : tried)
        rows.push_back({rooms, {try_seeds(a, rooms, SEEDS), try_seeds(b, rooms, SEEDS)}});
    return rows;
}

void choose_seed(Report &report, const Work &a, const Work &b)
{
    for (uint64_t seed = SEEDS; seed >= 1; seed--) {
        bool fits_a = fits(try_seed(a, ROOMS, seed)), fits_b = fits(try_seed(b, ROOMS, seed));
        report.unfit[0] += !fits_a;
        report.unfit[1] += !fits_b;
        if (fits_a && fits_b)
            report.seed = seed;
    }
}

Contenders all_contenders(kt_record record)
{
    Contenders all;
    all.push_back(make_store(record));
    all.push_back(make_limit(record));
    all.push_back(make_unordered_map());
    all.push_back(make_flat_hash_map());
    all.push_back(make_cuckoohash_map());
    all.push_back(make_uthash());
    all.push_back(make_rust_map());
    return all;
}

Measured measure(const Work &work, uint64_t seed)
{
    std::fprintf(stderr, "measuring %s\n", work.title.c_str());
    Contenders contenders = all_contenders(record_for(work.r, ROOMS, seed));
    Measured m = {work, {}, {}, {}, 0};
    m.rounds = measure_rounds(contenders, work, ROUNDS);
    m.own = measure_own_calls(work, ROOMS, seed, ROUNDS);
    m.singles = measure_singles(contenders, work, m.clock_ns);
    return m;
}

} // namespace

int main(int argc, char **argv)
{
    if (argc != 2) {
        std::fprintf(stderr, "usage: %s FOLDER\n", argv[0]);
        return 2;
    }
    keep_memory();
    stay_on_one_processor();
    Report report = {};
    report.rooms = ROOMS;
    report.seeds = SEEDS;
    report.compared = compare_with_limit();
    Work a = rail_keys(), b = random_keys();
    report.scan = scan(a, b);
    choose_seed(report, a, b);
    for (const Work &work : {a, b})
        report.measured.push_back(measure(work, report.seed));
    print_report(report);
    write_points(report, argv[1]);
    return 0;
}
