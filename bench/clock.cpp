#include "clock.h"

#include <vector>

#include "spread.h"

double tick_length()
{
    uint64_t n0 = nanoseconds(), t0 = ticks();
    while (nanoseconds() - n0 < 100000000u) {
    }
    uint64_t n1 = nanoseconds(), t1 = ticks();
    return static_cast<double>(n1 - n0) / static_cast<double>(t1 - t0);
}

double empty_reading()
{
    std::vector<double> readings;
    for (int i = 0; i < 1001; i++) {
        uint64_t before = ticks();
        readings.push_back(static_cast<double>(ticks() - before));
    }
    return median(readings);
}
