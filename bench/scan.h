// Rooms and home functions for the works: whether any define is refused, and how long the queue gets.
#ifndef SCAN_H
#define SCAN_H

#include "work.h"

struct Tried {
    uint64_t defines = 0;
    uint64_t refused = 0;
    uint64_t steps = 0;
    uint32_t waiting = 0; // most entries that waited after a call
    uint32_t left = 0;    // entries that wait at the end
};

// Fills and renews the work's keys with the home functions of a seed.
Tried try_seed(const Work &work, Rooms rooms, uint64_t seed);

// The same with the seeds 1 to n, counted together.
Tried try_seeds(const Work &work, Rooms rooms, uint64_t n);

// Whether nothing was refused and nothing waits at the end.
inline bool fits(const Tried &tried)
{
    return tried.refused == 0 && tried.left == 0;
}

#endif
