// Two clocks: nanoseconds for batches, ticks for single calls.
#ifndef CLOCK_H
#define CLOCK_H

#include <cstdint>
#include <ctime>
#ifdef __x86_64__
#include <x86intrin.h>
#endif

inline uint64_t nanoseconds()
{
    timespec t;
    clock_gettime(CLOCK_MONOTONIC, &t);
    return static_cast<uint64_t>(t.tv_sec) * 1000000000u + static_cast<uint64_t>(t.tv_nsec);
}

// The fences keep the timed call between its two readings.
inline uint64_t ticks()
{
#ifdef __x86_64__
    _mm_lfence();
    uint64_t t = __rdtsc();
    _mm_lfence();
    return t;
#else
    return nanoseconds();
#endif
}

// Nanoseconds in a tick, measured over a tenth of a second.
double tick_length();

// The middle difference of two readings with nothing between them, in ticks.
double empty_reading();

#endif
