// The keys that every contender gets, in one order, and the record of the two tables.
#ifndef WORK_H
#define WORK_H

#include <cstddef>
#include <cstdint>
#include <string>
#include <vector>

#include "kt.h"

using Keys = std::vector<uint32_t>;

// Numbers from a fixed seed (splitmix64), the same on every machine.
class Random {
public:
    explicit Random(uint64_t seed) : state_(seed) {}
    uint64_t next();
    // From 0 up to, not including, n.
    uint32_t below(uint32_t n) { return static_cast<uint32_t>(next() % n); }
    bool one_in(uint32_t n) { return below(n) == 0; }

private:
    uint64_t state_;
};

struct Work {
    std::string letter;
    std::string title;
    uint32_t r;
    Keys fill;    // in the order of defining
    Keys present; // the same keys in another order
    Keys absent;  // as many others
    Keys bad;     // key 0, as many times
    size_t passes;
    size_t fills; // fills of the distribution
};

// A queue of Q places, a detector of D pairs, at most L steps in a call.
struct Rooms {
    uint32_t q;
    uint32_t d;
    uint32_t l;
};

Work rail_keys();
Work random_keys();

// A record with home functions from a seed.
kt_record record_for(uint32_t r, Rooms rooms, uint64_t seed);

// The value of a key; every contender computes it the same way.
inline uint32_t value_of(uint32_t key, uint32_t salt)
{
    return key * 2654435761u + salt;
}

#endif
