// The measurements: rounds over batches, and single defines in a growing fill.
#ifndef MEASURE_H
#define MEASURE_H

#include <string>
#include <vector>

#include "contender.h"

// Nanoseconds for a call: of each operation, of each contender, in each round.
struct Rounds {
    std::vector<std::string> operations;
    std::vector<std::string> contenders;
    std::vector<std::vector<std::vector<double>>> ns;
    uint64_t checksum = 0;
};

// The operations in the order of Rounds::ns.
enum Operation { FILL, FILL_RESERVED, FIND_PRESENT, FIND_ABSENT, FIND_BAD, CHANGE, RENEW, OPERATIONS };

// Every round runs every contender once for each operation; another one begins in each round.
Rounds measure_rounds(const Contenders &contenders, const Work &work, size_t rounds);

// Nanoseconds of single defines, the clock's own among them.
struct Singles {
    std::string name;
    bool grows;
    std::vector<double> middle; // of the least define in each fill the middle, of the next, up to the largest
    double largest;             // of all fills
};

// Also gives the clock's own time, the middle of a reading in each round of fills.
std::vector<Singles> measure_singles(const Contenders &contenders, const Work &work, double &clock_ns);

// The calls that no peer has, of the store and of the limit: open, settle, check.
Rounds measure_own_calls(const Work &work, Rooms rooms, uint64_t seed, size_t rounds);

#endif
