// Whether the limit does what the store does: random calls on both, every answer field and every word compared.
#ifndef EQUAL_H
#define EQUAL_H

#include <array>
#include <cstdint>

struct Compared {
    uint64_t calls = 0;
    std::array<uint64_t, 10> by_number{}; // calls answered with this number
};

// Ends the program with a message if they differ, or if some number never came.
Compared compare_with_limit();

#endif
