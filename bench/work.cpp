#include "work.h"

#include <unordered_set>
#include <utility>

namespace {

constexpr uint32_t P = 2147483647u;

Keys shuffled(Keys keys, uint64_t seed)
{
    Random random(seed);
    for (size_t i = keys.size(); i > 1; i--)
        std::swap(keys[i - 1], keys[random.below(static_cast<uint32_t>(i))]);
    return keys;
}

// Settings of power rails: the rail above, the parameter in the lowest 16 bits.
Keys rails(uint32_t rail_count, uint32_t first_parameter, uint32_t parameter_count)
{
    Keys keys;
    for (uint32_t rail = 1; rail <= rail_count; rail++)
        for (uint32_t i = 0; i < parameter_count; i++)
            keys.push_back(rail * 65536 + first_parameter + i);
    return keys;
}

Keys distinct(size_t n, uint64_t seed)
{
    Random random(seed);
    std::unordered_set<uint32_t> seen;
    Keys keys;
    while (keys.size() < n) {
        uint32_t key = 1 + random.below(P);
        if (seen.insert(key).second)
            keys.push_back(key);
    }
    return keys;
}

} // namespace

uint64_t Random::next()
{
    state_ += 0x9e3779b97f4a7c15u;
    uint64_t z = state_;
    z = (z ^ (z >> 30)) * 0xbf58476d1ce4e5b9u;
    z = (z ^ (z >> 27)) * 0x94d049bb133111ebu;
    return z ^ (z >> 31);
}

Work rail_keys()
{
    Keys keys = rails(60, 1, 30);
    return {"a", "1,800 rail keys, r 2,048", 2048, shuffled(keys, 1), shuffled(keys, 2),
            shuffled(rails(60, 31, 30), 3), Keys(keys.size()), 100, 301};
}

Work random_keys()
{
    constexpr size_t n = 29491; // 45% of 65,536 cells
    Keys all = distinct(2 * n, 4);
    Keys fill(all.begin(), all.begin() + n);
    return {"b", "29,491 random keys (45% of the cells), r 32,768", 32768, fill, shuffled(fill, 5),
            Keys(all.begin() + n, all.end()), Keys(n), 6, 41};
}

kt_record record_for(uint32_t r, Rooms rooms, uint64_t seed)
{
    Random random(seed);
    kt_record c = {};
    c.r = r;
    c.queue_room = rooms.q;
    c.detector_room = rooms.d;
    c.step_limit = rooms.l;
    c.a0 = 1 + random.below(P - 1);
    c.b0 = random.below(P);
    c.a1 = 1 + random.below(P - 1);
    c.b1 = random.below(P);
    return c;
}
