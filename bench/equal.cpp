#include "equal.h"

#include <cstdio>
#include <cstdlib>
#include <cstring>
#include <vector>

#include "tables.h"
#include "work.h"

namespace {

constexpr uint32_t P = 2147483647u;
constexpr uint32_t GUARD = 0xa5a5a5a5u;
constexpr size_t GUARDS = 8;

using Memory = std::array<std::vector<uint32_t>, 4>;
using Lengths = std::array<size_t, 4>;

enum class Kind { Open, Find, Define, Change, Remove, Settle, Check };

struct Call {
    Kind kind;
    uint32_t x;
    uint32_t v;
};

// The buffers have guard words behind them, which no call may touch.
Memory memory_for(const Lengths &n)
{
    Memory m;
    for (size_t i = 0; i < 4; i++)
        m[i].assign(n[i] + GUARDS, GUARD);
    return m;
}

Lengths lengths_of(const kt_record &c)
{
    return {2 * size_t{c.r}, 2 * size_t{c.r}, 3 * size_t{c.queue_room}, 2 * size_t{c.detector_room}};
}

template <class Calls> kt_answer perform(const Call &call, kt_record c, Memory &m, const Lengths &n)
{
    uint32_t *t0 = m[0].data(), *t1 = m[1].data(), *q = m[2].data(), *d = m[3].data();
    switch (call.kind) {
    case Kind::Open:
        return Calls::open(c, t0, n[0], t1, n[1], q, n[2], d, n[3]);
    case Kind::Find:
        return Calls::find(c, call.x, t0, n[0], t1, n[1], q, n[2], d, n[3]);
    case Kind::Define:
        return Calls::define(c, call.x, call.v, t0, n[0], t1, n[1], q, n[2], d, n[3]);
    case Kind::Change:
        return Calls::change(c, call.x, call.v, t0, n[0], t1, n[1], q, n[2], d, n[3]);
    case Kind::Remove:
        return Calls::remove(c, call.x, t0, n[0], t1, n[1], q, n[2], d, n[3]);
    case Kind::Settle:
        return Calls::settle(c, call.x, t0, n[0], t1, n[1], q, n[2], d, n[3]);
    default:
        return Calls::check(c, t0, n[0], t1, n[1], q, n[2], d, n[3]);
    }
}

[[noreturn]] void differ(const char *what, const Call &call, uint64_t at)
{
    std::fprintf(stderr, "the limit differs from the store in %s: call %llu, kind %d, key %u, value %u\n", what,
                 static_cast<unsigned long long>(at), static_cast<int>(call.kind), call.x, call.v);
    std::exit(1);
}

// Two copies of one store, one for the store's calls and one for the limit's.
class Pair {
public:
    Pair(kt_record c, const Lengths &n, Compared &seen)
        : record(c), lengths(n), mine(memory_for(n)), other(mine), seen_(seen)
    {
    }

    // The words are compared unless the caller does it later.
    kt_answer both(const Call &call, kt_record c, const Lengths &n, bool words)
    {
        kt_answer a = perform<StoreCalls>(call, c, mine, n);
        kt_answer b = perform<LimitCalls>(call, c, other, n);
        if (std::memcmp(&a, &b, sizeof a) != 0)
            differ("an answer", call, seen_.calls);
        if (words)
            compare_words(call);
        seen_.calls++;
        seen_.by_number.at(a.number)++;
        return a;
    }

    void compare_words(const Call &call)
    {
        if (mine != other)
            differ("words", call, seen_.calls);
    }

    kt_record record;
    Lengths lengths;
    Memory mine, other;

private:
    Compared &seen_;
};

uint32_t any_room(Random &random, uint32_t least, uint32_t most)
{
    uint32_t small = least + random.below(6);
    return random.one_in(4) ? least + random.below(most - least + 1) : small;
}

kt_record any_record(Random &random)
{
    uint32_t r = random.one_in(20) ? 1 + random.below(300) : 1 + random.below(12);
    Rooms rooms = {any_room(random, 1, 64), any_room(random, 2, 128), any_room(random, 1, 64)};
    kt_record c = record_for(r, rooms, random.next());
    if (random.one_in(8))
        c.a0 = c.a1 = 1 + random.below(3);
    return c;
}

// Few keys, so that most calls meet one that is there; now and then one that is no key.
uint32_t any_key(Random &random)
{
    switch (random.below(24)) {
    case 0:
        return 0;
    case 1:
        return P + random.below(3);
    case 2:
        return static_cast<uint32_t>(random.next());
    case 3:
        return P;
    default:
        return 1 + random.below(24);
    }
}

Call any_call(Random &random, uint32_t limit)
{
    static constexpr Kind kinds[] = {Kind::Find,   Kind::Define, Kind::Define, Kind::Define, Kind::Change,
                                     Kind::Remove, Kind::Remove, Kind::Settle, Kind::Settle, Kind::Check};
    Kind kind = random.one_in(150) ? Kind::Open : kinds[random.below(10)];
    uint32_t x = kind == Kind::Settle ? random.below(limit + 2) : any_key(random);
    return {kind, x, random.one_in(4) ? 0 : static_cast<uint32_t>(random.next())};
}

uint32_t &number_of(kt_record &c, uint32_t i)
{
    uint32_t *numbers[] = {&c.r,  &c.queue_room, &c.detector_room, &c.step_limit, &c.a0,
                           &c.b0, &c.a1,         &c.b1,            &c.queue_len,  &c.detector_len};
    return *numbers[i];
}

// One number of the record goes to the edge of a range or anywhere.
void spoil_record(Random &random, kt_record &c)
{
    static constexpr uint32_t edges[] = {0, 1, 2, 64, 65, 128, 129, 32768, 32769, P - 1, P, 4294967295u};
    uint32_t &number = number_of(c, random.below(10));
    number = random.one_in(3) ? number + 1 : edges[random.below(12)];
}

// One length is not the right one; a longer one still ends within the guard words.
void spoil_lengths(Random &random, Lengths &n)
{
    size_t &length = n[random.below(4)];
    size_t wrong[] = {0, length - 1, length + 1};
    length = wrong[random.below(3)];
}

// One word of both copies changes: a key, a value or a side that no call would leave there.
void spoil_word(Random &random, Pair &pair)
{
    static constexpr uint32_t odd[] = {0, 1, 2, 3, P, P + 1, 4294967295u};
    size_t i = random.below(4);
    size_t at = random.below(static_cast<uint32_t>(pair.lengths[i]));
    uint32_t word = random.one_in(2) ? odd[random.below(7)] : any_key(random);
    pair.mine[i][at] = pair.other[i][at] = word;
}

void one_call(Random &random, Pair &pair)
{
    kt_record c = pair.record;
    Lengths n = pair.lengths;
    if (random.one_in(30))
        spoil_record(random, c);
    if (random.one_in(40))
        spoil_lengths(random, n);
    kt_answer a = pair.both(any_call(random, pair.record.step_limit), c, n, true);
    // The history goes on with an accepted answer, unless the call was about another store.
    if (a.number == 0 && lengths_of(a.record) == pair.lengths)
        pair.record = a.record;
}

// A history on a small store; every third one is spoiled on the way.
void small_history(uint64_t seed, Compared &seen)
{
    Random random(seed);
    kt_record c = any_record(random);
    Pair pair(c, lengths_of(c), seen);
    pair.record = pair.both({Kind::Open, 0, 0}, c, pair.lengths, true).record;
    bool spoiled = random.one_in(3);
    for (int i = 0; i < 150; i++) {
        if (spoiled && random.one_in(10))
            spoil_word(random, pair);
        one_call(random, pair);
    }
}

// The measured sizes: all keys of a work, some of them removed and defined again.
void large_history(const Work &work, Rooms rooms, Compared &seen)
{
    kt_record c = record_for(work.r, rooms, 7);
    Pair pair(c, lengths_of(c), seen);
    Random random(8);
    pair.record = pair.both({Kind::Open, 0, 0}, c, pair.lengths, true).record;
    for (size_t i = 0; i < work.fill.size(); i++) {
        uint32_t earlier = work.fill[random.below(static_cast<uint32_t>(i + 1))];
        Call calls[] = {{Kind::Define, work.fill[i], value_of(work.fill[i], 0)},
                        {random.one_in(4) ? Kind::Remove : Kind::Find, earlier, 0},
                        {Kind::Define, earlier, 1}};
        for (const Call &call : calls)
            pair.record = pair.both(call, pair.record, pair.lengths, false).record;
        if (i % 1000 == 0)
            pair.compare_words(calls[0]);
    }
    pair.both({Kind::Check, 0, 0}, pair.record, pair.lengths, true);
}

} // namespace

Compared compare_with_limit()
{
    Compared seen;
    for (uint64_t seed = 0; seed < 3000; seed++)
        small_history(seed, seen);
    for (Rooms rooms : {Rooms{64, 128, 64}, Rooms{4, 8, 2}, Rooms{16, 16, 8}}) {
        large_history(rail_keys(), rooms, seen);
        large_history(random_keys(), rooms, seen);
    }
    for (size_t number = 0; number < 10; number++)
        if (seen.by_number[number] == 0) {
            std::fprintf(stderr, "no compared call was answered with number %zu\n", number);
            std::exit(1);
        }
    return seen;
}
