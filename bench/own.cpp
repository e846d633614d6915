// The calls that no peer has: open, settle and check of the store and of the limit.
#include <cstdio>
#include <cstdlib>

#include "buffers.h"
#include "clock.h"
#include "measure.h"
#include "tables.h"

namespace {

template <class Calls> class Own {
public:
    Own(const Work &work, kt_record numbers) : work_(work), record_(numbers), memory_(numbers) { fill(); }

    double open(size_t n)
    {
        uint64_t begin = nanoseconds();
        for (size_t i = 0; i < n; i++)
            record_ = taken(call(Calls::open)).record;
        double ns = spent(begin, n);
        fill();
        return ns;
    }

    double check(size_t n)
    {
        uint64_t begin = nanoseconds();
        for (size_t i = 0; i < n; i++)
            taken(call(Calls::check));
        return spent(begin, n);
    }

    double settle(size_t n)
    {
        uint64_t begin = nanoseconds();
        for (size_t i = 0; i < n; i++)
            record_ = taken(call(Calls::settle, record_.step_limit)).record;
        return spent(begin, n);
    }

private:
    template <class F, class... Args> kt_answer call(F f, Args... args)
    {
        return f(record_, args..., memory_.t0.data(), memory_.t0.size(), memory_.t1.data(), memory_.t1.size(),
                 memory_.queue.data(), memory_.queue.size(), memory_.detector.data(), memory_.detector.size());
    }

    static double spent(uint64_t begin, size_t n)
    {
        return static_cast<double>(nanoseconds() - begin) / static_cast<double>(n);
    }

    static kt_answer taken(kt_answer a)
    {
        if (a.number != 0) {
            std::fprintf(stderr, "%s refused with number %u\n", Calls::name, a.number);
            std::exit(1);
        }
        return a;
    }

    void fill()
    {
        record_ = taken(call(Calls::open)).record;
        for (uint32_t key : work_.fill)
            record_ = taken(call(Calls::define, key, value_of(key, 0))).record;
    }

    const Work &work_;
    kt_record record_;
    Buffers memory_;
};

// Three keys with one home in both tables: two cells, so one key waits for ever and every settle does all its steps.
Work too_many()
{
    Work work = {};
    work.r = 2048;
    work.fill = {1, 1 + 2048, 1 + 2 * 2048};
    return work;
}

kt_record equal_functions(Rooms rooms)
{
    kt_record c = record_for(2048, rooms, 0);
    c.a0 = c.a1 = 1;
    c.b0 = c.b1 = 0;
    return c;
}

template <class Calls> struct Stores {
    Stores(const Work &work, const Work &tight, Rooms rooms, uint64_t seed)
        : full(work, record_for(work.r, rooms, seed)), busy(tight, equal_functions(rooms))
    {
    }
    void round(Rounds &result, size_t contender, const Work &work)
    {
        auto &ns = result.ns;
        ns[0][contender].push_back(full.open(20 * work.passes));
        ns[1][contender].push_back(full.check(work.passes));
        ns[2][contender].push_back(full.settle(50000));
        ns[3][contender].push_back(busy.settle(20000));
    }
    Own<Calls> full, busy;
};

} // namespace

Rounds measure_own_calls(const Work &work, Rooms rooms, uint64_t seed, size_t rounds)
{
    Rounds result;
    result.operations = {"open", "check of the full store", "settle L, nothing waits", "settle L, L steps"};
    result.contenders = {StoreCalls::name, LimitCalls::name};
    result.ns.assign(result.operations.size(), std::vector<std::vector<double>>(2));
    Work tight = too_many();
    Stores<StoreCalls> store(work, tight, rooms, seed);
    Stores<LimitCalls> limit(work, tight, rooms, seed);
    for (size_t round = 0; round < rounds; round++) {
        if (round % 2 == 0)
            store.round(result, 0, work);
        limit.round(result, 1, work);
        if (round % 2 == 1)
            store.round(result, 0, work);
    }
    return result;
}
