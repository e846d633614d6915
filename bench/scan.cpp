#include "scan.h"

#include <algorithm>

#include "buffers.h"
#include "limit.h"

namespace {

// The limit's calls are used: they answer as the store's do, which the run has compared before.
class Trial {
public:
    Trial(kt_record numbers, Tried &tried) : m_(numbers), tried_(tried)
    {
        record_ = limit_open(numbers, m_.t0.data(), m_.t0.size(), m_.t1.data(), m_.t1.size(), m_.queue.data(),
                             m_.queue.size(), m_.detector.data(), m_.detector.size())
                      .record;
    }

    void define(uint32_t key)
    {
        kt_answer a = limit_define(record_, key, 1, m_.t0.data(), m_.t0.size(), m_.t1.data(), m_.t1.size(),
                                   m_.queue.data(), m_.queue.size(), m_.detector.data(), m_.detector.size());
        record_ = a.record;
        tried_.refused += a.number != 0;
        tried_.waiting = std::max(tried_.waiting, record_.queue_len);
        tried_.left = record_.queue_len;
        tried_.defines++;
        tried_.steps += a.steps;
    }

    void remove(uint32_t key)
    {
        record_ = limit_remove(record_, key, m_.t0.data(), m_.t0.size(), m_.t1.data(), m_.t1.size(), m_.queue.data(),
                               m_.queue.size(), m_.detector.data(), m_.detector.size())
                      .record;
    }

private:
    Buffers m_;
    kt_record record_;
    Tried &tried_;
};

} // namespace

Tried try_seed(const Work &work, Rooms rooms, uint64_t seed)
{
    Tried tried;
    Trial trial(record_for(work.r, rooms, seed), tried);
    for (uint32_t key : work.fill)
        trial.define(key);
    for (uint32_t key : work.present) {
        trial.remove(key);
        trial.define(key);
    }
    return tried;
}

Tried try_seeds(const Work &work, Rooms rooms, uint64_t n)
{
    Tried all;
    for (uint64_t seed = 1; seed <= n; seed++) {
        Tried one = try_seed(work, rooms, seed);
        all.defines += one.defines;
        all.refused += one.refused;
        all.steps += one.steps;
        all.waiting = std::max(all.waiting, one.waiting);
        all.left += one.left;
    }
    return all;
}
