#include "measure.h"

#include <algorithm>
#include <cstdio>
#include <cstdlib>

#include "clock.h"
#include "spread.h"

namespace {

struct Timed {
    double ns;
    uint64_t sum;
};

double per_call(uint64_t ns, size_t calls)
{
    return static_cast<double>(ns) / static_cast<double>(calls);
}

// One pass runs untimed, so that the contender's memory is in the caches again.
template <class Pass> Timed timed_passes(const Work &work, Pass pass)
{
    uint64_t sum = pass();
    uint64_t begin = nanoseconds();
    for (size_t i = 0; i < work.passes; i++)
        sum += pass();
    return {per_call(nanoseconds() - begin, work.passes * work.fill.size()), sum};
}

// Only the defines are timed, not the emptying between two fills.
Timed timed_fills(Contender &contender, const Work &work, size_t room)
{
    size_t fills = std::max<size_t>(work.passes / 2, 1);
    uint64_t ns = 0, sum = 0;
    for (size_t i = 0; i <= fills; i++) {
        contender.start(room);
        uint64_t begin = nanoseconds();
        sum += contender.define_all(work.fill);
        if (i > 0)
            ns += nanoseconds() - begin;
    }
    return {per_call(ns, fills * work.fill.size()), sum};
}

Timed timed(Operation operation, Contender &contender, const Work &work)
{
    switch (operation) {
    case FILL:
        return timed_fills(contender, work, 0);
    case FILL_RESERVED:
        return timed_fills(contender, work, work.fill.size());
    case FIND_PRESENT:
        return timed_passes(work, [&] { return contender.find_all(work.present); });
    case FIND_ABSENT:
        return timed_passes(work, [&] { return contender.find_all(work.absent); });
    case FIND_BAD:
        return timed_passes(work, [&] { return contender.find_all(work.bad); });
    case CHANGE: {
        uint32_t salt = 0;
        return timed_passes(work, [&] { return contender.change_all(work.present, ++salt); });
    }
    default:
        return timed_passes(work, [&] { return contender.renew_all(work.present); });
    }
}

void must_agree(uint64_t mine, uint64_t sum, const std::string &name, const std::string &operation)
{
    if (mine == sum)
        return;
    std::fprintf(stderr, "%s: %s answers other sums than this store\n", operation.c_str(), name.c_str());
    std::exit(1);
}

// All contenders in one operation; another one begins in each round.
void one_operation(Rounds &rounds, Operation operation, size_t round, const Contenders &contenders, const Work &work)
{
    std::vector<uint64_t> sums(contenders.size());
    for (size_t i = 0; i < contenders.size(); i++) {
        size_t k = (i + round) % contenders.size();
        Timed t = timed(operation, *contenders[k], work);
        rounds.ns[operation][k].push_back(t.ns);
        sums[k] = t.sum;
    }
    for (size_t k = 0; k < contenders.size(); k++)
        must_agree(sums[0], sums[k], rounds.contenders[k], rounds.operations[operation]);
    rounds.checksum = rounds.checksum * 31 + sums[0];
}

std::vector<std::string> names_of(const Contenders &contenders)
{
    std::vector<std::string> names;
    for (const auto &contender : contenders)
        names.push_back(contender->name());
    return names;
}

using Fill = std::vector<double>;

// One fill from empty: the time of each define, the least first.
Fill one_fill(Contender &contender, const Work &work, double tick)
{
    std::vector<uint64_t> spent(work.fill.size());
    contender.start(0);
    bool taken = true;
    for (size_t i = 0; i < work.fill.size(); i++) {
        uint32_t key = work.fill[i], value = value_of(key, 0);
        uint64_t begin = ticks();
        taken &= contender.define_one(key, value);
        spent[i] = ticks() - begin;
    }
    must_agree(1, taken, contender.name(), "single defines");
    std::sort(spent.begin(), spent.end());
    Fill fill;
    for (uint64_t s : spent)
        fill.push_back(static_cast<double>(s) * tick);
    return fill;
}

// A fill that the machine disturbed does not change the middle.
Singles summed_up(const Contender &contender, const std::vector<Fill> &fills)
{
    Singles singles = {contender.name(), contender.grows(), {}, 0};
    for (size_t place = 0; place < fills[0].size(); place++) {
        std::vector<double> at_place;
        for (const Fill &fill : fills)
            at_place.push_back(fill[place]);
        singles.middle.push_back(median(at_place));
    }
    for (const Fill &fill : fills)
        singles.largest = std::max(singles.largest, fill.back());
    return singles;
}

} // namespace

Rounds measure_rounds(const Contenders &contenders, const Work &work, size_t rounds)
{
    Rounds result;
    result.operations = {"fill, growing", "fill, reserved", "find present",           "find absent",
                         "find of key 0", "change",         "remove and define again"};
    result.contenders = names_of(contenders);
    result.ns.assign(OPERATIONS, std::vector<std::vector<double>>(contenders.size()));
    for (size_t round = 0; round < rounds; round++)
        for (int operation = 0; operation < OPERATIONS; operation++)
            one_operation(result, static_cast<Operation>(operation), round, contenders, work);
    return result;
}

std::vector<Singles> measure_singles(const Contenders &contenders, const Work &work, double &clock_ns)
{
    double tick = tick_length();
    std::vector<double> clock;
    std::vector<std::vector<Fill>> fills(contenders.size());
    for (size_t fill = 0; fill < work.fills; fill++) {
        clock.push_back(empty_reading() * tick);
        for (size_t i = 0; i < contenders.size(); i++) {
            size_t k = (i + fill) % contenders.size();
            fills[k].push_back(one_fill(*contenders[k], work, tick));
        }
    }
    clock_ns = median(clock);
    std::vector<Singles> result;
    for (size_t k = 0; k < contenders.size(); k++)
        result.push_back(summed_up(*contenders[k], fills[k]));
    return result;
}
