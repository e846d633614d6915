// What every contender does. Whole batches, so that no dispatch is timed; and single defines.
#ifndef CONTENDER_H
#define CONTENDER_H

#include <cstdint>
#include <memory>
#include <string>
#include <vector>

#include "work.h"

class Contender {
public:
    virtual ~Contender() = default;
    virtual std::string name() const = 0;
    // Whether it starts small and rehashes on the way.
    virtual bool grows() const { return true; }
    // Empty again, with room for n keys from the start, or for none.
    virtual void start(size_t n) = 0;
    // Each answers a sum that must be the same for all contenders.
    virtual uint64_t define_all(const Keys &keys) = 0;
    virtual uint64_t find_all(const Keys &keys) = 0;
    virtual uint64_t change_all(const Keys &keys, uint32_t salt) = 0;
    virtual uint64_t renew_all(const Keys &keys) = 0;
    virtual bool define_one(uint32_t key, uint32_t value) = 0;
};

using Contenders = std::vector<std::unique_ptr<Contender>>;

// This store and the limit, with the record to open them with.
std::unique_ptr<Contender> make_store(kt_record record);
std::unique_ptr<Contender> make_limit(kt_record record);

std::unique_ptr<Contender> make_unordered_map();
std::unique_ptr<Contender> make_flat_hash_map();
std::unique_ptr<Contender> make_cuckoohash_map();
std::unique_ptr<Contender> make_uthash();
std::unique_ptr<Contender> make_rust_map();

#endif
