// The C++ peers, used as their users do: try_emplace, find, erase by iterator; libcuckoo by its own calls.
#include <absl/container/flat_hash_map.h>
#include <libcuckoo/cuckoohash_map.hh>
#include <unordered_map>
#include <utility>

#include "contender.h"

namespace {

// std::unordered_map and absl::flat_hash_map have the same calls.
template <class Map> class StandardMap : public Contender {
public:
    explicit StandardMap(const char *name) : name_(name) {}
    std::string name() const override { return name_; }

    void start(size_t n) override
    {
        map_ = Map();
        if (n > 0)
            map_.reserve(n);
    }

    uint64_t define_all(const Keys &keys) override
    {
        uint64_t taken = 0;
        for (uint32_t key : keys)
            taken += define_one(key, value_of(key, 0));
        return taken;
    }

    uint64_t find_all(const Keys &keys) override
    {
        uint64_t sum = 0;
        for (uint32_t key : keys) {
            auto it = map_.find(key);
            sum += it != map_.end() ? it->second : 1;
        }
        return sum;
    }

    uint64_t change_all(const Keys &keys, uint32_t salt) override
    {
        uint64_t sum = 0;
        for (uint32_t key : keys) {
            auto it = map_.find(key);
            sum += it != map_.end() ? std::exchange(it->second, value_of(key, salt)) : 1;
        }
        return sum;
    }

    uint64_t renew_all(const Keys &keys) override
    {
        uint64_t sum = 0;
        for (uint32_t key : keys) {
            sum += remove(key);
            sum += define_one(key, value_of(key, 0));
        }
        return sum;
    }

    bool define_one(uint32_t key, uint32_t value) final { return map_.try_emplace(key, value).second; }

private:
    uint32_t remove(uint32_t key)
    {
        auto it = map_.find(key);
        if (it == map_.end())
            return 1;
        uint32_t old = it->second;
        map_.erase(it);
        return old;
    }

    const char *name_;
    Map map_;
};

class CuckooMap : public Contender {
public:
    std::string name() const override { return "libcuckoo"; }

    void start(size_t n) override { map_ = n > 0 ? std::make_unique<Map>(n) : std::make_unique<Map>(0); }

    uint64_t define_all(const Keys &keys) override
    {
        uint64_t taken = 0;
        for (uint32_t key : keys)
            taken += map_->insert(key, value_of(key, 0));
        return taken;
    }

    uint64_t find_all(const Keys &keys) override
    {
        uint64_t sum = 0;
        for (uint32_t key : keys) {
            uint32_t value = 0;
            sum += map_->find(key, value) ? value : 1;
        }
        return sum;
    }

    uint64_t change_all(const Keys &keys, uint32_t salt) override
    {
        uint64_t sum = 0;
        for (uint32_t key : keys) {
            uint32_t old = 1;
            map_->update_fn(key, [&](uint32_t &value) { old = std::exchange(value, value_of(key, salt)); });
            sum += old;
        }
        return sum;
    }

    uint64_t renew_all(const Keys &keys) override
    {
        uint64_t sum = 0;
        for (uint32_t key : keys) {
            sum += remove(key);
            sum += map_->insert(key, value_of(key, 0));
        }
        return sum;
    }

    bool define_one(uint32_t key, uint32_t value) final { return map_->insert(key, value); }

private:
    using Map = libcuckoo::cuckoohash_map<uint32_t, uint32_t>;

    uint32_t remove(uint32_t key)
    {
        uint32_t old = 1;
        map_->erase_fn(key, [&](uint32_t &value) {
            old = value;
            return true;
        });
        return old;
    }

    std::unique_ptr<Map> map_ = std::make_unique<Map>();
};

} // namespace

std::unique_ptr<Contender> make_unordered_map()
{
    return std::make_unique<StandardMap<std::unordered_map<uint32_t, uint32_t>>>("std::unordered_map");
}

std::unique_ptr<Contender> make_flat_hash_map()
{
    return std::make_unique<StandardMap<absl::flat_hash_map<uint32_t, uint32_t>>>("absl::flat_hash_map");
}

std::unique_ptr<Contender> make_cuckoohash_map()
{
    return std::make_unique<CuckooMap>();
}
