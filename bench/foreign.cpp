#include "foreign.h"

#include "contender.h"

namespace {

#define MAP_CALLS(peer)                                                                                                \
    static constexpr auto make = peer##_new;                                                                           \
    static constexpr auto free = peer##_free;                                                                          \
    static constexpr auto define_all = peer##_define_all;                                                              \
    static constexpr auto find_all = peer##_find_all;                                                                  \
    static constexpr auto change_all = peer##_change_all;                                                              \
    static constexpr auto renew_all = peer##_renew_all;                                                                \
    static constexpr auto define_one = peer##_define_one;

struct Uthash {
    static constexpr auto name = "uthash";
    MAP_CALLS(ut_map)
};

struct RustMap {
    static constexpr auto name = "Rust HashMap";
    MAP_CALLS(rust_map)
};

template <class Calls> class Foreign : public Contender {
public:
    Foreign() : map_(Calls::make(0)) {}
    Foreign(const Foreign &) = delete;
    Foreign &operator=(const Foreign &) = delete;
    ~Foreign() override { Calls::free(map_); }

    std::string name() const override { return Calls::name; }

    void start(size_t n) override
    {
        Calls::free(map_);
        map_ = Calls::make(n);
    }

    uint64_t define_all(const Keys &keys) override { return Calls::define_all(map_, keys.data(), keys.size()); }
    uint64_t find_all(const Keys &keys) override { return Calls::find_all(map_, keys.data(), keys.size()); }
    uint64_t change_all(const Keys &keys, uint32_t salt) override
    {
        return Calls::change_all(map_, keys.data(), keys.size(), salt);
    }
    uint64_t renew_all(const Keys &keys) override { return Calls::renew_all(map_, keys.data(), keys.size()); }
    bool define_one(uint32_t key, uint32_t value) override { return Calls::define_one(map_, key, value) != 0; }

private:
    void *map_;
};

} // namespace

std::unique_ptr<Contender> make_uthash()
{
    return std::make_unique<Foreign<Uthash>>();
}

std::unique_ptr<Contender> make_rust_map()
{
    return std::make_unique<Foreign<RustMap>>();
}
