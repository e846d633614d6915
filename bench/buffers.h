// Four lent buffers, each on its own cache lines.
#ifndef BUFFERS_H
#define BUFFERS_H

#include <cstddef>
#include <cstdint>
#include <cstdlib>
#include <memory>

#include "kt.h"

class Words {
public:
    explicit Words(size_t n) : n_(n), words_(room_for(n)) {}
    uint32_t *data() const { return words_.get(); }
    size_t size() const { return n_; }

private:
    struct Free {
        void operator()(uint32_t *p) const { std::free(p); }
    };
    static constexpr size_t LINE = 64;
    static uint32_t *room_for(size_t n)
    {
        size_t bytes = (n * sizeof(uint32_t) + LINE) / LINE * LINE;
        auto *p = static_cast<uint32_t *>(std::aligned_alloc(LINE, bytes));
        if (!p)
            std::abort();
        return p;
    }
    size_t n_;
    std::unique_ptr<uint32_t, Free> words_;
};

struct Buffers {
    explicit Buffers(const kt_record &c)
        : t0(2 * size_t{c.r}), t1(2 * size_t{c.r}), queue(3 * size_t{c.queue_room}),
          detector(2 * size_t{c.detector_room})
    {
    }
    Words t0, t1, queue, detector;
};

#endif
