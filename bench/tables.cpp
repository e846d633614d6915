// This store and the limit: one user's code for both.
#include "tables.h"

#include "buffers.h"
#include "contender.h"

namespace {

template <class Calls> class Table : public Contender {
public:
    explicit Table(kt_record numbers) : numbers_(numbers), record_(numbers), buffers_(numbers) { start(0); }

    std::string name() const override { return Calls::name; }
    bool grows() const override { return false; }

    void start(size_t) override
    {
        Lent m(buffers_);
        record_ = Calls::open(numbers_, m.t0, m.n0, m.t1, m.n1, m.q, m.nq, m.d, m.nd).record;
    }

    uint64_t define_all(const Keys &keys) override
    {
        Lent m(buffers_);
        kt_record c = record_;
        uint64_t taken = 0;
        for (uint32_t key : keys)
            taken += define(m, c, key, value_of(key, 0));
        record_ = c;
        return taken;
    }

    // A find gives back the record that it got, so a user keeps his own.
    uint64_t find_all(const Keys &keys) override
    {
        Lent m(buffers_);
        const kt_record c = record_;
        uint64_t sum = 0;
        for (uint32_t key : keys) {
            kt_answer a = Calls::find(c, key, m.t0, m.n0, m.t1, m.n1, m.q, m.nq, m.d, m.nd);
            sum += a.number == 0 ? a.value : 1;
        }
        return sum;
    }

    uint64_t change_all(const Keys &keys, uint32_t salt) override
    {
        Lent m(buffers_);
        const kt_record c = record_;
        uint64_t sum = 0;
        for (uint32_t key : keys) {
            kt_answer a = Calls::change(c, key, value_of(key, salt), m.t0, m.n0, m.t1, m.n1, m.q, m.nq, m.d, m.nd);
            sum += a.number == 0 ? a.value : 1;
        }
        return sum;
    }

    uint64_t renew_all(const Keys &keys) override
    {
        Lent m(buffers_);
        kt_record c = record_;
        uint64_t sum = 0;
        for (uint32_t key : keys) {
            kt_answer a = Calls::remove(c, key, m.t0, m.n0, m.t1, m.n1, m.q, m.nq, m.d, m.nd);
            c = a.record;
            sum += a.number == 0 ? a.value : 1;
            sum += define(m, c, key, value_of(key, 0));
        }
        record_ = c;
        return sum;
    }

    bool define_one(uint32_t key, uint32_t value) override
    {
        return define(Lent(buffers_), record_, key, value);
    }

private:
    // The pointers and lengths of the buffers, read once.
    struct Lent {
        explicit Lent(const Buffers &b)
            : t0(b.t0.data()), t1(b.t1.data()), q(b.queue.data()), d(b.detector.data()), n0(b.t0.size()),
              n1(b.t1.size()), nq(b.queue.size()), nd(b.detector.size())
        {
        }
        uint32_t *t0, *t1, *q, *d;
        size_t n0, n1, nq, nd;
    };

    static bool define(const Lent &m, kt_record &c, uint32_t key, uint32_t value)
    {
        kt_answer a = Calls::define(c, key, value, m.t0, m.n0, m.t1, m.n1, m.q, m.nq, m.d, m.nd);
        c = a.record;
        return a.number == 0;
    }

    const kt_record numbers_;
    kt_record record_;
    Buffers buffers_;
};

} // namespace

std::unique_ptr<Contender> make_store(kt_record record)
{
    return std::make_unique<Table<StoreCalls>>(record);
}

std::unique_ptr<Contender> make_limit(kt_record record)
{
    return std::make_unique<Table<LimitCalls>>(record);
}
