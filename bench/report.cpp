#include "report.h"

#include <algorithm>
#include <cstdarg>
#include <cstdio>
#include <cstdlib>

#include "spread.h"

namespace {

constexpr size_t STORE = 0;
constexpr size_t LIMIT = 1;

std::string text(const char *format, ...) __attribute__((format(printf, 1, 2)));

std::string text(const char *format, ...)
{
    char line[400];
    va_list args;
    va_start(args, format);
    std::vsnprintf(line, sizeof line, format, args);
    va_end(args);
    return line;
}

// 12345 as 12,345.
std::string grouped(double x)
{
    std::string digits = text("%.0f", x);
    for (size_t i = digits.size(); i > 3; i -= 3)
        digits.insert(i - 3, ",");
    return digits;
}

void row(const std::vector<std::string> &cells)
{
    for (const std::string &cell : cells)
        std::printf("| %s ", cell.c_str());
    std::printf("|\n");
}

void head(const std::vector<std::string> &cells)
{
    row(cells);
    row(std::vector<std::string>(cells.size(), "---"));
}

// The ratio of two contenders in each round.
std::vector<double> ratios(const Rounds &rounds, size_t operation, size_t above, size_t below)
{
    std::vector<double> result;
    const auto &ns = rounds.ns[operation];
    for (size_t i = 0; i < ns[above].size(); i++)
        result.push_back(ns[above][i] / ns[below][i]);
    return result;
}

double ratio(const Rounds &rounds, size_t operation, size_t above, size_t below)
{
    return median(ratios(rounds, operation, above, below));
}

std::string with_quartiles(const std::vector<double> &sample)
{
    return text("%.2f (%.2f..%.2f)", median(sample), quantile(sample, 0.25), quantile(sample, 0.75));
}

size_t contender(const Rounds &rounds, const std::string &name)
{
    const auto &names = rounds.contenders;
    auto at = std::find(names.begin(), names.end(), name);
    if (at == names.end())
        std::abort();
    return static_cast<size_t>(at - names.begin());
}

// ---- goals

struct Goal {
    std::string what;
    std::string figures[2]; // by work
    std::string limit[2];   // what the limit reaches in the store's place
    bool met = true;
};

std::string mark(bool met)
{
    return met ? "met" : "**not met**";
}

// The operation in which a table is slowest beside the limit.
std::string worst_to_limit(const Measured &m, double &worst)
{
    std::string name;
    for (const Rounds *rounds : {&m.rounds, &m.own})
        for (size_t operation = 0; operation < rounds->operations.size(); operation++) {
            double x = ratio(*rounds, operation, STORE, LIMIT);
            if (x > worst) {
                worst = x;
                name = rounds->operations[operation];
            }
        }
    return text("%.3f (%s)", worst, name.c_str());
}

Goal within_limit(const Report &report)
{
    Goal goal = {"every call takes at most 1.15 times the limit's time; the largest ratio", {}, {}, true};
    for (size_t w = 0; w < 2; w++) {
        double worst = 0;
        goal.figures[w] = worst_to_limit(report.measured[w], worst);
        goal.met &= worst <= 1.15;
    }
    return goal;
}

double to_peer(const Rounds &rounds, int operation, size_t table, const std::string &peer)
{
    return ratio(rounds, static_cast<size_t>(operation), table, contender(rounds, peer));
}

// This store's time by a peer's.
Goal at_most(const Report &report, const std::string &what, int operation, const std::string &peer, double bound)
{
    Goal goal = {what, {}, {}, true};
    for (size_t w = 0; w < 2; w++) {
        const Rounds &rounds = report.measured[w].rounds;
        double x = to_peer(rounds, operation, STORE, peer);
        goal.figures[w] = text("%.3f", x);
        goal.limit[w] = text("%.3f", to_peer(rounds, operation, LIMIT, peer));
        goal.met &= x <= bound;
    }
    return goal;
}

// A goal that is set for the second work only: the first figure is information.
Goal at_most_b(const Report &report, const std::string &what, int operation, const std::string &peer, double bound)
{
    Goal goal = at_most(report, what, operation, peer, bound);
    goal.met = to_peer(report.measured[1].rounds, operation, STORE, peer) <= bound;
    for (std::string *figure : {&goal.figures[0], &goal.limit[0]})
        *figure = "(" + *figure + ")";
    return goal;
}

const Singles &least_growing(const std::vector<Singles> &singles)
{
    const Singles *least = nullptr;
    for (const Singles &s : singles)
        if (s.grows && (!least || s.middle.back() < least->middle.back()))
            least = &s;
    return *least;
}

// The store's largest by the smallest largest of the growing peers.
Goal largest_define(const Report &report)
{
    Goal goal = {"largest single define, middle of all fills: at most 0.2 of every growing peer's", {}, {}, true};
    for (size_t w = 0; w < 2; w++) {
        const auto &singles = report.measured[w].singles;
        const Singles &peer = least_growing(singles);
        double x = singles[STORE].middle.back() / peer.middle.back();
        goal.figures[w] = text("%.3f (%s)", x, peer.name.c_str());
        goal.limit[w] = text("%.3f", singles[LIMIT].middle.back() / peer.middle.back());
        goal.met &= x <= 0.2;
    }
    return goal;
}

std::vector<Goal> goals(const Report &report)
{
    const std::string std_map = "std::unordered_map", absl = "absl::flat_hash_map", cuckoo = "libcuckoo";
    return {
        within_limit(report),
        at_most(report, "find present: at most 0.5 of libcuckoo", FIND_PRESENT, cuckoo, 0.5),
        at_most(report, "find absent: at most 0.5 of libcuckoo", FIND_ABSENT, cuckoo, 0.5),
        at_most(report, "find absent: less than std::unordered_map", FIND_ABSENT, std_map, 0.9999),
        at_most_b(report, "find present: at most 1.2 times std::unordered_map on b", FIND_PRESENT, std_map, 1.2),
        at_most(report, "find present: at most 2.5 times absl::flat_hash_map", FIND_PRESENT, absl, 2.5),
        at_most(report, "fill: at most 1.5 times std::unordered_map that grows", FILL, std_map, 1.5),
        at_most(report, "fill: at most 1.5 times std::unordered_map that has reserved", FILL_RESERVED, std_map, 1.5),
        largest_define(report),
    };
}

void print_goals(const Report &report)
{
    std::printf("## Goals\n\nTimes of this store divided by the other's time, the middle of all rounds, in both works; beside"
                " it what the limit reaches.\n\n");
    head({"goal", "a", "b", "", "the limit, a", "the limit, b"});
    for (const Goal &goal : goals(report))
        row({goal.what, goal.figures[0], goal.figures[1], mark(goal.met), goal.limit[0], goal.limit[1]});
    std::printf("\n");
}

// What the store takes for one operation, by what a contender takes for another.
std::string across(const Rounds &rounds, size_t mine, const std::string &name, size_t theirs)
{
    const auto &above = rounds.ns[mine][STORE], &below = rounds.ns[theirs][contender(rounds, name)];
    std::vector<double> result;
    for (size_t i = 0; i < above.size(); i++)
        result.push_back(above[i] / below[i]);
    return with_quartiles(result);
}

void print_interface(const Report &report)
{
    std::printf("### What the interface takes\n\nA find of key 0 is refused with number 4 before a cell is read. It passes the"
                " record and the four buffers, tests both, and gives the record back, as every call does. Its time, divided"
                " by the time of another find:\n\n");
    head({"find of key 0, by", "a", "b"});
    struct Other {
        const char *name;
        Operation operation;
    };
    for (Other other : {Other{"this store", FIND_PRESENT}, Other{"absl::flat_hash_map", FIND_PRESENT},
                        Other{"std::unordered_map", FIND_ABSENT}, Other{"libcuckoo", FIND_PRESENT}}) {
        const Rounds &a = report.measured[0].rounds, &b = report.measured[1].rounds;
        row({a.operations[other.operation] + ", " + other.name, across(a, FIND_BAD, other.name, other.operation),
             across(b, FIND_BAD, other.name, other.operation)});
    }
    std::printf("\nThe rest of a find is two products, two remainders by p, two divisions by r and two cells. What the limit"
                " reaches, beside each goal above, is what the rules and this interface leave to be gained.\n\n");
}

// ---- tables

void print_rounds(const Rounds &rounds)
{
    std::vector<std::string> names = {"call", "this store, ns"};
    names.insert(names.end(), rounds.contenders.begin() + 1, rounds.contenders.end());
    head(names);
    for (size_t operation = 0; operation < rounds.operations.size(); operation++) {
        std::vector<std::string> cells = {rounds.operations[operation],
                                          text("%.1f", median(rounds.ns[operation][STORE]))};
        for (size_t k = 1; k < rounds.contenders.size(); k++)
            cells.push_back(with_quartiles(ratios(rounds, operation, k, STORE)));
        row(cells);
    }
    std::printf("\n");
}

void print_nanoseconds(const Rounds &rounds)
{
    std::vector<std::string> names = {"call"};
    names.insert(names.end(), rounds.contenders.begin(), rounds.contenders.end());
    head(names);
    for (size_t operation = 0; operation < rounds.operations.size(); operation++) {
        std::vector<std::string> cells = {rounds.operations[operation]};
        for (const auto &ns : rounds.ns[operation])
            cells.push_back(text("%.1f", median(ns)));
        row(cells);
    }
    std::printf("\n");
}

void print_to_limit(const Report &report)
{
    std::printf("## This store and the limit\n\nThe store's time divided by the limit's, with quartiles. Open, check and"
                " settle have no peer.\n\n");
    head({"call", "a", "b"});
    const Measured &a = report.measured[0], &b = report.measured[1];
    for (auto part : {&Measured::rounds, &Measured::own})
        for (size_t operation = 0; operation < (a.*part).operations.size(); operation++)
            row({(a.*part).operations[operation], with_quartiles(ratios(a.*part, operation, STORE, LIMIT)),
                 with_quartiles(ratios(b.*part, operation, STORE, LIMIT))});
    std::printf("\n");
}

void print_singles(const Measured &m)
{
    std::printf("### Single defines in a growing fill, %s: %s\n\n", m.work.letter.c_str(), m.work.title.c_str());
    std::printf("Nanoseconds, the middle of %zu fills, the clock's own %.0f among them.\n\n", m.work.fills,
                m.clock_ns);
    head({"", "middle", "99%", "99.9%", "largest", "largest of all fills"});
    for (const Singles &s : m.singles)
        row({s.name, grouped(sorted_quantile(s.middle, 0.5)), grouped(sorted_quantile(s.middle, 0.99)),
             grouped(sorted_quantile(s.middle, 0.999)), grouped(s.middle.back()), grouped(s.largest)});
    std::printf("\n");
}

void print_work(const Measured &m)
{
    std::printf("## Work %s: %s\n\n", m.work.letter.c_str(), m.work.title.c_str());
    std::printf("The peers' columns are their time divided by this store's in the same round, with quartiles:"
                " above 1 this store is faster.\n\n");
    print_rounds(m.rounds);
    std::printf("The same in nanoseconds for a call, the middle of %zu rounds. They hold for this machine only.\n\n",
                m.rounds.ns[0][0].size());
    print_nanoseconds(m.rounds);
    std::printf("Checksum of all answers: %016llx, the same for all contenders.\n\n",
                static_cast<unsigned long long>(m.rounds.checksum));
}

std::string tried_cell(const Tried &tried)
{
    return text("%s, %u, %.2f", grouped(static_cast<double>(tried.refused)).c_str(), tried.waiting,
                static_cast<double>(tried.steps) / static_cast<double>(tried.defines));
}

void print_scan(const Report &report)
{
    std::printf("## Q, D, L and the home functions\n\n");
    std::printf("Q %u, D %u, L %u. Tried with the home functions of the seeds 1 to %llu, all keys defined, then each"
                " removed and defined again: defines refused, most entries that waited, steps for a define.\n\n",
                report.rooms.q, report.rooms.d, report.rooms.l, static_cast<unsigned long long>(report.seeds));
    head({"Q", "D", "L", "a", "b"});
    for (const ScanRow &s : report.scan)
        row({text("%u", s.rooms.q), text("%u", s.rooms.d), text("%u", s.rooms.l), tried_cell(s.tried[0]),
             tried_cell(s.tried[1])});
    std::printf("\nEvery accepted define and remove clears the queue and the detector past their lengths, so small rooms are fast:"
                " taken are the least Q and D at L %u with which no random key is refused and no chain is stopped that a"
                " larger D would let run.\n", report.rooms.l);
    std::printf("\nRail keys are a lattice, and so are their homes: %llu of the %llu seeds put more of them into a group"
                " than it has cells, or leave some waiting (random keys: %llu). Whoever opens a table tries other"
                " functions then; here the first seed that fits both works is taken, %llu. No measured define is"
                " refused: the run fails otherwise.\n\n",
                static_cast<unsigned long long>(report.unfit[0]), static_cast<unsigned long long>(report.seeds),
                static_cast<unsigned long long>(report.unfit[1]), static_cast<unsigned long long>(report.seed));
}

void print_compared(const Compared &compared)
{
    std::printf("## The limit answers as the store does\n\n");
    std::printf("Before anything is timed, %s random calls run on both. Every answer field and record is compared after"
                " each; every word after each call on small stores, and after every 1,000 keys on stores of the"
                " measured sizes. Calls by the number that they were answered with:\n\n",
                grouped(static_cast<double>(compared.calls)).c_str());
    std::vector<std::string> numbers, counts;
    for (size_t i = 0; i < compared.by_number.size(); i++) {
        numbers.push_back(text("%zu", i));
        counts.push_back(grouped(static_cast<double>(compared.by_number[i])));
    }
    head(numbers);
    row(counts);
    std::printf("\n");
}

void write_file(const Singles &s, const std::string &path)
{
    std::FILE *file = std::fopen(path.c_str(), "w");
    if (!file) {
        std::perror(path.c_str());
        std::exit(1);
    }
    size_t n = s.middle.size();
    for (size_t left = n; left >= 1; left -= std::max<size_t>(left / 40, 1))
        std::fprintf(file, "%.1f %.9f\n", s.middle[n - left], static_cast<double>(left) / static_cast<double>(n));
    std::fclose(file);
}

} // namespace

void print_report(const Report &report)
{
    print_goals(report);
    print_interface(report);
    print_to_limit(report);
    for (const Measured &m : report.measured)
        print_work(m);
    std::printf("## Single defines\n\n![The part of the single defines of a fill that took at least a time](benchmarks.svg)\n\n");
    std::printf("The peers start empty, with no reserve, and rehash on the way. A fill during which the machine did"
                " something else pollutes the largest of all, hence the middle of the fills at each place of the"
                " distribution: of their least defines, of their next ones, up to their largest.\n\n");
    for (const Measured &m : report.measured)
        print_singles(m);
    print_scan(report);
    print_compared(report.compared);
}

void write_points(const Report &report, const std::string &folder)
{
    for (const Measured &m : report.measured)
        for (size_t k = 0; k < m.singles.size(); k++)
            write_file(m.singles[k], folder + "/" + m.work.letter + std::to_string(k) + ".points");
}
