// What the run found, as Markdown on standard output, and the points of the plot.
#ifndef REPORT_H
#define REPORT_H

#include <string>
#include <vector>

#include "equal.h"
#include "measure.h"
#include "scan.h"

// All that was measured of one work.
struct Measured {
    Work work;
    Rounds rounds;
    Rounds own;
    std::vector<Singles> singles;
    double clock_ns;
};

// One choice of rooms, tried on both works with all seeds.
struct ScanRow {
    Rooms rooms;
    Tried tried[2];
};

struct Report {
    Compared compared;
    Rooms rooms;
    uint64_t seeds;    // tried in the scan
    uint64_t seed;     // taken for the measurements
    uint64_t unfit[2]; // seeds that do not fit, by work
    std::vector<ScanRow> scan;
    std::vector<Measured> measured; // a, b
};

void print_report(const Report &report);

// One file for each contender: a time, and the part of all defines that took at least as long.
void write_points(const Report &report, const std::string &folder);

#endif
