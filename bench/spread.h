// Middle and spread of a sample.
#ifndef SPREAD_H
#define SPREAD_H

#include <vector>

// The least value that at least the given part of the sample does not exceed.
double quantile(std::vector<double> sample, double part);

// The same of a sample that is sorted.
double sorted_quantile(const std::vector<double> &sample, double part);

double median(const std::vector<double> &sample);

#endif
