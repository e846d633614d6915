#include "spread.h"

#include <algorithm>
#include <cmath>
#include <cstddef>

double sorted_quantile(const std::vector<double> &sample, double part)
{
    double n = static_cast<double>(sample.size());
    double place = std::ceil(part * n) - 1;
    return sample[static_cast<size_t>(std::clamp(place, 0.0, n - 1))];
}

double quantile(std::vector<double> sample, double part)
{
    std::sort(sample.begin(), sample.end());
    return sorted_quantile(sample, part);
}

double median(const std::vector<double> &sample)
{
    return quantile(sample, 0.5);
}
