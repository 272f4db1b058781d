// Counting as textbooks give it, in whole numbers: exact, and plain enough to be read at a glance.
#ifndef TEXTBOOK_HPP
#define TEXTBOOK_HPP

#include "data.hpp"

#include <algorithm>
#include <iterator>
#include <numeric>
#include <set>

namespace textbook
{

using Count = std::uint64_t;

// Slicing: the points cut the box into slices along z, and in each slice the area is a walk along
// x with the least y so far.
inline Count total(std::vector<Point> points, Point reference)
{
    std::sort(points.begin(), points.end(), [](Point p, Point q) { return p[2] < q[2]; });
    std::vector<Point> line;
    line.reserve(points.size());
    Count total = 0;
    for (std::size_t i = 0; i < points.size(); i++) {
        Point p = points[i];
        auto later = [](Point q, Point e) { return q[0] < e[0]; };
        line.insert(std::upper_bound(line.begin(), line.end(), p, later), p);
        std::uint32_t top = i + 1 < points.size() ? points[i + 1][2] : reference[2];
        std::uint32_t least = reference[1];
        Count area = 0;
        for (std::size_t k = 0; k < line.size(); k++) {
            std::uint32_t end = k + 1 < line.size() ? line[k + 1][0] : reference[0];
            least = std::min(least, line[k][1]);
            area += Count(end - line[k][0]) * (reference[1] - least);
        }
        total += area * (top - p[2]);
    }
    return total;
}

// Each contribution is the total less the total without the point.
inline std::vector<Count> contributions(const std::vector<Point> &points, Point reference)
{
    Count all = total(points, reference);
    std::vector<Count> result;
    for (std::size_t i = 0; i < points.size(); i++) {
        std::vector<Point> others = points;
        others.erase(others.begin() + static_cast<std::ptrdiff_t>(i));
        result.push_back(all - total(std::move(others), reference));
    }
    return result;
}

// The same numbers sooner, for the comparisons of the benchmark: in each strip of each slice the
// cells between the least and the second least y are its owner's alone. It is held against the
// two above before it is relied on.
inline std::vector<Count> alone(const std::vector<Point> &points, Point reference)
{
    struct Owned {
        Point at;
        std::size_t owner;
    };
    std::vector<std::size_t> order(points.size());
    std::iota(order.begin(), order.end(), std::size_t{0});
    std::stable_sort(order.begin(), order.end(),
                     [&](std::size_t i, std::size_t j) { return points[i][2] < points[j][2]; });
    std::vector<Count> result(points.size());
    std::vector<Owned> line;
    for (std::size_t i = 0; i < order.size(); i++) {
        Point p = points[order[i]];
        auto later = [](Point q, const Owned &e) { return q[0] < e.at[0]; };
        line.insert(std::upper_bound(line.begin(), line.end(), p, later), Owned{p, order[i]});
        std::uint32_t top = i + 1 < order.size() ? points[order[i + 1]][2] : reference[2];
        std::uint32_t least = reference[1], second = reference[1];
        std::size_t owner = 0;
        for (std::size_t k = 0; k < line.size() && top > p[2]; k++) {
            std::uint32_t end = k + 1 < line.size() ? line[k + 1].at[0] : reference[0];
            std::uint32_t y = line[k].at[1];
            if (y < least) {
                second = least;
                least = y;
                owner = line[k].owner;
            } else {
                second = std::min(second, y);
            }
            result[owner] += Count(end - line[k].at[0]) * (second - least) * (top - p[2]);
        }
    }
    return result;
}

// The cells of one layer that some point dominates. The points ascend on x; any may be past the
// reference.
inline Count area(const std::vector<Point> &points, Point reference, std::uint32_t layer)
{
    std::uint32_t from = 0, least = reference[1];
    Count area = 0;
    for (const Point &p : points) {
        if (p[0] >= reference[0])
            break;
        if (p[2] > layer || p[1] >= least)
            continue;
        area += Count(p[0] - from) * (reference[1] - least);
        from = p[0];
        least = p[1];
    }
    return area + Count(reference[0] - from) * (reference[1] - least);
}

// The volume in doubles: for each distinct z below the reference's, ascending, area times height is
// added. A product is exact in whole numbers and is rounded as it becomes a double; the sum is
// rounded again.
inline double volume(std::vector<Point> points, Point reference)
{
    std::sort(points.begin(), points.end());
    std::set<std::uint32_t> layers;
    for (const Point &p : points)
        if (p[2] < reference[2])
            layers.insert(p[2]);
    double sum = 0;
    for (auto layer = layers.begin(); layer != layers.end(); ++layer) {
        auto next = std::next(layer);
        std::uint32_t top = next != layers.end() ? *next : reference[2];
        sum += static_cast<double>(area(points, reference, *layer) * (top - *layer));
    }
    return sum;
}

// How many points no other one beats, being at most equal on all axes and smaller on at least one.
inline Count front(const std::vector<Point> &points)
{
    auto beats = [](Point p, Point q) {
        return p[0] <= q[0] && p[1] <= q[1] && p[2] <= q[2] && p != q;
    };
    return static_cast<Count>(std::count_if(points.begin(), points.end(), [&](Point q) {
        return std::none_of(points.begin(), points.end(), [&](Point p) { return beats(p, q); });
    }));
}

// The orders of the axes by their letters: which old axis comes first, second and third.
inline const std::array<std::string, 6> orders{"xyz", "xzy", "yxz", "yzx", "zxy", "zyx"};

// The old axis that comes at this place.
inline std::size_t old_axis(std::uint64_t order, std::size_t place)
{
    return static_cast<std::size_t>(orders[order][place] - 'x');
}

inline Point rearranged(std::uint64_t order, Point p)
{
    return {p[old_axis(order, 0)], p[old_axis(order, 1)], p[old_axis(order, 2)]};
}

// Sum, least, greatest, median, share and audits, in the order of ta_figures_answer.
using Figures = std::array<std::uint64_t, 6>;

// The median has fewer than half of the totals below it, and at least half are at most equal to it.
// The share is rounded to the nearest, a tie to the even number.
inline Figures figures(const std::vector<Count> &totals, Count cells, bool audits)
{
    using Wide = unsigned __int128;
    auto twice = [&](auto is) { return 2 * std::count_if(totals.begin(), totals.end(), is); };
    auto all = static_cast<std::ptrdiff_t>(totals.size());
    Count median = *std::find_if(totals.begin(), totals.end(), [&](Count total) {
        return twice([&](Count other) { return other < total; }) < all &&
               twice([&](Count other) { return other <= total; }) >= all;
    });
    Wide exact = Wide{median} * 1000000;
    Count share = static_cast<Count>(exact / cells);
    Wide behind = 2 * (exact % cells);
    if (behind > cells || (behind == cells && share % 2 == 1))
        share++;
    return {std::accumulate(totals.begin(), totals.end(), Count{0}),
            *std::min_element(totals.begin(), totals.end()),
            *std::max_element(totals.begin(), totals.end()),
            median,
            share,
            audits};
}

// Four axes: total and contributions, one behind the other, of any points, past the reference too.
// The points cut the box into slices along w, and in each slice those passed are counted on the
// three other axes. A point past the reference stands for one at it.
inline std::vector<Count> four_axes(std::vector<Point4> points, Point4 reference)
{
    for (Point4 &p : points)
        for (std::size_t axis = 0; axis < 4; axis++)
            p[axis] = std::min(p[axis], reference[axis]);
    std::vector<std::size_t> order(points.size());
    std::iota(order.begin(), order.end(), std::size_t{0});
    std::sort(order.begin(), order.end(),
              [&](std::size_t i, std::size_t j) { return points[i][3] < points[j][3]; });
    Point slice_reference{reference[0], reference[1], reference[2]};
    std::vector<Point> passed;
    std::vector<Count> result(points.size() + 1);
    for (std::size_t i = 0; i < order.size(); i++) {
        Point4 p = points[order[i]];
        passed.push_back(Point{p[0], p[1], p[2]});
        std::uint32_t top = i + 1 < order.size() ? points[order[i + 1]][3] : reference[3];
        if (top == p[3])
            continue;
        result[0] += total(passed, slice_reference) * (top - p[3]);
        std::vector<Count> own = alone(passed, slice_reference);
        for (std::size_t k = 0; k < own.size(); k++)
            result[1 + order[k]] += own[k] * (top - p[3]);
    }
    return result;
}

// The same, cell by cell.
inline std::vector<Count> cells(const std::vector<Point4> &points, Point4 reference)
{
    std::vector<Count> result(points.size() + 1);
    Point4 cell;
    for (cell[0] = 0; cell[0] < reference[0]; cell[0]++)
        for (cell[1] = 0; cell[1] < reference[1]; cell[1]++)
            for (cell[2] = 0; cell[2] < reference[2]; cell[2]++)
                for (cell[3] = 0; cell[3] < reference[3]; cell[3]++) {
                    std::size_t by = 0, last = 0;
                    for (std::size_t i = 0; i < points.size(); i++)
                        if (dominates<4>(points[i], cell)) {
                            by++;
                            last = i;
                        }
                    result[0] += by > 0;
                    if (by == 1)
                        result[1 + last]++;
                }
    return result;
}

} // namespace textbook

#endif
