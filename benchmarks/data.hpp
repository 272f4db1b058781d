// The sets of points, from fixed seeds: the same on every run.
#ifndef DATA_HPP
#define DATA_HPP

#include <algorithm>
#include <array>
#include <cmath>
#include <cstddef>
#include <cstdint>
#include <string>
#include <vector>

template <std::size_t Axes> using PointOn = std::array<std::uint32_t, Axes>;

// The reference is the scale on each axis.
template <std::size_t Axes> struct SetOn {
    PointOn<Axes> reference;
    std::vector<PointOn<Axes>> points;
};

using Point = PointOn<3>;
using Set = SetOn<3>;
using Point4 = PointOn<4>;
using Set4 = SetOn<4>;

// splitmix64
class Random
{
public:
    explicit Random(std::uint64_t seed) : state(seed) {}

    std::uint64_t next()
    {
        state += 0x9e3779b97f4a7c15;
        std::uint64_t z = state;
        z = (z ^ (z >> 30)) * 0xbf58476d1ce4e5b9;
        z = (z ^ (z >> 27)) * 0x94d049bb133111eb;
        return z ^ (z >> 31);
    }

    // From 0 up to, but not including, 1.
    double uniform() { return static_cast<double>(next() >> 11) / 9007199254740992.0; }

    // Normally distributed (Box and Muller), without its sign.
    double normal()
    {
        double u = 1 - uniform();
        double v = uniform();
        return std::fabs(std::sqrt(-2 * std::log(u)) * std::cos(6.283185307179586 * v));
    }

private:
    std::uint64_t state;
};

enum class Kind { cliff, spherical, uniform, spoiled };

inline std::string name(Kind kind)
{
    switch (kind) {
    case Kind::cliff:
        return "cliff";
    case Kind::spherical:
        return "spherical";
    case Kind::uniform:
        return "uniform";
    default:
        return "spherical, one dominated";
    }
}

// Cliff and spherical points as document 000, section V-A, has them; in uniform sets most points
// are dominated.
template <std::size_t Axes> std::array<double, Axes> draw(Kind kind, Random &random);

template <> inline std::array<double, 3> draw(Kind kind, Random &random)
{
    double a = random.normal(), b = random.normal(), c = random.normal();
    switch (kind) {
    case Kind::cliff:
        return {1 - a / std::hypot(a, b), 1 - b / std::hypot(a, b), random.uniform()};
    case Kind::spherical:
    case Kind::spoiled:
        return {a / std::hypot(a, b, c), b / std::hypot(a, b, c), c / std::hypot(a, b, c)};
    default:
        return {random.uniform(), random.uniform(), random.uniform()};
    }
}

// A cliff has two arcs here, one on x and y, one on z and w.
template <> inline std::array<double, 4> draw(Kind kind, Random &random)
{
    double a = random.normal(), b = random.normal(), c = random.normal(), d = random.normal();
    double first = std::hypot(a, b), second = std::hypot(c, d), all = std::hypot(first, second);
    switch (kind) {
    case Kind::cliff:
        return {1 - a / first, 1 - b / first, 1 - c / second, 1 - d / second};
    case Kind::spherical:
    case Kind::spoiled:
        return {a / all, b / all, c / all, d / all};
    default:
        return {random.uniform(), random.uniform(), random.uniform(), random.uniform()};
    }
}

template <std::size_t Axes> bool dominates(const PointOn<Axes> &p, const PointOn<Axes> &q)
{
    for (std::size_t axis = 0; axis < Axes; axis++)
        if (p[axis] > q[axis])
            return false;
    return true;
}

template <std::size_t Axes>
bool stands_alone(const PointOn<Axes> &p, const std::vector<PointOn<Axes>> &others)
{
    for (const PointOn<Axes> &q : others)
        if (dominates<Axes>(p, q) || dominates<Axes>(q, p))
            return false;
    return true;
}

// Coordinates in whole numbers from 0 to the scale. With `alone`, a point that dominates another or
// is dominated is drawn again: rounding to whole numbers can make one so.
template <std::size_t Axes = 3>
SetOn<Axes> make_set(Kind kind, std::size_t size, std::uint32_t scale, bool alone,
                     std::uint64_t seed)
{
    Random random(seed * 1000003 + size * 17 + static_cast<std::uint64_t>(kind));
    SetOn<Axes> set;
    set.reference.fill(scale);
    while (set.points.size() < size) {
        PointOn<Axes> p{};
        std::array<double, Axes> drawn = draw<Axes>(kind, random);
        for (std::size_t axis = 0; axis < Axes; axis++)
            p[axis] = static_cast<std::uint32_t>(drawn[axis] * scale);
        if (!alone || stands_alone<Axes>(p, set.points))
            set.points.push_back(p);
    }
    if (kind == Kind::spoiled)
        for (std::size_t axis = 0; axis < Axes; axis++)
            set.points.back()[axis] = std::min(set.points[0][axis] + 1, scale);
    return set;
}

#endif
