#include "peer.hpp"

#include <numeric>

#include <pagmo/config.hpp>
#include <pagmo/utils/hypervolume.hpp>

namespace peer
{

struct Ready::Inside {
    pagmo::hypervolume set;
    std::vector<double> reference;
};

Ready::Ready(const Points &points, const std::vector<double> &reference)
    : inside(new Inside{pagmo::hypervolume(points, false), reference})
{
    // It may spoil the points: each set is asked once.
    inside->set.set_copy_points(false);
}

Ready::~Ready() = default;

double Ready::total() const { return inside->set.compute(inside->reference); }

std::vector<double> Ready::contributions() const
{
    return inside->set.contributions(inside->reference);
}

std::size_t Ready::least() const
{
    return static_cast<std::size_t>(inside->set.least_contributor(inside->reference));
}

double Ready::exclusive(std::size_t index) const
{
    return inside->set.exclusive(static_cast<unsigned>(index), inside->reference);
}

std::vector<std::size_t> reduce(Points points, const std::vector<double> &reference, std::size_t k)
{
    std::vector<std::size_t> left(points.size()), drops;
    std::iota(left.begin(), left.end(), std::size_t{0});
    while (points.size() > k) {
        std::size_t least = Ready(points, reference).least();
        drops.push_back(left[least]);
        points.erase(points.begin() + static_cast<std::ptrdiff_t>(least));
        left.erase(left.begin() + static_cast<std::ptrdiff_t>(least));
    }
    return drops;
}

std::string version() { return PAGMO_VERSION; }

} // namespace peer
