// pagmo, the peer: what it is asked for, apart from its headers.
#ifndef PEER_HPP
#define PEER_HPP

#include <cstddef>
#include <memory>
#include <string>
#include <vector>

namespace peer
{

using Points = std::vector<std::vector<double>>;

// A set that is ready to be asked; making it is not timed, and it verifies nothing.
class Ready
{
public:
    Ready(const Points &points, const std::vector<double> &reference);
    ~Ready();
    Ready(const Ready &) = delete;
    Ready &operator=(const Ready &) = delete;

    double total() const;
    std::vector<double> contributions() const;
    std::size_t least() const;
    double exclusive(std::size_t index) const;

private:
    struct Inside;
    std::unique_ptr<Inside> inside;
};

// Drops the least contributor until k points are left. Answers the drops in turn, as indices of
// the points given.
std::vector<std::size_t> reduce(Points points, const std::vector<double> &reference, std::size_t k);

std::string version();

} // namespace peer

#endif
