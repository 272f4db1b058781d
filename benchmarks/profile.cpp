// Makes one call of the library again and again, for a profiler to look at.
//
//   profile CALL SET SECONDS      CALL: insert, remove, least, audit, reduce, grid, card or report
//                                 SET: cliff, spherical or uniform
//
// Prints the microseconds that a call took. The archives have 511 trials before an insertion, none
// before a grid of 512 and 512 before the other calls; each call has a fresh copy.
#include "cases.hpp"

#include <chrono>
#include <cstdlib>
#include <iostream>

namespace
{

// Copies without the C library, so that a profile's memcpy is the call's own.
template <class T> [[gnu::noinline]] void refresh(std::vector<T> &to, const std::vector<T> &from)
{
    for (std::size_t i = 0; i < from.size(); i++)
        to[i] = from[i];
}

Case told(const std::string &call, const Story &story)
{
    if (call == "insert")
        return story.insertion();
    if (call == "remove")
        return story.removal();
    if (call == "least" || call == "audit")
        return story.audit();
    if (call == "reduce")
        return story.reduction(1);
    if (call == "grid")
        return story.grid();
    if (call == "card")
        return story.card();
    if (call == "report")
        return story.report();
    throw std::runtime_error("no such call: " + call);
}

std::uint64_t make(char call, State &s, const Case &c)
{
    std::uint64_t *words = s.words.data();
    std::size_t length = s.words.size();
    auto [x, y, z] = c.trial.at;
    switch (call) {
    case 'i':
        return ta_insert(words, length, c.trial.number, x, y, z);
    case 'r':
        return ta_remove(words, length, c.trial.number);
    case 'l':
        return ta_least(words, length, TA_TIE_LOWEST).refusal;
    case 'a':
        return ta_audit(words, length).refusal;
    case 'd':
        return ta_reduce(words, length, c.keep, TA_TIE_LOWEST, s.log.data(), s.log.size()).refusal;
    case 'g':
        return ta_insert_grid(words, length, c.grid.data(), c.grid.size()).stop;
    case 'c':
        return ta_card_load(words, length, c.card.data(), c.card.size()).refusal;
    default:
        return ta_report(words, length, s.out.data(), s.out.size()).refusal;
    }
}

Kind kind_of(const std::string &set)
{
    for (Kind kind : {Kind::cliff, Kind::spherical, Kind::uniform})
        if (name(kind) == set)
            return kind;
    throw std::runtime_error("no such set: " + set);
}

void profile(const std::string &call, const std::string &set, double seconds)
{
    using Clock = std::chrono::steady_clock;
    char which = call == "reduce" ? 'd' : call == "report" ? 'p' : call[0];
    Kind kind = kind_of(set);
    std::vector<Case> cases;
    for (std::uint64_t seed = 0; seed < 8; seed++)
        cases.push_back(
            told(call, Story(make_set(kind, 512, TA_MAX_REFERENCE, kind != Kind::uniform, seed))));
    State state = cases[0].before;
    std::chrono::duration<double> spent{};
    std::size_t calls = 0;
    while (spent.count() < seconds) {
        const Case &c = cases[calls++ % cases.size()];
        refresh(state.words, c.before.words);
        auto start = Clock::now();
        std::uint64_t refusal = make(which, state, c);
        spent += Clock::now() - start;
        if (refusal != 0)
            throw std::runtime_error("refused");
    }
    std::cout << 1e6 * spent.count() / static_cast<double>(calls) << '\n';
}

} // namespace

int main(int argc, char **argv)
{
    if (argc != 4) {
        std::cerr << "usage: profile CALL SET SECONDS\n";
        return 2;
    }
    try {
        profile(argv[1], argv[2], std::strtod(argv[3], nullptr));
    } catch (const std::exception &trouble) {
        std::cerr << "profile: " << trouble.what() << '\n';
        return 1;
    }
    return 0;
}
