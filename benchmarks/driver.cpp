// The benchmark: compares every answer with the exact one, times, and prints a table, and one for
// four axes.
//
//   driver [--quick] [CALL]      CALL: the rows of this call alone
//
// Ends with 1 where the library or its yardstick answers wrongly.
#include "cases.hpp"
#include "four.hpp"
#include "peer.hpp"
#include "timing.hpp"
#include "yardstick.h"

#include <cmath>
#include <iostream>
#include <map>
#include <memory>
#include <tuple>

namespace
{

// The two that work on words. The yardstick is in Rust, on four axes in C++.
struct Library {
    const char *name;
    decltype(&ta_insert) insert;
    decltype(&ta_insert_grid) insert_grid;
    decltype(&ta_remove) remove;
    decltype(&ta_least) least;
    decltype(&ta_reduce) reduce;
    decltype(&ta_audit) audit;
    decltype(&ta_card_load) card_load;
    decltype(&ta_card_write) card_write;
    decltype(&ta_report) report;
    decltype(&ta_rearrange) rearrange;
    decltype(&ta_figures) figures;
    decltype(&ta_volume) volume;
    decltype(&ta_count4) count4;
};

const Library archive{"archive",    ta_insert,  ta_insert_grid, ta_remove,     ta_least,
                      ta_reduce,    ta_audit,   ta_card_load,   ta_card_write, ta_report,
                      ta_rearrange, ta_figures, ta_volume,      ta_count4};
const Library yardstick{"yardstick",  rs_insert,  rs_insert_grid, rs_remove,     rs_least,
                        rs_reduce,    rs_audit,   rs_card_load,   rs_card_write, rs_report,
                        rs_rearrange, rs_figures, rs_volume,      four::count};

// What is timed of them.
using Task = void (*)(const Library &, State &, const Case &);

void audit(const Library &l, State &s, const Case &)
{
    ta_answer answer = l.audit(s.words.data(), s.words.size());
    s.refusal = answer.refusal;
    s.value = answer.value;
}

void insertion(const Library &l, State &s, const Case &c)
{
    auto [x, y, z] = c.trial.at;
    s.refusal = l.insert(s.words.data(), s.words.size(), c.trial.number, x, y, z);
}

void grid(const Library &l, State &s, const Case &c)
{
    ta_grid_answer answer =
        l.insert_grid(s.words.data(), s.words.size(), c.grid.data(), c.grid.size());
    s.refusal = answer.refusal | answer.stop;
    s.value = answer.inserted;
}

// The same trials by as many insertions.
void one_by_one(const Library &l, State &s, const Case &c)
{
    for (std::size_t i = 0; i < c.grid.size(); i += 4) {
        const std::uint64_t *t = &c.grid[i];
        s.refusal |= l.insert(s.words.data(), s.words.size(), t[0], t[1], t[2], t[3]);
        s.value++;
    }
}

void removal(const Library &l, State &s, const Case &c)
{
    s.refusal = l.remove(s.words.data(), s.words.size(), c.trial.number);
}

void exchange(const Library &l, State &s, const Case &c)
{
    insertion(l, s, c);
    ta_least_answer least = l.least(s.words.data(), s.words.size(), TA_TIE_LOWEST);
    s.least = least.number;
    s.value = least.contribution;
    s.refusal |= least.refusal | l.remove(s.words.data(), s.words.size(), least.number);
}

void reduction(const Library &l, State &s, const Case &c)
{
    ta_answer answer = l.reduce(s.words.data(), s.words.size(), c.keep, TA_TIE_LOWEST,
                                s.log.data(), s.log.size());
    s.refusal = answer.refusal;
    s.value = answer.value;
}

void card_load(const Library &l, State &s, const Case &c)
{
    ta_load_answer answer =
        l.card_load(s.words.data(), s.words.size(), c.card.data(), c.card.size());
    s.refusal = answer.refusal;
    s.value = answer.count;
}

// What is written of the archive, by the call for a card or for a report.
void write_by(decltype(&ta_report) call, State &s)
{
    ta_answer answer = call(s.words.data(), s.words.size(), s.out.data(), s.out.size());
    s.refusal = answer.refusal;
    s.value = answer.value;
}

void card_write(const Library &l, State &s, const Case &) { write_by(l.card_write, s); }

void report(const Library &l, State &s, const Case &) { write_by(l.report, s); }

void rearrange(const Library &l, State &s, const Case &c)
{
    s.refusal = l.rearrange(s.words.data(), s.words.size(), c.order, s.log.data(), s.log.size());
}

// The same words by std::sort, with no check and no audit.
void sort_anew(const Library &, State &s, const Case &c)
{
    using Record = std::array<std::uint64_t, TA_RECORD_WORDS>;
    std::array<std::size_t, 3> axes{textbook::old_axis(c.order, 0), textbook::old_axis(c.order, 1),
                                    textbook::old_axis(c.order, 2)};
    std::size_t count = s.words[TA_COUNT];
    std::array<Record, TA_MAX_CAPACITY> records;
    for (std::size_t i = 0; i < count; i++) {
        const std::uint64_t *r = &s.words[TA_RECORDS + TA_RECORD_WORDS * i];
        records[i] = {r[0], r[1 + axes[0]], r[1 + axes[1]], r[1 + axes[2]], r[4]};
    }
    std::sort(records.begin(), records.begin() + static_cast<std::ptrdiff_t>(count),
              [](const Record &a, const Record &b) {
                  return std::tie(a[3], a[2], a[1], a[0]) < std::tie(b[3], b[2], b[1], b[0]);
              });
    auto end = std::copy_n(s.words.begin(), TA_RECORDS, s.log.begin());
    for (std::size_t axis = 0; axis < 3; axis++)
        s.log[TA_REFERENCE + axis] = s.words[TA_REFERENCE + axes[axis]];
    for (std::size_t i = 0; i < count; i++)
        end = std::copy(records[i].begin(), records[i].end(), end);
    std::fill(end, s.log.begin() + static_cast<std::ptrdiff_t>(TA_WORDS(s.words[TA_CAPACITY])), 0);
}

void figures(const Library &l, State &s, const Case &c)
{
    ta_figures_answer answer = l.figures(s.words.data(), s.words.size(), c.runs);
    s.refusal = answer.refusal;
    s.figures = {answer.sum,    answer.least, answer.greatest,
                 answer.median, answer.share, answer.audits};
}

// Each archive's audit in turn.
void audits_in_turn(const Library &l, State &s, const Case &c)
{
    std::size_t at = 0;
    for (std::uint64_t run = 0; run < c.runs; run++) {
        ta_answer answer = l.audit(&s.words[at], s.words.size() - at);
        s.refusal |= answer.refusal;
        s.value += answer.value;
        at += TA_WORDS(s.words[at + TA_CAPACITY]);
    }
}

void volume(const Library &l, State &s, const Case &c)
{
    ta_volume_answer answer = l.volume(c.corner, c.doubles.data(), c.doubles.size());
    s.refusal = answer.refusal;
    s.value = bits(answer.volume);
}

void count4(const Library &l, State &s, const Case &c)
{
    auto [x, y, z, w] = c.reference4;
    s.refusal = l.count4(x, y, z, w, c.coordinates.data(), c.coordinates.size(), s.words.data(),
                         s.words.size());
}

Contestant on_words(const Library &library, Task task, std::size_t batch)
{
    struct Place {
        State state;
        const Case *asked;
    };
    auto places = std::make_shared<std::vector<Place>>(batch);
    auto prepare = [places](std::size_t place, const Case &c) {
        (*places)[place].state = c.before;
        (*places)[place].asked = &c;
    };
    auto run = [places, &library, task](std::size_t place) {
        task(library, (*places)[place].state, *(*places)[place].asked);
    };
    return {batch, prepare, run};
}

void compare(const Library &library, Task task, const std::string &call,
             const std::vector<Case> &cases)
{
    for (const Case &c : cases) {
        State state = c.before;
        task(library, state, c);
        if (!(state == c.after))
            throw std::runtime_error(std::string(library.name) + " is wrong: " + call);
    }
}

// An audit that always said yes would pass the comparison: one too many or too few must be found,
// in the total, in the front and in every contribution.
void compare_no(const Library &library, const std::vector<Case> &cases)
{
    for (const Case &c : cases) {
        std::vector<std::size_t> kept{TA_TOTAL, TA_FRONT};
        for (std::size_t i = 0; i < c.before.words[TA_COUNT]; i++)
            kept.push_back(TA_RECORDS + TA_RECORD_WORDS * i + 4);
        for (std::size_t word : kept) {
            State state = c.before;
            state.words[word] += state.words[word] == 0 ? 1 : -1;
            audit(library, state, c);
            if (state.refusal != 0 || state.value != 0)
                throw std::runtime_error(std::string(library.name) + " passes a wrong count");
        }
    }
}

// Those that recompute. What they find is used, so that no work can be left out.
volatile double found;

template <class Ask> Contestant by_textbook(Ask ask)
{
    auto asked = std::make_shared<const Case *>();
    auto prepare = [asked](std::size_t, const Case &c) { *asked = &c; };
    auto run = [asked, ask](std::size_t) { found = ask(**asked); };
    return {1, prepare, run};
}

Contestant textbook_recount()
{
    return by_textbook([](const Case &c) {
        std::vector<Count> all = textbook::contributions(c.points, c.reference);
        return static_cast<double>(*std::min_element(all.begin(), all.end()));
    });
}

Contestant textbook_reduction()
{
    return by_textbook([](const Case &c) {
        std::vector<Point> points = c.points;
        while (points.size() > c.keep) {
            std::vector<Count> all = textbook::contributions(points, c.reference);
            points.erase(points.begin() + (std::min_element(all.begin(), all.end()) - all.begin()));
        }
        return points.empty() ? 0 : points[0][0];
    });
}

Contestant textbook_volume()
{
    return by_textbook([](const Case &c) { return textbook::volume(c.points, c.reference); });
}

template <std::size_t Axes> peer::Points doubles(const std::vector<PointOn<Axes>> &points)
{
    peer::Points result;
    for (const PointOn<Axes> &p : points)
        result.emplace_back(p.begin(), p.end());
    return result;
}

template <std::size_t Axes> std::vector<double> doubles(const PointOn<Axes> &p)
{
    return {p.begin(), p.end()};
}

peer::Ready ready_of(const Case &c)
{
    if (!c.points4.empty())
        return peer::Ready(doubles<4>(c.points4), doubles<4>(c.reference4));
    return peer::Ready(doubles<3>(c.points), doubles<3>(c.reference));
}

template <class Ask> Contestant by_peer(Ask ask)
{
    auto ready = std::make_shared<std::unique_ptr<peer::Ready>>();
    auto prepare = [ready](std::size_t, const Case &c) {
        ready->reset(new peer::Ready(ready_of(c)));
    };
    auto run = [ready, ask](std::size_t) { found = ask(**ready); };
    return {1, prepare, run};
}

Contestant peer_recount()
{
    return by_peer([](const peer::Ready &ready) {
        std::vector<double> all = ready.contributions();
        return *std::min_element(all.begin(), all.end());
    });
}

Contestant peer_total()
{
    return by_peer([](const peer::Ready &ready) { return ready.total(); });
}

Contestant peer_reduction()
{
    struct Given {
        peer::Points points;
        std::vector<double> reference;
        std::size_t keep = 0;
    };
    auto given = std::make_shared<Given>();
    auto prepare = [given](std::size_t, const Case &c) {
        *given =
            Given{doubles<3>(c.points), doubles<3>(c.reference), static_cast<std::size_t>(c.keep)};
    };
    auto run = [given](std::size_t) {
        found = static_cast<double>(
            peer::reduce(std::move(given->points), given->reference, given->keep).size());
    };
    return {1, prepare, run};
}

// How many answers of the peer were compared, how many were wrong, and how many of these no more
// than a difference of large numbers in double precision must be.
struct Tally {
    std::size_t asked = 0, wrong = 0, rounded = 0;

    void add(bool right, bool near)
    {
        asked++;
        wrong += !right;
        rounded += !right && near;
    }

    std::string text() const
    {
        if (asked == 0)
            return "–";
        std::string result = std::to_string(wrong) + " of " + std::to_string(asked);
        if (rounded > 0)
            result += ", " + (rounded == wrong ? "all" : std::to_string(rounded)) + " by rounding";
        return result;
    }
};

// Below 2^53 a double can be exact, and is held to it; above, to nine digits.
bool right(double answer, Count exact)
{
    double value = static_cast<double>(exact);
    if (exact < (Count{1} << 53))
        return answer == value;
    return std::fabs(answer - value) <= 1e-9 * value;
}

Tally peer_contributions(const std::vector<Case> &cases)
{
    Tally tally;
    for (const Case &c : cases) {
        double total = static_cast<double>(c.points4.empty()
                                               ? textbook::total(c.points, c.reference)
                                               : c.after.words[0]);
        std::vector<double> all = ready_of(c).contributions();
        for (std::size_t i = 0; i < all.size(); i++) {
            double error = std::fabs(all[i] - static_cast<double>(c.exact[i]));
            tally.add(right(all[i], c.exact[i]), error <= 1e-12 * total);
        }
    }
    return tally;
}

double peer_volume(const Case &c) { return ready_of(c).total(); }

Tally peer_volumes(const std::vector<Case> &cases)
{
    Tally tally;
    for (const Case &c : cases)
        tally.add(right(peer_volume(c), c.exact[0]), false);
    return tally;
}

// Any least contributor is right, also where several have the least.
bool least_right(const std::vector<Count> &exact, std::size_t answer)
{
    return exact[answer] == *std::min_element(exact.begin(), exact.end());
}

Tally peer_least(const std::vector<Case> &cases)
{
    Tally tally;
    for (const Case &c : cases)
        tally.add(least_right(c.exact, ready_of(c).least()), false);
    return tally;
}

// Each drop is judged on the points that the peer itself has left.
Tally peer_drops(const std::vector<Case> &cases)
{
    Tally tally;
    for (const Case &c : cases) {
        std::vector<std::size_t> left(c.points.size());
        std::iota(left.begin(), left.end(), std::size_t{0});
        std::vector<Point> points = c.points;
        for (std::size_t drop :
             peer::reduce(doubles<3>(points), doubles<3>(c.reference), c.keep)) {
            std::ptrdiff_t at = std::find(left.begin(), left.end(), drop) - left.begin();
            std::vector<Count> exact = textbook::alone(points, c.reference);
            tally.add(least_right(exact, static_cast<std::size_t>(at)), false);
            points.erase(points.begin() + at);
            left.erase(left.begin() + at);
        }
    }
    return tally;
}

// The tables.
struct Row {
    std::string call, set, trials;
    Samples archive, yardstick, textbook, pagmo;
    Tally tally;
};

// A rearranging, the audit of the same archive, and the sorting and writing alone.
struct Beside {
    std::string set, trials;
    Samples rearrange, audit, sorting;

    double over_the_audit() const { return rearrange.median() - audit.median(); }
};

// The figures of repeated runs, and as many audits of the same archives.
struct Repeated {
    std::string set, trials;
    Samples figures, audits;

    double over_the_audits() const { return figures.median() / audits.median(); }
};

// The peer's figures on four axes, in cells from the exact ones.
struct Distance {
    std::string set, points;
    Samples contributions, totals;
};

std::string number(double value)
{
    char text[32];
    std::snprintf(text, sizeof text, "%.*f", value < 9.995 ? 2 : value < 99.95 ? 1 : 0, value);
    return text;
}

std::string spread(double middle, double low, double high)
{
    return number(middle) + " (" + number(low) + "–" + number(high) + ")";
}

// How many times as long as the archive.
std::string times(const Samples &other, const Samples &archive)
{
    double own = archive.median();
    return other.empty() ? "–"
                         : spread(other.median() / own, other.low() / own, other.high() / own);
}

std::string spread(const Samples &samples)
{
    return spread(samples.median(), samples.low(), samples.high());
}

// How many times as long the archive takes.
std::string cost(const Row &r)
{
    double own = r.archive.median();
    return spread(own / r.yardstick.median(), own / r.yardstick.high(), own / r.yardstick.low());
}

void print(const Row &r)
{
    std::cout << "| " << r.call << " | " << r.set << " | " << r.trials << " | "
              << spread(r.archive) << " | " << cost(r) << " | " << times(r.textbook, r.archive)
              << " | " << times(r.pagmo, r.archive) << " | " << r.tally.text() << " |" << std::endl;
}

void print_four_axes(const Row &r)
{
    std::cout << "| " << r.call << " | " << r.set << " | " << r.trials << " | "
              << spread(r.archive) << " | " << spread(r.yardstick) << " | " << spread(r.pagmo)
              << " | " << cost(r) << " | " << times(r.pagmo, r.archive) << " | " << r.tally.text()
              << " |" << std::endl;
}

const std::string all_contributions = "all contributions (audit)";
const std::string one_insertion = "insertion";
const std::string three_calls = "insertion, least, removal";
const std::string one_removal = "removal";
const std::string insertions = "insertions, one by one";
const std::string one_grid = "grid";
const std::string reducing = "reduce";
const std::string card_written = "card written";
const std::string one_report = "report";
const std::string rearranging = "rearrange";
const std::string repeated_runs = "figures over 15 archives";
const std::string in_doubles = "volume in doubles";
const std::string on_four_axes = "contributions on four axes";

// Coordinates that many points share.
const std::uint32_t coarse = 32;

// The largest reference on four axes.
const std::uint32_t four_scale = 32768;

// The largest cube of at most 2^53 cells, which a double can count.
const std::uint32_t countable = 208063;

class Benchmark
{
public:
    // With a call, its rows alone.
    Benchmark(bool quick, const std::string &call)
        : effort(quick ? Effort{4, 12, 1, 0.05} : Effort{8, 300, 5, 1.0}), only(call)
    {
    }

    void run()
    {
        const std::vector<Kind> kinds{Kind::cliff, Kind::spherical, Kind::uniform};
        small_sets();
        if (only != on_four_axes)
            three_axes(kinds);
        if (wanted(on_four_axes))
            four_axes(kinds);
        if (rows.empty())
            throw std::runtime_error("no such call: " + only);
        notes();
        if (wanted(rearranging))
            beside_the_audit();
        if (wanted(repeated_runs))
            beside_the_audits();
        if (wanted(in_doubles))
            distances(kinds);
        if (wanted(on_four_axes))
            distances_on_four_axes();
        if (wanted(all_contributions))
            smallest();
        targets();
    }

private:
    bool wanted(const std::string &call) const { return only.empty() || call == only; }

    void three_axes(const std::vector<Kind> &kinds)
    {
        std::cout << "| call | set | trials | archive, µs | archive ÷ rust | textbook ÷ archive "
                     "| pagmo ÷ archive | pagmo wrong |\n|---|---|---|---|---|---|---|---|\n";
        for (Kind kind : kinds)
            for (std::size_t size : {64, 200, 512})
                audits(kind, size, TA_MAX_REFERENCE, name(kind));
        for (std::size_t size : {64, 200, 512})
            audits(Kind::spoiled, size, TA_MAX_REFERENCE, name(Kind::spoiled));
        for (Kind kind : {Kind::spherical, Kind::uniform})
            for (std::size_t size : {64, 200})
                audits(kind, size, coarse, name(kind) + ", 0 to 32");
        for (Kind kind : kinds)
            for (std::size_t size : {65, 201, 512})
                updates(one_insertion, insertion, &Story::insertion, kind, size, size - 1);
        for (Kind kind : kinds)
            for (std::size_t size : {65, 201, 512})
                updates(three_calls, exchange, &Story::exchange, kind, size, size - 1);
        for (Kind kind : kinds)
            for (std::size_t size : {64, 200, 512})
                updates(one_removal, removal, &Story::removal, kind, size, size);
        for (auto [from, keep] : {std::pair<std::size_t, std::size_t>{64, 1}, {512, 256}, {512, 1}})
            for (Kind kind : kinds)
                reductions(kind, from, keep);
        for (Kind kind : kinds)
            plain(insertions, one_by_one, &Story::grid, kind, 1);
        for (Kind kind : kinds)
            plain(one_grid, grid, &Story::grid, kind, 1);
        for (Kind kind : kinds)
            plain("card load", card_load, &Story::card, kind, 1);
        for (Kind kind : kinds)
            plain(card_written, card_write, &Story::card_written, kind, 8);
        for (Kind kind : kinds)
            plain(one_report, report, &Story::report, kind, 8);
        for (Kind kind : kinds)
            for (std::size_t size : {64, 200, 512})
                rearrangings(kind, size);
        for (Kind kind : kinds)
            for (std::size_t size : {8, 64, 512})
                repeated(kind, size);
        for (Kind kind : kinds)
            volumes(kind);
    }

    void four_axes(const std::vector<Kind> &kinds)
    {
        std::cout << (rows.empty() ? "" : "\n")
                  << "| call | set | points | archive, µs | C++, µs | pagmo, µs | archive ÷ C++ "
                     "| pagmo ÷ archive | pagmo wrong |\n|---|---|---|---|---|---|---|---|---|\n";
        for (Kind kind : kinds)
            for (std::size_t size : {200, 512})
                counts(kind, size, four_scale, name(kind));
        counts(Kind::spoiled, 512, four_scale, name(Kind::spoiled));
        for (Kind kind : {Kind::spherical, Kind::uniform})
            counts(kind, 200, coarse, name(kind) + ", 0 to 32");
    }

    static Story agreed_story(const Set &set)
    {
        Story story(set);
        if (!story.agreed())
            throw std::runtime_error("two textbook counts differ");
        return story;
    }

    // Small sets with many equal and dominated points, compared and not timed.
    static void small_sets()
    {
        for (std::uint64_t seed = 0; seed < 300; seed++) {
            Kind kind = static_cast<Kind>(seed % 3);
            Story story = agreed_story(make_set(kind, 2 + seed % 23, 1 + seed % 7, false, seed));
            Case on_four = small_four_axes(seed);
            for (const Library *library : {&archive, &yardstick}) {
                compare(*library, audit, "small audit", {story.audit()});
                compare(*library, insertion, "small insertion", {story.insertion()});
                compare(*library, removal, "small removal", {story.removal()});
                compare(*library, exchange, "small exchange", {story.exchange()});
                compare(*library, reduction, "small reduction",
                        {story.reduction(0), story.reduction(1)});
                compare(*library, grid, "small grid", {story.grid()});
                compare(*library, one_by_one, "small insertions", {story.grid()});
                compare(*library, card_load, "small card", {story.card()});
                compare(*library, card_write, "small card written", {story.card_written()});
                compare(*library, report, "small report", {story.report()});
                compare(*library, rearrange, "small rearranging", in_every_order(story));
                compare(*library, figures, "small figures", few_runs(seed));
                compare(*library, volume, "small volume", {story.volume(), layered(seed)});
                compare(*library, count4, "small " + on_four_axes, {on_four});
                compare_no(*library, {story.audit()});
            }
        }
    }

    // Points that share z's, some of them past the reference, in a box that no double can count.
    static Case layered(std::uint64_t seed)
    {
        Set set = make_set(Kind::uniform, 2 + seed % 23, TA_MAX_REFERENCE, false, seed);
        for (Point &p : set.points)
            p[2] -= p[2] % 99991;
        set.reference[seed % 3] = 700001;
        return volume_of(set);
    }

    // Points past the reference are among them. The exact answer is a count cell by cell.
    static Case small_four_axes(std::uint64_t seed)
    {
        Random random(seed);
        Set4 set = make_set<4>(static_cast<Kind>(seed % 3), seed % 24, 1 + seed % 7, false, seed);
        for (std::uint32_t &number : set.reference)
            number = 1 + static_cast<std::uint32_t>(random.next() % 7);
        Case c = four_axes_of(set);
        std::vector<Count> cells = textbook::cells(set.points, set.reference);
        if (!std::equal(cells.begin(), cells.end(), c.after.words.begin()))
            throw std::runtime_error("two textbook counts on four axes differ");
        return c;
    }

    static std::vector<Case> in_every_order(const Story &story)
    {
        std::vector<Case> result;
        for (std::uint64_t order = 0; order < textbook::orders.size(); order++)
            result.push_back(story.rearranging(order));
        return result;
    }

    // One to fifteen small archives of one reference and of any capacities; also with a total that
    // is wrong, of which the figures are then made.
    static std::vector<Case> few_runs(std::uint64_t seed)
    {
        std::vector<Words> runs;
        for (std::uint64_t i = 0; i <= seed % TA_MAX_RUNS; i++) {
            Kind kind = static_cast<Kind>((seed + i) % 3);
            std::size_t size = (seed * 5 + i * i) % 12;
            Set set = make_set(kind, size, 1 + seed % 7, false, seed + 1000 * i);
            Trials trials;
            for (const Point &p : set.points)
                trials.push_back(Trial{trials.size() + 1, p});
            runs.push_back(fresh(trials, size + 1 + i % 3, set.reference));
        }
        return {figures_of(runs), figures_of(runs, seed % runs.size())};
    }

    const std::vector<Story> &stories(Kind kind, std::size_t size, std::uint32_t scale)
    {
        std::vector<Story> &known = told[{kind, size, scale}];
        for (std::uint64_t seed = known.size(); seed < effort.sets; seed++)
            known.push_back(agreed_story(make_set(kind, size, scale, kind != Kind::uniform, seed)));
        return known;
    }

    template <class Tell>
    std::vector<Case> cases(Kind kind, std::size_t size, std::uint32_t scale, Tell tell)
    {
        std::vector<Case> result;
        for (const Story &story : stories(kind, size, scale))
            result.push_back(tell(story));
        return result;
    }

    // Compares, then times the two on words, those of the others that take part, and in the same
    // rounds what a table sets beside them.
    void row(Row r, Task task, std::size_t batch, const std::vector<Case> &cases,
             std::unique_ptr<Contestant> textbook, std::unique_ptr<Contestant> pagmo,
             const std::vector<Contestant *> &compared = {})
    {
        compare(archive, task, r.call, cases);
        compare(yardstick, task, r.call, cases);
        Contestant own = on_words(archive, task, batch), other = on_words(yardstick, task, batch);
        std::vector<Contestant *> contestants{&own, &other};
        contestants.insert(contestants.end(), compared.begin(), compared.end());
        for (Contestant *recounting : {textbook.get(), pagmo.get()})
            if (recounting != nullptr)
                contestants.push_back(recounting);
        measure(contestants, cases, effort);
        r.archive = own.samples;
        r.yardstick = other.samples;
        if (textbook != nullptr)
            r.textbook = textbook->samples;
        if (pagmo != nullptr)
            r.pagmo = pagmo->samples;
        if (r.call == on_four_axes)
            print_four_axes(r);
        else
            print(r);
        rows.push_back(r);
    }

    static std::unique_ptr<Contestant> made(Contestant contestant)
    {
        return std::make_unique<Contestant>(std::move(contestant));
    }

    void audits(Kind kind, std::size_t size, std::uint32_t scale, const std::string &set)
    {
        if (!wanted(all_contributions))
            return;
        std::vector<Case> asked = cases(kind, size, scale, std::mem_fn(&Story::audit));
        compare_no(archive, asked);
        compare_no(yardstick, asked);
        Row r{all_contributions,        set, std::to_string(size), {}, {}, {}, {},
              peer_contributions(asked)};
        row(r, audit, 8, asked, made(textbook_recount()), made(peer_recount()));
    }

    void updates(const std::string &call, Task task, Case (Story::*tell)() const, Kind kind,
                 std::size_t size, std::size_t trials)
    {
        if (!wanted(call))
            return;
        std::vector<Case> asked = cases(kind, size, TA_MAX_REFERENCE, std::mem_fn(tell));
        Tally tally = call == three_calls ? peer_least(asked) : peer_contributions(asked);
        Row r{call, name(kind), std::to_string(trials), {}, {}, {}, {}, tally};
        row(r, task, 8, asked, made(textbook_recount()), made(peer_recount()));
    }

    // The textbook's way is slow from 512 trials; it is measured from 64 alone.
    void reductions(Kind kind, std::size_t from, std::size_t keep)
    {
        if (!wanted(reducing))
            return;
        std::vector<Case> asked =
            cases(kind, from, TA_MAX_REFERENCE,
                  [keep = keep](const Story &s) { return s.reduction(keep); });
        asked.resize(std::min<std::size_t>(asked.size(), 3));
        std::string trials = std::to_string(from) + " → " + std::to_string(keep);
        Row r{reducing, name(kind), trials, {}, {}, {}, {}, peer_drops(asked)};
        row(r, reduction, 1, asked, from <= 64 ? made(textbook_reduction()) : nullptr,
            made(peer_reduction()));
    }

    void plain(const std::string &call, Task task, Case (Story::*tell)() const, Kind kind,
               std::size_t batch)
    {
        if (!wanted(call))
            return;
        std::vector<Case> asked = cases(kind, 512, TA_MAX_REFERENCE, std::mem_fn(tell));
        row(Row{call, name(kind), "512", {}, {}, {}, {}, {}}, task, batch, asked, nullptr, nullptr);
    }

    // All orders in turn, and in the same rounds the audit and the sorting alone.
    void rearrangings(Kind kind, std::size_t size)
    {
        if (!wanted(rearranging))
            return;
        const std::size_t batch = 8;
        std::vector<Case> asked;
        for (const Story &story : stories(kind, size, TA_MAX_REFERENCE))
            for (Case &c : in_every_order(story))
                asked.push_back(std::move(c));
        compare(archive, sort_anew, rearranging + " by std::sort", asked);
        Contestant judging = on_words(archive, audit, batch),
                   sorting = on_words(archive, sort_anew, batch);
        Row r{rearranging, name(kind), std::to_string(size), {}, {}, {}, {}, {}};
        row(r, rearrange, batch, asked, nullptr, nullptr, {&judging, &sorting});
        beside.push_back({r.set, r.trials, rows.back().archive, judging.samples, sorting.samples});
    }

    void beside_the_audit() const
    {
        std::cout << "\nRearrange, all six orders in turn, and in the same rounds the audit of the "
                     "same archives, which it contains, and the same words by std::sort in C++, "
                     "with no check and no audit; µs, and the difference of the medians.\n\n"
                     "| set | trials | rearrange, µs | audit, µs | over the audit, µs "
                     "| std::sort, µs |\n|---|---|---|---|---|---|\n";
        for (const Beside &b : beside)
            std::cout << "| " << b.set << " | " << b.trials << " | " << spread(b.rearrange) << " | "
                      << spread(b.audit) << " | " << number(b.over_the_audit()) << " | "
                      << spread(b.sorting) << " |\n";
    }

    // Fifteen archives, the first of them another one in each case, and in the same rounds the
    // audits of the same archives.
    void repeated(Kind kind, std::size_t size)
    {
        if (!wanted(repeated_runs))
            return;
        const std::size_t batch = size < 512 ? 8 : 1;
        const std::vector<Story> &known = stories(kind, size, TA_MAX_REFERENCE);
        std::vector<Case> asked;
        for (std::size_t first = 0; first < known.size(); first++) {
            std::vector<Words> runs;
            for (std::size_t i = 0; i < TA_MAX_RUNS; i++)
                runs.push_back(known[(first + i) % known.size()].words());
            asked.push_back(figures_of(std::move(runs)));
        }
        Contestant judging = on_words(archive, audits_in_turn, batch);
        Row r{repeated_runs, name(kind), std::to_string(size) + " each", {}, {}, {}, {}, {}};
        row(r, figures, batch, asked, nullptr, nullptr, {&judging});
        repetitions.push_back({r.set, r.trials, rows.back().archive, judging.samples});
    }

    void beside_the_audits() const
    {
        std::cout << "\nFigures over 15 archives, one behind the other, and in the same rounds the "
                     "15 audits of the same archives, each of which checks rows 1 to 3 too; µs, and "
                     "the ratio of the medians.\n\n"
                     "| set | trials | figures, µs | 15 audits, µs | figures ÷ audits |\n"
                     "|---|---|---|---|---|\n";
        for (const Repeated &r : repetitions)
            std::cout << "| " << r.set << " | " << r.trials << " | " << spread(r.figures) << " | "
                      << spread(r.audits) << " | " << number(r.over_the_audits()) << " |\n";
    }

    void volumes(Kind kind)
    {
        if (!wanted(in_doubles))
            return;
        std::vector<Case> asked = cases(kind, 512, TA_MAX_REFERENCE, std::mem_fn(&Story::volume));
        Row r{in_doubles, name(kind), "512", {}, {}, {}, {}, peer_volumes(asked)};
        row(r, volume, 8, asked, made(textbook_volume()), made(peer_total()));
    }

    void counts(Kind kind, std::size_t size, std::uint32_t scale, const std::string &set)
    {
        std::vector<Case> asked;
        for (std::uint64_t seed = 0; seed < effort.sets; seed++)
            asked.push_back(
                four_axes_of(make_set<4>(kind, size, scale, kind != Kind::uniform, seed)));
        Row r{on_four_axes, set, std::to_string(size), {}, {}, {}, {}, peer_contributions(asked)};
        row(r, count4, 1, asked, nullptr, made(peer_recount()));
        Distance d{set, std::to_string(size), {}, {}};
        for (const Case &c : asked) {
            std::vector<double> figures = ready_of(c).contributions();
            for (std::size_t i = 0; i < figures.size(); i++)
                d.contributions.add(cells_off(figures[i], c.exact[i]));
            d.totals.add(cells_off(peer_volume(c), c.after.words[0]));
        }
        far.push_back(d);
    }

    // How far the peer's figures are from the exact counts.
    void distances_on_four_axes() const
    {
        std::cout << "\nContributions on four axes: cells between pagmo's figures and the exact "
                     "counts, which the archive's are; the median of all points of the sets and in "
                     "brackets the least and the most, and the same of the sets' totals.\n\n"
                     "| set | points | pagmo's contributions, cells off | pagmo's total, cells off "
                     "|\n|---|---|---|---|\n";
        for (const Distance &d : far)
            std::cout << "| " << d.set << " | " << d.points << " | "
                      << whole_spread(d.contributions) << " | " << whole_spread(d.totals) << " |\n";
    }

    // How far the volumes are from the exact count.
    void distances(const std::vector<Kind> &kinds)
    {
        std::cout << "\nVolumes in doubles, 512 points: cells between the figure and the exact "
                     "count, the median of the sets and in brackets the least and the most. "
                     "Promised of the archive: 0 where the box has at most 2^53 cells, else at "
                     "most 192 a point.\n\n"
                     "| set | reference | archive, cells off | pagmo, cells off |\n"
                     "|---|---|---|---|\n";
        for (std::uint32_t scale : {countable, std::uint32_t{TA_MAX_REFERENCE}})
            for (Kind kind : kinds)
                distance(kind, scale);
    }

    void distance(Kind kind, std::uint32_t scale)
    {
        Samples own, pagmo;
        std::vector<Case> asked = cases(kind, 512, scale, std::mem_fn(&Story::volume));
        compare(archive, volume, in_doubles, asked);
        compare(yardstick, volume, in_doubles, asked);
        for (const Case &c : asked) {
            ta_volume_answer answer = ta_volume(c.corner, c.doubles.data(), c.doubles.size());
            own.add(cells_off(answer.volume, c.exact[0]));
            pagmo.add(cells_off(peer_volume(c), c.exact[0]));
        }
        if (own.at(1) > (scale <= countable ? 0 : 192 * 512))
            throw std::runtime_error("archive is too far from the count: " + in_doubles);
        std::cout << "| " << name(kind) << " | " << scale << " | " << whole_spread(own) << " | "
                  << whole_spread(pagmo) << " |" << std::endl;
    }

    // A long double has all digits of both.
    static double cells_off(double figure, Count exact)
    {
        return static_cast<double>(std::fabs(static_cast<long double>(figure) - exact));
    }

    static std::string whole_spread(const Samples &cells)
    {
        char text[96];
        std::snprintf(text, sizeof text, "%.0f (%.0f–%.0f)", cells.median(), cells.at(0),
                      cells.at(1));
        return text;
    }

    static void notes()
    {
        std::cout << "\nMedians, in brackets the 10th and the 90th percentile: of each in its own "
                     "column, of the one beside the archive in a column of ratios.\n"
                     "pagmo wrong: contributions for all contributions, insertion, removal and "
                     "four axes; "
                     "least contributors "
                     "for the three calls; drops for reduce; totals for volume in doubles. A count "
                     "below 2^53 is compared exactly, a "
                     "larger one to a relative 1e-9; by rounding: the error is at most 1e-12 of "
                     "the total.\n";
    }

    // The smallest known set on which the peer miscounts.
    static void smallest()
    {
        Set set{{3, 3, 3}, {{0, 1, 1}, {1, 0, 1}, {0, 2, 0}}};
        std::vector<Case> asked{agreed_story(set).audit()};
        compare(archive, audit, "three points", asked);
        compare(yardstick, audit, "three points", asked);
        std::cout << "\nReference (3,3,3), points (0,1,1), (1,0,1), (0,2,0): contributions";
        for (Count exact : asked[0].exact)
            std::cout << ' ' << exact;
        std::cout << " (archive and rust: the same); pagmo's contributions";
        for (double answer : ready_of(asked[0]).contributions())
            std::cout << ' ' << answer;
        std::cout << ", one by one (exclusive)";
        for (std::size_t i = 0; i < set.points.size(); i++)
            std::cout << ' ' << ready_of(asked[0]).exclusive(i);
        std::cout << ".\n";
    }

    // Targets. The worst row decides.
    void target(const std::string &what, const std::vector<double> &figures, bool at_most,
                double bound, const std::string &unit = "×") const
    {
        if (figures.empty())
            return;
        double worst = at_most ? *std::max_element(figures.begin(), figures.end())
                               : *std::min_element(figures.begin(), figures.end());
        bool met = at_most ? worst <= bound : worst >= bound;
        std::cout << "- " << (met ? "met: " : "missed: ") << what
                  << (at_most ? " at most " : " at least ") << number(bound) << ' ' << unit
                  << "; the worst is " << number(worst) << ' ' << unit << '\n';
    }

    void targets() const
    {
        std::cout << "\nTargets:\n";
        const std::vector<std::pair<std::string, double>> against_rust{
            {one_insertion, 1.25}, {one_removal, 1.25}, {all_contributions, 1.1}, {reducing, 1.3}};
        for (const auto &[call, bound] : against_rust) {
            std::vector<double> ratios;
            for (const Row &r : rows)
                if (r.call == call)
                    ratios.push_back(r.archive.median() / r.yardstick.median());
            target(call + ", archive ÷ rust", ratios, true, bound);
        }
        std::vector<double> against_cpp;
        for (const Row &r : rows)
            if (r.call == on_four_axes && r.trials == "512")
                against_cpp.push_back(r.archive.median() / r.yardstick.median());
        target(on_four_axes + " at 512, archive ÷ C++", against_cpp, true, 1.9);
        auto against_call = [this](const std::string &call, const std::string &other) {
            std::vector<double> ratios;
            for (const Row &r : rows)
                for (const Row &q : rows)
                    if (r.call == call && q.call == other && r.set == q.set)
                        ratios.push_back(r.archive.median() / q.archive.median());
            return ratios;
        };
        target(one_grid + " ÷ " + insertions, against_call(one_grid, insertions), true, 0.35);
        target(card_written + " ÷ " + one_report, against_call(card_written, one_report), true, 1);
        std::vector<double> over_the_audit;
        for (const Beside &b : beside)
            if (b.trials == "512")
                over_the_audit.push_back(b.over_the_audit());
        target(rearranging + " at 512, over the audit", over_the_audit, true, 300, "µs");
        std::vector<double> over_the_audits;
        for (const Repeated &r : repetitions)
            over_the_audits.push_back(r.over_the_audits());
        target(repeated_runs + " ÷ 15 audits", over_the_audits, true, 1.1);
        auto against_peer = [this](const std::string &call, const std::string &trials,
                                   bool uniform) {
            std::vector<double> ratios;
            for (const Row &r : rows)
                if (r.call == call && r.trials == trials &&
                    (uniform || r.set != name(Kind::uniform)))
                    ratios.push_back(r.pagmo.median() / r.archive.median());
            return ratios;
        };
        target(three_calls + " at 200, cliff and spherical, pagmo ÷ archive",
               against_peer(three_calls, "200", false), false, 8);
        target(three_calls + " at 511, cliff and spherical, pagmo ÷ archive",
               against_peer(three_calls, "511", false), false, 16);
        target(all_contributions + " at 512, cliff and spherical, pagmo ÷ archive",
               against_peer(all_contributions, "512", false), false, 6);
        target(reducing + " 512 → 1, pagmo ÷ archive", against_peer(reducing, "512 → 1", true),
               false, 40);
        target(in_doubles + " at 512, pagmo ÷ archive", against_peer(in_doubles, "512", true),
               false, 1);
    }

    Effort effort;
    std::string only;
    std::map<std::tuple<Kind, std::size_t, std::uint32_t>, std::vector<Story>> told;
    std::vector<Row> rows;
    std::vector<Beside> beside;
    std::vector<Repeated> repetitions;
    std::vector<Distance> far;
};

} // namespace

int main(int argc, char **argv)
{
    std::vector<std::string> asked(argv + 1, argv + argc);
    bool quick = !asked.empty() && asked[0] == "--quick";
    asked.erase(asked.begin(), asked.begin() + quick);
    if (asked.size() > 1 || (asked.size() == 1 && asked[0][0] == '-')) {
        std::cerr << "usage: driver [--quick] [CALL]\n";
        return 2;
    }
    try {
        Benchmark(quick, asked.empty() ? "" : asked[0]).run();
    } catch (const std::exception &trouble) {
        std::cerr << "benchmarks: " << trouble.what() << '\n';
        return 1;
    }
    return 0;
}
