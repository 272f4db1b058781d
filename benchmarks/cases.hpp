// What is asked, and the exact answers: archives before and after a call, as words counted from
// nothing by textbook.hpp.
#ifndef CASES_HPP
#define CASES_HPP

#include "data.hpp"
#include "textbook.hpp"
#include "trial_archive.h"

#include <cstdio>
#include <cstring>
#include <stdexcept>

using Words = std::vector<std::uint64_t>;
using Bytes = std::vector<std::uint8_t>;
using textbook::Count;

struct Trial {
    std::uint64_t number;
    Point at;
};

using Trials = std::vector<Trial>;

inline std::vector<Point> points_of(const Trials &trials)
{
    std::vector<Point> points;
    for (const Trial &t : trials)
        points.push_back(t.at);
    return points;
}

// All that a call may change, and what it answers.
struct State {
    Words words, log;
    Bytes out;
    std::uint64_t refusal = 0, value = 0, least = 0;
    textbook::Figures figures{};
};

inline bool operator==(const State &a, const State &b)
{
    return a.words == b.words && a.log == b.log && a.out == b.out && a.refusal == b.refusal &&
           a.value == b.value && a.least == b.least && a.figures == b.figures;
}

// One call, or one row of calls, with its arguments and the exact outcome.
struct Case {
    State before, after;
    Trial trial{};
    std::uint64_t keep = 0;
    std::uint64_t order = 0;
    std::uint64_t runs = 0;
    Bytes card;
    Words grid;
    ta_corner corner{};
    std::vector<double> doubles;
    Words coordinates;
    // For those that recompute: the points to count, on three axes or on four, and their
    // contributions; for a volume their total alone.
    Point reference{};
    std::vector<Point> points;
    Point4 reference4{};
    std::vector<Point4> points4;
    std::vector<Count> exact;
};

// The words of a fresh archive of these trials.
inline Words fresh(Trials trials, std::size_t capacity, Point reference)
{
    std::vector<Count> kept = textbook::alone(points_of(trials), reference);
    std::vector<std::size_t> order(trials.size());
    std::iota(order.begin(), order.end(), std::size_t{0});
    std::sort(order.begin(), order.end(), [&](std::size_t i, std::size_t j) {
        const Trial &t = trials[i], &u = trials[j];
        return std::array<std::uint64_t, 4>{t.at[2], t.at[1], t.at[0], t.number} <
               std::array<std::uint64_t, 4>{u.at[2], u.at[1], u.at[0], u.number};
    });
    Words words(TA_WORDS(capacity));
    words[TA_COUNT] = trials.size();
    words[TA_CAPACITY] = capacity;
    for (std::size_t axis = 0; axis < 3; axis++)
        words[TA_REFERENCE + axis] = reference[axis];
    words[TA_TOTAL] = textbook::total(points_of(trials), reference);
    words[TA_FRONT] = textbook::front(points_of(trials));
    std::size_t at = TA_RECORDS;
    for (std::size_t i : order) {
        for (std::uint64_t word :
             {trials[i].number, std::uint64_t{trials[i].at[0]}, std::uint64_t{trials[i].at[1]},
              std::uint64_t{trials[i].at[2]}, kept[i]})
            words[at++] = word;
    }
    return words;
}

// The least contributor; among equals the one with the lowest number.
inline std::size_t least_of(const Trials &trials, const std::vector<Count> &kept)
{
    std::size_t least = 0;
    for (std::size_t i = 1; i < trials.size(); i++)
        if (kept[i] < kept[least] ||
            (kept[i] == kept[least] && trials[i].number < trials[least].number))
            least = i;
    return least;
}

inline void append(Bytes &bytes, const char *form, std::uint64_t number)
{
    char text[32];
    int length = std::snprintf(text, sizeof text, form, static_cast<unsigned long long>(number));
    bytes.insert(bytes.end(), text, text + length);
}

inline Bytes card_of(const Trials &trials, std::size_t capacity, Point reference)
{
    Bytes card;
    auto line = [&](std::uint64_t first, Point rest) {
        append(card, "%8llu", first);
        for (std::uint32_t number : rest)
            append(card, "%8llu", number);
        card.push_back('\n');
    };
    line(capacity, reference);
    for (const Trial &t : trials)
        line(t.number, t.at);
    return card;
}

// The card of these words: their trials in archive order.
inline Bytes card_of(const Words &words)
{
    auto point = [&](std::size_t at) {
        Point p;
        std::copy_n(&words[at], 3, p.begin());
        return p;
    };
    Trials trials;
    for (std::size_t i = 0; i < words[TA_COUNT]; i++) {
        std::size_t record = TA_RECORDS + TA_RECORD_WORDS * i;
        trials.push_back(Trial{words[record], point(record + 1)});
    }
    return card_of(trials, words[TA_CAPACITY], point(TA_REFERENCE));
}

inline Bytes report_of(const Words &words)
{
    Bytes report;
    auto line = [&](std::initializer_list<std::uint64_t> numbers, std::uint64_t last) {
        for (std::uint64_t number : numbers)
            append(report, "%8llu", number);
        append(report, "%20llu", last);
        report.push_back('\n');
    };
    line({words[0], words[2], words[3], words[4]}, words[5]);
    for (std::size_t i = 0; i < words[0]; i++) {
        const std::uint64_t *r = &words[TA_RECORDS + TA_RECORD_WORDS * i];
        line({r[0], r[1], r[2], r[3]}, r[4]);
    }
    return report;
}

// A double as a word, to be compared bit for bit.
inline std::uint64_t bits(double number)
{
    std::uint64_t word;
    static_assert(sizeof word == sizeof number);
    std::memcpy(&word, &number, sizeof word);
    return word;
}

// The volume of any points, past the reference too.
inline Case volume_of(const Set &set)
{
    Case c;
    c.reference = set.reference;
    c.points = set.points;
    auto number = [&](std::size_t axis) { return static_cast<double>(set.reference[axis]); };
    c.corner = {number(0), number(1), number(2)};
    for (const Point &p : set.points)
        c.doubles.insert(c.doubles.end(), p.begin(), p.end());
    c.after.value = bits(textbook::volume(set.points, set.reference));
    return c;
}

// Total and contributions of any points on four axes. The word behind them must stay as it is.
inline Case four_axes_of(const Set4 &set)
{
    const std::uint64_t untouched = 7;
    Case c;
    c.reference4 = set.reference;
    c.points4 = set.points;
    for (const Point4 &p : set.points)
        c.coordinates.insert(c.coordinates.end(), p.begin(), p.end());
    c.after.words = textbook::four_axes(set.points, set.reference);
    c.exact.assign(c.after.words.begin() + 1, c.after.words.end());
    c.after.words.push_back(untouched);
    c.before.words.assign(c.after.words.size(), untouched);
    return c;
}

// The figures of archives, one behind the other and with a word behind the last. Some audit says no
// where the total of the archive at this place is wrong.
inline Case figures_of(std::vector<Words> runs, std::size_t wrong = SIZE_MAX)
{
    const std::uint64_t untouched = 7;
    std::vector<Count> totals;
    Case c;
    c.runs = runs.size();
    for (std::size_t i = 0; i < runs.size(); i++) {
        Words &run = runs[i];
        if (i == wrong)
            run[TA_TOTAL] += run[TA_TOTAL] == 0 ? 1 : -1;
        totals.push_back(run[TA_TOTAL]);
        c.before.words.insert(c.before.words.end(), run.begin(), run.end());
    }
    c.before.words.push_back(untouched);
    c.after.words = c.before.words;
    const std::uint64_t *r = &runs[0][TA_REFERENCE];
    c.after.figures = textbook::figures(totals, r[0] * r[1] * r[2], wrong >= runs.size());
    return c;
}

// The set's trials are numbered from 1. The last of them is the one inserted or removed.
class Story
{
public:
    explicit Story(const Set &set) : reference(set.reference), room(set.points.size())
    {
        for (const Point &p : set.points)
            all.push_back(Trial{all.size() + 1, p});
        exact = textbook::alone(set.points, reference);
        full = fresh(all, room, reference);
    }

    // Whether the plainest count agrees with the one that the words are made by.
    bool agreed() const { return exact == textbook::contributions(points_of(all), reference); }

    Case audit() const
    {
        Case c = counted(all, exact);
        c.before.words = c.after.words = full;
        c.after.value = 1;
        return c;
    }

    Case insertion() const
    {
        Case c = counted(all, exact);
        c.trial = all.back();
        c.before.words = fresh(but_last(), room, reference);
        c.after.words = full;
        return c;
    }

    Case removal() const
    {
        Case c = counted(but_last(), {});
        c.exact = textbook::alone(c.points, reference);
        c.trial = all.back();
        c.before.words = full;
        c.after.words = fresh(but_last(), room, reference);
        return c;
    }

    // Insertion, least, removal of the least.
    Case exchange() const
    {
        Case c = insertion();
        std::size_t least = least_of(all, exact);
        Trials rest = all;
        rest.erase(rest.begin() + static_cast<std::ptrdiff_t>(least));
        c.after.words = fresh(rest, room, reference);
        c.after.least = all[least].number;
        c.after.value = exact[least];
        return c;
    }

    // Each drop is counted from nothing on the trials that remain.
    Case reduction(std::size_t keep) const
    {
        Case c = counted(all, exact);
        Trials rest = all;
        c.keep = keep;
        c.before.words = full;
        while (rest.size() > keep) {
            std::vector<Count> kept = textbook::alone(points_of(rest), reference);
            std::size_t least = least_of(rest, kept);
            c.after.log.push_back(rest[least].number);
            c.after.log.push_back(kept[least]);
            rest.erase(rest.begin() + static_cast<std::ptrdiff_t>(least));
        }
        c.before.log.resize(c.after.log.size());
        c.after.words = fresh(rest, room, reference);
        c.after.value = all.size() - keep;
        return c;
    }

    Case card() const
    {
        Case c;
        c.card = card_of(all, room, reference);
        c.before.words.resize(full.size());
        c.after.words = full;
        c.after.value = all.size();
        return c;
    }

    // All trials into an empty archive.
    Case grid() const
    {
        Case c;
        for (const Trial &t : all)
            for (std::uint64_t word : {t.number, std::uint64_t{t.at[0]}, std::uint64_t{t.at[1]},
                                       std::uint64_t{t.at[2]}})
                c.grid.push_back(word);
        c.before.words = fresh({}, room, reference);
        c.after.words = full;
        c.after.value = all.size();
        return c;
    }

    Case volume() const
    {
        Case c = volume_of(Set{reference, points_of(all)});
        c.exact = {full[TA_TOTAL]};
        return c;
    }

    // Into a second slice, the log's place, which is longer by a word that must stay as it is.
    // What is written there is counted from nothing on the rearranged points.
    Case rearranging(std::uint64_t order) const
    {
        const std::uint64_t untouched = 7;
        Trials turned = all;
        for (Trial &t : turned)
            t.at = textbook::rearranged(order, t.at);
        Case c;
        c.order = order;
        c.before.words = c.after.words = full;
        c.after.log = fresh(turned, room, textbook::rearranged(order, reference));
        c.after.log.push_back(untouched);
        c.before.log.assign(c.after.log.size(), untouched);
        return c;
    }

    const Words &words() const { return full; }

    Case card_written() const { return text(card_of(full)); }

    Case report() const { return text(report_of(full)); }

private:
    // What is written of the whole archive.
    Case text(const Bytes &written) const
    {
        Case c;
        c.before.words = c.after.words = full;
        c.before.out.resize(written.size());
        c.after.out = written;
        c.after.value = written.size();
        return c;
    }

    Case counted(const Trials &trials, const std::vector<Count> &contributions) const
    {
        Case c;
        c.reference = reference;
        c.points = points_of(trials);
        c.exact = contributions;
        return c;
    }

    Trials but_last() const { return Trials(all.begin(), all.end() - 1); }

    Point reference;
    std::size_t room;
    Trials all;
    std::vector<Count> exact;
    Words full;
};

#endif
