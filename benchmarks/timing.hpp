// Timing: contestants in turn, round after round, in one process and by one clock.
#ifndef TIMING_HPP
#define TIMING_HPP

#include "cases.hpp"

#include <functional>

#include <sys/resource.h>
#include <time.h>

// How much is measured.
struct Effort {
    std::size_t sets;   // inputs for each row of the table
    std::size_t rounds; // at most
    std::size_t fewest; // batches that even a slow contestant is timed on
    double seconds;     // that a contestant may take for a row before it sits out
};

// Microseconds a call, one number for each batch.
class Samples
{
public:
    void add(double sample)
    {
        sorted.insert(std::upper_bound(sorted.begin(), sorted.end(), sample), sample);
    }
    bool empty() const { return sorted.empty(); }
    std::size_t size() const { return sorted.size(); }
    double at(double part) const
    {
        return sorted[static_cast<std::size_t>(part * (sorted.size() - 1) + 0.5)];
    }
    double low() const { return at(0.1); }
    double median() const { return at(0.5); }
    double high() const { return at(0.9); }

private:
    std::vector<double> sorted;
};

// A batch has a place for each call: prepare makes the place ready, with a fresh copy of what the
// call works on; only run is timed.
struct Contestant {
    std::size_t batch;
    std::function<void(std::size_t place, const Case &)> prepare;
    std::function<void(std::size_t place)> run;
    Samples samples{};
    double spent = 0;

    // One batch; answers its seconds by the monotonic clock. Where another program had the core
    // meanwhile, it is the time for which this one had it: the same rule for short and for long
    // batches, or else the slow would look slower still on a busy machine.
    double time(const std::vector<Case> &cases, std::size_t round)
    {
        for (std::size_t place = 0; place < batch; place++)
            prepare(place, cases[(round * batch + place) % cases.size()]);
        long put_off = times_put_off();
        double had = seconds_by(CLOCK_THREAD_CPUTIME_ID);
        double start = seconds_by(CLOCK_MONOTONIC);
        for (std::size_t place = 0; place < batch; place++)
            run(place);
        double whole = seconds_by(CLOCK_MONOTONIC) - start;
        had = seconds_by(CLOCK_THREAD_CPUTIME_ID) - had;
        return times_put_off() == put_off ? whole : std::min(whole, had);
    }

private:
    static double seconds_by(clockid_t clock)
    {
        timespec now{};
        clock_gettime(clock, &now);
        return static_cast<double>(now.tv_sec) + 1e-9 * static_cast<double>(now.tv_nsec);
    }

    static long times_put_off()
    {
        rusage usage{};
        getrusage(RUSAGE_THREAD, &usage);
        return usage.ru_nivcsw;
    }
};

// The order turns from round to round, so that no contestant always follows the same one. Two
// rounds of warm-up, one for those that are slow.
inline void measure(std::vector<Contestant *> contestants, const std::vector<Case> &cases,
                    Effort effort)
{
    for (Contestant *c : contestants)
        if (c->time(cases, 0) < 0.02)
            c->time(cases, 1);
    for (std::size_t round = 0; round < effort.rounds; round++) {
        for (Contestant *c : contestants) {
            if (c->spent > effort.seconds && c->samples.size() >= effort.fewest)
                continue;
            double seconds = c->time(cases, round);
            c->spent += seconds;
            c->samples.add(1e6 * seconds / static_cast<double>(c->batch));
        }
        std::rotate(contestants.begin(), contestants.begin() + 1, contestants.end());
    }
}

#endif
