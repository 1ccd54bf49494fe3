// How everything here is timed: process CPU time, a round by its middle turn, the best of the rounds. README.md says why.
#pragma once
#include <algorithm>
#include <cstdio>
#include <cstdlib>
#include <ctime>
#include <vector>

[[noreturn]] inline void fail(const char *what, const char *why) {
    std::fprintf(stderr, "bench/lister: %s: %s\n", what, why);
    std::exit(1);
}

inline double now() {
    timespec t;
    clock_gettime(CLOCK_PROCESS_CPUTIME_ID, &t);
    return static_cast<double>(t.tv_sec) + static_cast<double>(t.tv_nsec) * 1e-9;
}

class Timed {
public:
    template <class Work> void turn(Work work) {
        double from = now();
        work();
        turns.push_back(now() - from);
    }

    void end_round() {
        std::sort(turns.begin(), turns.end());
        double middle = turns[turns.size() / 2];
        if (best == 0 || middle < best) best = middle;
        turns.clear();
    }

    double seconds() const { return best; }

private:
    std::vector<double> turns;
    double best = 0;
};
