// All matchers of f(x*, a, y*, b, z*) on a b a b .., beside SWI-Prolog and Maude. They count and time themselves.
#include <cstdio>
#include <map>
#include <string>

#include "parts.hpp"
#include "problem.hpp"
#include "timing.hpp"

namespace {

constexpr int ROUNDS = 5, TURNS = 21;
constexpr uint32_t BUDGET = 4294967295u;
const size_t ARGUMENTS[] = {50, 100, 200};

// Best milliseconds by number of arguments; none where the program is not on this machine.
using Best = std::map<size_t, double>;

// An a is followed by every b that stands behind it: as many pairs as 1 + 2 + .. up to the a's.
size_t matchers(size_t arguments) { return arguments / 2 * (arguments / 2 + 1) / 2; }

// A program's lines: arguments, matchers, milliseconds for all of them.
void ask(const char *program, const char *command, Best &best) {
    if (!*command) return;
    std::fflush(stdout); // else the other program would print it once more
    FILE *lines = popen(command, "r");
    size_t arguments, found;
    double milliseconds;
    int read = 0;
    while (lines && std::fscanf(lines, "%zu %zu %lf", &arguments, &found, &milliseconds) == 3) {
        if (found != matchers(arguments)) fail(program, "another number of matchers");
        if (!best.count(arguments) || milliseconds < best[arguments]) best[arguments] = milliseconds;
        read++;
    }
    if (!lines || pclose(lines) != 0 || read != static_cast<int>(std::size(ARGUMENTS))) fail(program, "its answer is not understood");
}

// Answers the tries.
uint32_t list(size_t arguments, Best &best) {
    Problem problem(symbol(F, alternating(arguments)), between_a_and_b(F));
    Numbers out(2 * problem.variables() * matchers(arguments));
    Timed time;
    khargovsun_listing answer{};
    for (int turn = 0; turn < TURNS; turn++) {
        time.turn([&] { answer = problem.list(BUDGET, out); });
        if (answer.code != 0 || answer.ending != 0 || answer.records != matchers(arguments)) fail("the lister", "not all matchers");
    }
    time.end_round();
    double milliseconds = time.seconds() * 1e3;
    if (!best.count(arguments) || milliseconds < best[arguments]) best[arguments] = milliseconds;
    return answer.tries;
}

std::string shown(Best &best, size_t arguments, double ours) {
    char text[64];
    if (!best.count(arguments)) return "- | -";
    std::snprintf(text, sizeof text, "%.3f | %.2f", best[arguments], best[arguments] / ours);
    return text;
}

void add_goal(Goals &goals, const char *what, Best &best, double ours, double wanted) {
    if (best.count(200)) goals.at_least(what, best[200] / ours, wanted);
    else goals.left_out(what);
}

} // namespace

void measure_matchers(Goals &goals, const char *prolog_command, const char *maude_command) {
    Best ours, prolog, maude;
    std::map<size_t, uint32_t> tries;
    for (int round = 0; round < ROUNDS; round++) {
        for (size_t arguments : ARGUMENTS) tries[arguments] = list(arguments, ours);
        ask("SWI-Prolog", prolog_command, prolog);
        ask("Maude", maude_command, maude);
    }
    std::printf("\n| f(x\\*, a, y\\*, b, z\\*) | matchers | tries | lister, ms | SWI-Prolog, ms | SWI-Prolog / lister | Maude, ms | "
                "Maude / lister |\n|---|---|---|---|---|---|---|---|\n");
    for (size_t arguments : ARGUMENTS) {
        std::printf("| %zu arguments | %zu | %u | %.3f | %s | %s |\n", arguments, matchers(arguments), tries[arguments], ours[arguments],
                    shown(prolog, arguments, ours[arguments]).c_str(), shown(maude, arguments, ours[arguments]).c_str());
    }
    add_goal(goals, "SWI-Prolog / lister, 200 arguments", prolog, ours[200], 2);
    add_goal(goals, "Maude / lister, 200 arguments", maude, ours[200], 4);
}
