// Nanoseconds a try. What comes before the first try (the checks, the tables of the constraints) is timed with budget 0 and taken off.
#include <cstdio>
#include <deque>
#include <string>

#include "parts.hpp"
#include "problem.hpp"
#include "timing.hpp"

namespace {

constexpr int ROUNDS = 10, TURNS = 9;
constexpr uint32_t BUDGET = 100000;

struct Case {
    std::string name;
    Problem problem;
    khargovsun_listing expected{};
    Timed all, before{};

    Case(const std::string &name, const Problem &problem) : name(name), problem(problem) {}

    double nanoseconds() const { return (all.seconds() - before.seconds()) / expected.tries * 1e9; }
};

// ---- Trees and patterns ----

// A fixed generator: every machine measures the same tree.
std::vector<Rows> mixed(size_t leaves) {
    std::vector<Rows> all;
    for (uint32_t random = 2463534242u; all.size() < leaves;) {
        random ^= random << 13;
        random ^= random >> 17;
        random ^= random << 5;
        all.push_back(symbol(SYMBOLS[random % 5]));
    }
    return all;
}

std::vector<Rows> after(size_t before, std::vector<Rows> leaves) {
    leaves.insert(leaves.begin(), before, symbol(H));
    return leaves;
}

Rows below(size_t holders, Rows rows) {
    while (holders-- > 0) rows = symbol(G, {rows});
    return rows;
}

// No symbol stands behind the sequences, so that no label tells a value that fails.
Rows between_individuals(uint32_t name) {
    return symbol(name, {sequence(0), individual(1), sequence(2), individual(3), sequence(4)});
}

// The second sequence stands before one term and the list's end: every value of it is walked with, and all but one fail there.
Rows walked(uint32_t name) { return symbol(name, {sequence(0), individual(1), sequence(2), individual(3)}); }

// ---- Measuring ----

class Cases {
public:
    const Case &add(const std::string &name, const Problem &problem) { return all.emplace_back(name, problem); }

    void measure() {
        for (Case &c : all) expect(c);
        for (int round = 0; round < ROUNDS; round++) time_round();
    }

    void print() const {
        std::printf("\n| problem, budget %u | tries | records | before the first try, µs | ns a try |\n|---|---|---|---|---|\n", BUDGET);
        for (const Case &c : all) {
            std::printf("| %s | %u | %u | %.1f | %.2f |\n", c.name.c_str(), c.expected.tries, c.expected.records,
                        c.before.seconds() * 1e6, c.nanoseconds());
        }
    }

private:
    void expect(Case &c) {
        size_t most = 2 * c.problem.variables() * BUDGET;
        if (out.size() < most) out.resize(most);
        c.expected = c.problem.list(BUDGET, out);
        if (c.expected.code != 0 || c.expected.ending == 1 || c.expected.tries == 0) fail(c.name.c_str(), "not listed as wanted");
    }

    void time_round() {
        khargovsun_listing answer;
        for (int turn = 0; turn < TURNS; turn++) {
            for (Case &c : all) {
                c.before.turn([&] { answer = c.problem.list(0, out); });
                if (answer.code != 0 || answer.ending != 2) fail(c.name.c_str(), "tries without budget");
                c.all.turn([&] { answer = c.problem.list(BUDGET, out); });
                if (answer.tries != c.expected.tries || answer.records != c.expected.records) fail(c.name.c_str(), "another answer");
            }
        }
        for (Case &c : all) {
            c.before.end_round();
            c.all.end_round();
        }
    }

    std::deque<Case> all; // a deque, since the goals keep references to its cases
    Numbers out;
};

struct Pair {
    std::string what;
    const Case &dear, &cheap;
    double limit;
};

using Pairs = std::vector<Pair>;

void add_larger_trees(Cases &cases, Pairs &pairs) {
    const Case &small = cases.add("g(x\\*, a, y\\*, b, z\\*) on 100 leaves", {symbol(G, alternating(100)), between_a_and_b(G)});
    const Case &large = cases.add("the same on 2,000 leaves", {symbol(G, alternating(2000)), between_a_and_b(G)});
    const Case &few = cases.add("g(x\\*, i, y\\*, j, z\\*), i and j individuals, on 100 leaves",
                                {symbol(G, alternating(100)), between_individuals(G)});
    const Case &many = cases.add("the same on 2,000 leaves", {symbol(G, alternating(2000)), between_individuals(G)});
    pairs.push_back({"a try on 2,000 leaves / on 100, before symbols", large, small, 1.3});
    pairs.push_back({"a try on 2,000 leaves / on 100, before individuals", many, few, 1.3});
}

// Behind k rows: g and k - 1 leaves to the left, or k - 1 rows around and f.
void add_longer_patterns(Cases &cases, Pairs &pairs) {
    const Case *beside[2], *inside[2], *each[2];
    for (int k = 0; k < 2; k++) {
        size_t rows = k ? 30 : 3;
        std::string behind = std::to_string(rows) + " pattern rows, 100 leaves";
        beside[k] = &cases.add("x\\*, a, y\\*, b, z\\* with, to its left, " + behind,
                               {symbol(G, after(rows - 1, alternating(100))), between_a_and_b(G, after(rows - 1, {}))});
        inside[k] = &cases.add("x\\*, a, y\\*, b, z\\* with, around it, " + behind,
                               {below(rows - 1, symbol(F, alternating(100))), below(rows - 1, between_a_and_b(F))});
        each[k] = &cases.add("x\\*, i, y\\*, j, each try walked, with, around it, " + behind,
                             {below(rows - 1, symbol(F, alternating(100))), below(rows - 1, walked(F))});
    }
    pairs.push_back({"a try behind 30 pattern rows / behind 3, to the left", *beside[1], *beside[0], 1.5});
    pairs.push_back({"a try behind 30 pattern rows / behind 3, around", *inside[1], *inside[0], 1.5});
    pairs.push_back({"a try behind 30 pattern rows / behind 3, around, each try walked", *each[1], *each[0], 1.5});
}

void add_constrained_sequences(Cases &cases, Pairs &pairs) {
    Rows tree = symbol(F, alternating(200)), pattern = between_a_and_b(F), free = between_individuals(F);
    const Case &none = cases.add("f(x\\*, a, y\\*, b, z\\*) on 200 leaves", {tree, pattern});
    const Case &one = cases.add("the same, x\\* in (a\\|b)\\*", {tree, pattern, a_or_b(), {1, 0, 0}});
    const Case &three = cases.add("the same, x\\*, y\\*, z\\* in (a\\|b)\\*", {tree, pattern, a_or_b(), {1, 1, 1}});
    const Case &open = cases.add("f(x\\*, i, y\\*, j, z\\*), i and j individuals, on 200 leaves", {tree, free});
    const Case &held = cases.add("the same, x\\*, y\\*, z\\* in (a\\|b)\\*", {tree, free, a_or_b(), {1, 0, 1, 0, 1}});
    const Case &each = cases.add("f(x\\*, i, y\\*, j), each try walked, on 200 leaves", {tree, walked(F)});
    const Case &judged = cases.add("the same, x\\*, y\\* in (a\\|b)\\*", {tree, walked(F), a_or_b(), {1, 0, 1, 0}});
    pairs.push_back({"constrained / unconstrained, x\\* before a symbol", one, none, 4});
    pairs.push_back({"constrained / unconstrained, x\\*, y\\*, z\\* before symbols", three, none, 4});
    pairs.push_back({"constrained / unconstrained, x\\*, y\\*, z\\* before individuals", held, open, 4});
    pairs.push_back({"constrained / unconstrained, x\\*, y\\*, each try walked", judged, each, 4});
}

void add_constrained_contexts(Cases &cases, Pairs &pairs) {
    Rows tree = chains(), symbol_inside = two_contexts(symbol(B)), individual_inside = two_contexts(individual(2));
    const Case &none = cases.add("context 0 over context 1 over b, on 33 chains of 60 rows", {tree, symbol_inside});
    const Case &both = cases.add("the same, paths in (g\\|f\\|h\\|a\\|b)\\*", {tree, symbol_inside, any_label(), {1, 1}});
    const Case &open = cases.add("context 0 over context 1 over an individual, there", {tree, individual_inside});
    const Case &held = cases.add("the same, paths in (g\\|f\\|h\\|a\\|b)\\*", {tree, individual_inside, any_label(), {1, 1, 0}});
    pairs.push_back({"constrained / unconstrained, contexts over a symbol", both, none, 4});
    pairs.push_back({"constrained / unconstrained, contexts over an individual", held, open, 4});
}

void add_repeated(Cases &cases) {
    cases.add("g(x\\*, x\\*, y\\*) on 2,000 leaves of mixed labels",
              {symbol(G, mixed(2000)), symbol(G, {sequence(0), sequence(0), sequence(1)})});
}

} // namespace

void measure_tries(Goals &goals) {
    Cases cases;
    Pairs pairs;
    add_larger_trees(cases, pairs);
    add_longer_patterns(cases, pairs);
    add_constrained_sequences(cases, pairs);
    add_constrained_contexts(cases, pairs);
    add_repeated(cases);
    cases.measure();
    cases.print();
    for (const Pair &pair : pairs) goals.at_most(pair.what, pair.dear.nanoseconds() / pair.cheap.nanoseconds(), pair.limit);
}
