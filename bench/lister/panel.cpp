// A panel of 16 times Q beside 16 calls of Q on the same tree: with room for all matchers, and with room for ten each.
#include <cstdio>

#include "documents.hpp"
#include "parts.hpp"
#include "problem.hpp"
#include "timing.hpp"

namespace {

constexpr int ROUNDS = 20, TURNS = 11;
constexpr size_t PROBLEMS = 16, WIDTH = 4, FRONT_PAGE = 10;
constexpr uint32_t BUDGET = 4294967295u, UNWRITTEN = 4027514880u;

// One document with one room, by the panel and by single calls, which write to the same places.
class Race {
public:
    Race(const Document &document, const Problem &q, size_t records);

    void time(bool panel_first, Numbers &out);
    void end_round();

    double panel() const { return panel_time.seconds(); }
    double calls() const { return calls_time.seconds(); }
    double ratio() const { return panel() / calls(); }

private:
    void by_panel(Numbers &out);
    void by_calls(Numbers &out);
    void time_panel(Numbers &out);
    void expect(const Document &document, size_t records);

    std::string name;
    Problem q;
    size_t share;
    Panel all;
    std::vector<khargovsun_listing> answers;
    khargovsun_listing expected{};
    Timed panel_time, calls_time{};
};

bool same(const khargovsun_listing &one, const khargovsun_listing &other) {
    return one.code == other.code && one.ending == other.ending && one.records == other.records && one.tries == other.tries;
}

Race::Race(const Document &document, const Problem &q, size_t records)
    : name(document.name), q(q), share(WIDTH * records),
      all(std::vector<Problem>(PROBLEMS, q), BUDGET, static_cast<uint32_t>(share)), answers(PROBLEMS) {
    expect(document, records);
}

void Race::by_panel(Numbers &out) {
    if (all.list(out, answers) != 0) fail(name.c_str(), "the panel is refused");
}

void Race::by_calls(Numbers &out) {
    for (size_t k = 0; k < PROBLEMS; k++) answers[k] = q.list(BUDGET, out.data() + k * share, share);
}

// Both give the same answers and write the same numbers, and as many records as there are f's or as there is room for.
void Race::expect(const Document &document, size_t records) {
    Numbers one(PROBLEMS * share, UNWRITTEN), other(PROBLEMS * share, UNWRITTEN);
    by_calls(one);
    expected = answers[0];
    by_panel(other);
    for (const khargovsun_listing &answer : answers) {
        if (!same(answer, expected)) fail(name.c_str(), "the panel answers otherwise than a call");
    }
    if (one != other) fail(name.c_str(), "the panel writes otherwise than the calls");
    if (expected.code != 0 || expected.records != std::min<size_t>(document.f_rows, records)) fail(name.c_str(), "another number of records");
}

void Race::time_panel(Numbers &out) {
    panel_time.turn([&] { by_panel(out); });
    if (!same(answers[PROBLEMS - 1], expected)) fail(name.c_str(), "another answer");
}

void Race::time(bool panel_first, Numbers &out) {
    if (panel_first) time_panel(out);
    calls_time.turn([&] { by_calls(out); });
    if (!same(answers[PROBLEMS - 1], expected)) fail(name.c_str(), "another answer");
    if (!panel_first) time_panel(out);
}

void Race::end_round() {
    panel_time.end_round();
    calls_time.end_round();
}

struct Case {
    Document document;
    Race whole, front;

    Case(const Document &document, const Problem &q) : document(document), whole(document, q, MOST_ROWS), front(document, q, FRONT_PAGE) {}
};

// All documents in turn, so that no branch predictor learns one by heart; who goes first changes with the turn.
void time_round(std::vector<Case> &cases, Numbers &lists, Numbers &front_pages) {
    for (int turn = 0; turn < TURNS; turn++) {
        for (Case &c : cases) c.whole.time(turn % 2, lists);
        for (Case &c : cases) c.front.time(turn % 2, front_pages);
    }
    for (Case &c : cases) {
        c.whole.end_round();
        c.front.end_round();
    }
}

struct Sums {
    double panel = 0, calls = 0, ratio = 0, highest = 0;

    void add(const Race &race) {
        panel += race.panel() * 1e6;
        calls += race.calls() * 1e6;
        ratio += race.ratio();
        highest = std::max(highest, race.ratio());
    }

    void print(const char *room, double count) const {
        std::printf("average, %s: the panel %.1f µs, the calls %.1f µs, panel / calls %.2f, the highest %.2f\n", room, panel / count,
                    calls / count, ratio / count, highest);
    }
};

void print_line(const Case &c) {
    std::printf("| %s | %u | %.1f | %.1f | %.2f | %.1f | %.1f | %.2f |\n", c.document.name.c_str(), c.document.f_rows, c.whole.panel() * 1e6,
                c.whole.calls() * 1e6, c.whole.ratio(), c.front.panel() * 1e6, c.front.calls() * 1e6, c.front.ratio());
}

} // namespace

void measure_panel(Goals &goals) {
    std::vector<Case> cases;
    Numbers lists(PROBLEMS * WIDTH * MOST_ROWS), front_pages(PROBLEMS * WIDTH * FRONT_PAGE);
    Sums whole, front;
    for (const Document &document : documents()) cases.emplace_back(document, Problem(tree_of(document), q()));
    for (int round = 0; round < ROUNDS; round++) time_round(cases, lists, front_pages);
    std::printf("\n| document | f's | a panel of 16, all matchers, µs | 16 calls, µs | panel / calls | a panel of 16, ten each, µs | "
                "16 calls, µs | panel / calls |\n|---|---|---|---|---|---|---|---|\n");
    for (const Case &c : cases) {
        print_line(c);
        whole.add(c.whole);
        front.add(c.front);
    }
    double count = static_cast<double>(cases.size());
    std::printf("\n");
    whole.print("all matchers", count);
    front.print("ten each", count);
    goals.at_most("a panel of 16 / 16 calls of Q, average of the documents, all matchers", whole.ratio / count, 0.7);
    goals.at_most("a panel of 16 / 16 calls of Q, highest of the documents, all matchers", whole.highest, 0.7);
    goals.at_most("a panel of 16 / 16 calls of Q, average of the documents, ten each", front.ratio / count, 0.7);
    goals.at_most("a panel of 16 / 16 calls of Q, highest of the documents, ten each", front.highest, 0.7);
}
