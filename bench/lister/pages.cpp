// Pages 1, 2, 50 and 100 of a list, each asked for by the last record before it, beside the list of so many pages from the start.
#include <cstdio>
#include <iterator>
#include <string>

#include "parts.hpp"
#include "problem.hpp"
#include "timing.hpp"

namespace {

constexpr int ROUNDS = 10, TURNS = 9;
constexpr uint32_t BUDGET = 4294967295u;
constexpr size_t WANTED[] = {1, 2, 50, 100};

struct Page {
    size_t number;
    Numbers before; // the last record before the page, unless it is the first
    khargovsun_listing expected{};
    Timed alone, from_start{};
};

class Case {
public:
    Case(const std::string &name, const Problem &problem, size_t records);

    void time_page(size_t place);
    void time_list(size_t place);
    void end_round();
    void print() const;
    void add_goals(Goals &goals) const;

private:
    khargovsun_listing ask(const Page &page) { return page.number == 1 ? problem.list(BUDGET, one) : problem.list_after(page.before, BUDGET, one); }
    void expect(Page &page);

    std::string name;
    Problem problem;
    size_t records; // on a page
    std::vector<Page> pages;
    Numbers all, one; // the list from the start, and one page
};

Case::Case(const std::string &name, const Problem &problem, size_t records)
    : name(name), problem(problem), records(records), one(records * 2 * problem.variables()) {
    all.resize(WANTED[3] * one.size());
    khargovsun_listing answer = problem.list(BUDGET, all);
    if (answer.code != 0 || answer.records != WANTED[3] * records) fail(name.c_str(), "not so many pages");
    for (size_t number : WANTED) {
        auto end = all.begin() + static_cast<long>((number - 1) * one.size());
        Page page{number, {}, {}, {}, {}};
        if (number > 1) page.before.assign(end - static_cast<long>(2 * problem.variables()), end);
        expect(page);
        pages.push_back(page);
    }
}

// The page is the part of the list that it should be.
void Case::expect(Page &page) {
    page.expected = ask(page);
    if (page.expected.code != 0 || page.expected.records != records) fail(name.c_str(), "not a full page");
    if (!std::equal(one.begin(), one.end(), all.begin() + static_cast<long>((page.number - 1) * one.size()))) fail(name.c_str(), "another page");
}

void Case::time_page(size_t place) {
    Page &page = pages[place];
    khargovsun_listing answer = ask(pages[0]);
    page.alone.turn([&] { answer = ask(page); });
    if (answer.tries != page.expected.tries || answer.records != records) fail(name.c_str(), "another answer");
}

void Case::time_list(size_t place) {
    Page &page = pages[place];
    khargovsun_listing answer = ask(pages[0]);
    all.resize(page.number * one.size());
    page.from_start.turn([&] { answer = problem.list(BUDGET, all); });
    if (answer.records != page.number * records) fail(name.c_str(), "another list");
}

void Case::end_round() {
    for (Page &page : pages) {
        page.alone.end_round();
        page.from_start.end_round();
    }
}

void Case::print() const {
    double first = pages[0].alone.seconds();
    std::printf("| %s |", name.c_str());
    for (const Page &page : pages) std::printf(" %u |", page.expected.tries);
    for (size_t k = 1; k < pages.size(); k++) std::printf(" %.2f |", pages[k].alone.seconds() / first);
    for (size_t k = 1; k < pages.size(); k++) std::printf(" %.1f |", pages[k].from_start.seconds() / pages[k].alone.seconds());
    std::printf("\n");
}

void Case::add_goals(Goals &goals) const {
    goals.at_most("page 100 / page 1, " + name, pages[3].alone.seconds() / pages[0].alone.seconds(), 1.5);
}

// Each call that is timed comes directly after one for page 1 that is not, so that all find the machine alike.
void time_round(std::vector<Case> &cases) {
    for (int turn = 0; turn < TURNS; turn++) {
        for (size_t place = 0; place < std::size(WANTED); place++) {
            for (Case &one : cases) one.time_page(place);
            for (Case &one : cases) one.time_list(place);
        }
    }
    for (Case &one : cases) one.end_round();
}

} // namespace

void measure_pages(Goals &goals) {
    Rows pairs = symbol(F, alternating(200)), blocks = symbol(G, std::vector<Rows>(600, symbol(F, {symbol(A)})));
    std::vector<Case> cases = {
        {"Q on 600 times f(a), 5 a page", {blocks, q()}, 5},
        {"Q on 600 times f(a), constrained, 5 a page", {blocks, q(), any_label(), {1, 1}}, 5},
        {"f(x\\*, a, y\\*, b, z\\*) on 200 leaves, 50 a page", {pairs, between_a_and_b(F)}, 50},
        {"f(x\\*, a, y\\*, b, z\\*) on 200 leaves, constrained, 50 a page", {pairs, between_a_and_b(F), a_or_b(), {1, 1, 1}}, 50},
        {"context 0 over context 1 over b on 33 chains, 20 a page", {chains(), two_contexts(symbol(B))}, 20},
        {"context 0 over context 1 over b on 33 chains, constrained, 20 a page", {chains(), two_contexts(symbol(B)), any_label(), {1, 1}}, 20},
    };
    for (int round = 0; round < ROUNDS; round++) time_round(cases);
    std::printf("\n| problem | tries on page 1 | 2 | 50 | 100 | page 2 / page 1 | 50 / 1 | 100 / 1 | 2 pages from the start / page 2 | 50 | 100 |\n"
                "|---|---|---|---|---|---|---|---|---|---|---|\n");
    for (const Case &one : cases) {
        one.print();
        one.add_goals(goals);
    }
}
