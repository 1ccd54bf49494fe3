// Q beside `//f` of pugixml and libxml2 on the same documents. The trees are there before; our checks are in our time.
#include <cstdio>
#include <set>

#include "documents.hpp"
#include "parts.hpp"
#include "peers.hpp"
#include "problem.hpp"
#include "timing.hpp"

namespace {

constexpr int ROUNDS = 60, TURNS = 21;
constexpr uint32_t BUDGET = 4294967295u;

struct Case {
    Document document;
    Rows tree;
    Problem q, check; // the check: `a` is not the root's label, so nothing but the checks is done
    std::unique_ptr<Search> pugixml, libxml2;
    khargovsun_listing expected{};
    Timed q_time, check_time, pugixml_time, libxml2_time;

    Case(const Document &document, const Rows &tree)
        : document(document), tree(tree), q(tree, ::q()), check(tree, symbol(A)), pugixml(pugixml_search(document)),
          libxml2(libxml2_search(document)) {}

    double ratio() const { return q_time.seconds() / pugixml_time.seconds(); }
};

// Q's matchers are the rows with label f: all of them are listed, each with a hole of its own, and the others find as many.
void agree(Case &c, Numbers &out) {
    const char *name = c.document.name.c_str();
    c.expected = c.q.list(BUDGET, out);
    if (c.expected.code != 0 || c.expected.ending != 0) fail(name, "Q is not listed whole");
    std::set<uint32_t> holes;
    for (size_t k = 0; k < c.expected.records; k++) holes.insert(out[4 * k + 1]);
    if (holes.size() != c.document.f_rows || c.expected.records != c.document.f_rows) fail(name, "Q finds other rows than the f's");
    if (c.pugixml && c.pugixml->found() != holes.size()) fail(name, "pugixml finds another number of f's");
    if (c.libxml2 && c.libxml2->found() != holes.size()) fail(name, "libxml2 finds another number of f's");
    auto checked = c.check.list(BUDGET, out);
    if (checked.code != 0 || checked.tries != 0 || checked.records != 0) fail(name, "the check alone finds something");
}

void time_ours(Case &c, Numbers &out) {
    khargovsun_listing answer;
    c.q_time.turn([&] { answer = c.q.list(BUDGET, out); });
    if (answer.records != c.expected.records || answer.tries != c.expected.tries) fail(c.document.name.c_str(), "another answer");
    c.check_time.turn([&] { answer = c.check.list(BUDGET, out); });
    if (answer.code != 0) fail(c.document.name.c_str(), "another answer");
}

void time_search(const Case &c, Search *search, Timed &time) {
    size_t found = 0;
    if (!search) return;
    time.turn([&] { found = search->found(); });
    if (found != c.document.f_rows) fail(c.document.name.c_str(), "a library gives another answer than before");
}

void time_libraries(Case &c) {
    time_search(c, c.pugixml.get(), c.pugixml_time);
    time_search(c, c.libxml2.get(), c.libxml2_time);
}

// All documents in turn, so that no branch predictor learns one by heart; who goes first changes with the turn.
void time_round(std::vector<Case> &cases, Numbers &out) {
    for (int turn = 0; turn < TURNS; turn++) {
        for (Case &c : cases) {
            if (turn % 2) time_libraries(c);
            time_ours(c, out);
            if (turn % 2 == 0) time_libraries(c);
        }
    }
    for (Case &c : cases) {
        c.q_time.end_round();
        c.check_time.end_round();
        if (c.pugixml) c.pugixml_time.end_round();
        if (c.libxml2) c.libxml2_time.end_round();
    }
}

struct Sums {
    double q = 0, check = 0, pugixml = 0, libxml2 = 0, rows = 0, ratio = 0, highest = 0;

    void add(const Case &c) {
        q += c.q_time.seconds() * 1e6;
        check += c.check_time.seconds() * 1e6;
        pugixml += c.pugixml_time.seconds() * 1e6;
        libxml2 += c.libxml2_time.seconds() * 1e6;
        rows += static_cast<double>(c.tree.name.size());
        if (!c.pugixml) return;
        ratio += c.ratio();
        highest = std::max(highest, c.ratio());
    }
};

void print_line(const Case &c) {
    double q = c.q_time.seconds();
    std::printf("| %s | %zu | %zu | %u | %u | %.1f | %.1f | ", c.document.name.c_str(), c.document.bytes.size(), c.tree.name.size(),
                c.document.f_rows, c.expected.tries, q * 1e6, c.check_time.seconds() * 1e6);
    if (c.pugixml) std::printf("%.1f | %.2f | ", c.pugixml_time.seconds() * 1e6, c.ratio());
    else std::printf("- | - | ");
    if (c.libxml2) std::printf("%.1f | %.2f |\n", c.libxml2_time.seconds() * 1e6, q / c.libxml2_time.seconds());
    else std::printf("- | - |\n");
}

Sums print_table(const std::vector<Case> &cases) {
    Sums sums;
    std::printf("\n| document | bytes | rows | f's | tries | Q, µs | check alone, µs | pugixml, µs | Q / pugixml | libxml2, µs | "
                "Q / libxml2 |\n|---|---|---|---|---|---|---|---|---|---|---|\n");
    for (const Case &c : cases) {
        print_line(c);
        sums.add(c);
    }
    double count = static_cast<double>(cases.size());
    std::printf("\naverage: Q %.1f µs, of it the check alone %.1f µs (%.2f ns a row)", sums.q / count, sums.check / count,
                sums.check / sums.rows * 1e3);
    if (cases[0].pugixml) std::printf("; pugixml %.1f µs", sums.pugixml / count);
    if (cases[0].libxml2) std::printf("; libxml2 %.1f µs", sums.libxml2 / count);
    std::printf("\n");
    return sums;
}

} // namespace

void measure_q(Goals &goals) {
    std::vector<Case> cases;
    Numbers out(4 * MOST_ROWS);
    for (const Document &document : documents()) {
        cases.emplace_back(document, tree_of(document));
        agree(cases.back(), out);
    }
    for (int round = 0; round < ROUNDS; round++) time_round(cases, out);
    Sums sums = print_table(cases);
    if (!cases[0].pugixml) return goals.left_out("Q / pugixml's `//f`");
    goals.at_most("Q / pugixml's `//f`, average of the documents", sums.ratio / static_cast<double>(cases.size()), 1);
    goals.at_most("Q / pugixml's `//f`, highest of the documents", sums.highest, 1.2);
}
