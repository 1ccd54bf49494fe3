// How many bytes of stack each exported function takes on the deepest inputs: it is called on a painted stack, and the paint is looked at.
#include <sys/mman.h>
#include <ucontext.h>

#include <algorithm>
#include <cstdio>
#include <cstdlib>
#include <functional>
#include <string>

#include "../lister/problem.hpp"

namespace {

constexpr size_t STACK = 1 << 20, DEEPEST = 64, MOST_ROWS = 2048, MOST_VARIABLES = 16, ENTRIES = 2 * MOST_VARIABLES * 1000;
constexpr unsigned char PAINT = 0xA5;
const char DICTIONARY[] = "g\nf\nh\na\nb\n";

[[noreturn]] void fail(const char *why) {
    std::fprintf(stderr, "bench/stack: %s\n", why);
    std::exit(1);
}

// ---- The painted stack ----

ucontext_t outside, inside;
const std::function<void()> *work;

void enter() { (*work)(); }

// Bytes from the top of a fresh stack to the lowest byte that lost its paint.
size_t touched(const std::function<void()> &wanted) {
    void *at = mmap(nullptr, STACK, PROT_READ | PROT_WRITE, MAP_PRIVATE | MAP_ANONYMOUS, -1, 0);
    if (at == MAP_FAILED) fail("no memory");
    auto *stack = static_cast<unsigned char *>(at);
    std::fill(stack, stack + STACK, PAINT);
    work = &wanted;
    getcontext(&inside);
    inside.uc_stack.ss_sp = stack;
    inside.uc_stack.ss_size = STACK;
    inside.uc_link = &outside;
    makecontext(&inside, enter, 0);
    swapcontext(&outside, &inside);
    size_t bare = static_cast<size_t>(std::find_if(stack, stack + STACK, [](unsigned char b) { return b != PAINT; }) - stack);
    munmap(at, STACK);
    return STACK - bare;
}

// Without what it takes to get there and back.
size_t taken(const std::function<void()> &wanted) { return touched(wanted) - touched([] {}); }

struct Most {
    size_t check = 0, read = 0, list = 0, list_after = 0, panel = 0, test = 0, instance = 0, spelling = 0;
};

void measure(size_t &most, const std::function<void()> &wanted) { most = std::max(most, taken(wanted)); }

// ---- Documents ----

std::string chain(size_t depth) {
    std::string all;
    for (size_t k = 0; k < depth; k++) all += k % 2 ? "<g>" : "<name>";
    for (size_t k = depth; k > 0; k--) all += (k - 1) % 2 ? "</g>" : "</name>";
    return all;
}

std::string wide() {
    std::string all = "<g>";
    for (size_t k = 1; k < MOST_ROWS; k++) all += "<n" + std::to_string(k) + "/>";
    return all + "</g>";
}

std::string many_names() {
    std::string all;
    for (size_t k = 0; k < 1024; k++) all += "n" + std::to_string(k) + "\n";
    return all;
}

const uint8_t *bytes(const std::string &text) { return reinterpret_cast<const uint8_t *>(text.data()); }

void measure_document(Most &most, const std::string &dictionary, const std::string &document) {
    Numbers label(MOST_ROWS), size(MOST_ROWS), start(MOST_ROWS), length(MOST_ROWS);
    auto d = bytes(dictionary), x = bytes(document);
    size_t dn = dictionary.size(), xn = document.size();
    measure(most.check, [&] { khargovsun_check(d, dn, x, xn); });
    measure(most.read, [&] {
        khargovsun_read(d, dn, x, xn, label.data(), label.size(), size.data(), size.size(), start.data(), start.size(), length.data(),
                        length.size());
    });
    measure(most.spelling, [&] {
        khargovsun_spelling(d, dn, x, xn, label.data(), label.size(), start.data(), start.size(), length.data(), length.size(), 1);
    });
}

// ---- Problems ----

// `levels` rows of kind and name, one inside the other, above the rows.
Rows above(size_t levels, uint32_t kind, uint32_t name, Rows rows) {
    while (levels-- > 0) rows = term(kind, name, {rows});
    return rows;
}

// Each variable once, from the outermost to the innermost.
Rows variables_above(uint32_t kind, Rows rows) {
    for (uint32_t k = MOST_VARIABLES; k > 0; k--) rows = term(kind, k - 1, {rows});
    return rows;
}

// f(x0*, f(x1*, .. )): a choice on every level.
Rows sequences_above(Rows rows) {
    for (uint32_t k = MOST_VARIABLES; k > 0; k--) rows = symbol(F, {sequence(k - 1), rows});
    return rows;
}

// As deep as can be and near 256 rows: what is below a row stands behind its other arguments, or before them.
Rows comb(size_t before, size_t behind) {
    Rows rows = symbol(A);
    for (size_t depth = 1; depth < DEEPEST; depth++) {
        std::vector<Rows> arguments(before, symbol(B));
        arguments.push_back(rows);
        arguments.insert(arguments.end(), behind, symbol(B));
        rows = symbol(F, arguments);
    }
    return rows;
}

// Two equal subterms at the bottom, so that a later appearance is compared far down.
Rows twice(const Rows &one) { return symbol(F, {one, one}); }

std::vector<Problem> problems() {
    Rows a = symbol(A), tree = above(DEEPEST - 1, 0, F, a), letter = above(DEEPEST - 1, 4, 0, a);
    Rows both = above(DEEPEST / 2, 0, F, twice(above(DEEPEST / 2 - 2, 0, F, a)));
    auto down_to_both = [&](const Rows &last) { return above(DEEPEST / 2, 0, F, twice(last)); };
    return {
        {tree, tree},
        {comb(3, 0), comb(3, 0)},
        {comb(0, 3), comb(0, 3)},
        {symbol(G, alternating(255)), symbol(G, alternating(255))},
        {tree, above(DEEPEST - 1, 3, 0, a)},
        {tree, above(DEEPEST - 1, 0, F, individual(0))},
        {tree, above(DEEPEST - 1, 0, F, sequence(0))},
        {tree, above(DEEPEST - 1, 0, F, sequence(0)), letter, {1}},
        {tree, variables_above(4, above(DEEPEST - MOST_VARIABLES - 1, 0, F, a))},
        {tree, variables_above(4, above(DEEPEST - MOST_VARIABLES - 1, 0, F, a)), letter, Numbers(MOST_VARIABLES, 1)},
        {tree, variables_above(3, above(DEEPEST - MOST_VARIABLES - 1, 0, F, a))},
        {tree, sequences_above(above(DEEPEST - MOST_VARIABLES - 1, 0, F, a))},
        {tree, above(DEEPEST - 1, 4, 0, a)},
        {tree, above(DEEPEST / 2, 4, 0, above(DEEPEST / 2 - 1, 0, F, a))},
        {both, down_to_both(individual(0))},
        {both, down_to_both(sequence(0))},
        {both, down_to_both(context(0, a))},
        {both, down_to_both(context(0, a)), letter, {1}},
    };
}

// Records: of matchers where there are some, and of the values that make a large instance.
std::vector<Numbers> records(const Problem &p, const Numbers &listed, size_t count) {
    size_t length = 2 * p.variables();
    std::vector<Numbers> all;
    for (auto from = listed.begin(); all.size() < std::min<size_t>(count, 4); from += length) all.emplace_back(from, from + length);
    Numbers large(length);
    for (size_t k = 0; k < p.pattern.kind.size(); k++) {
        if (p.pattern.kind[k] == 4) large[2 * p.pattern.name[k] + 1] = DEEPEST / 2 - 1;
    }
    all.push_back(large);
    return all;
}

void measure_record(Most &most, const Problem &p, const Numbers &record) {
    const Rows &q = p.pattern, &e = p.expressions;
    Numbers label(MOST_ROWS), size(MOST_ROWS), out(ENTRIES);
    measure(most.list_after, [&] { p.list_after(record, 100000, out); });
    measure(most.test, [&] {
        khargovsun_test(p.label.data(), p.label.size(), p.size.data(), p.size.size(), q.kind.data(), q.kind.size(), q.name.data(),
                        q.name.size(), q.size.data(), q.size.size(), e.kind.data(), e.kind.size(), e.name.data(), e.name.size(),
                        e.size.data(), e.size.size(), p.constraint.data(), p.constraint.size(), record.data(), record.size());
    });
    measure(most.instance, [&] {
        khargovsun_instance(p.label.data(), p.label.size(), p.size.data(), p.size.size(), q.kind.data(), q.kind.size(), q.name.data(),
                            q.name.size(), q.size.data(), q.size.size(), record.data(), record.size(), label.data(), label.size(),
                            size.data(), size.size());
    });
}

// As many times the problem as a panel may have.
void measure_panel(Most &most, const Problem &p) {
    Panel panel(std::vector<Problem>(KHARGOVSUN_MAX_PROBLEMS, p), 100000, ENTRIES);
    Numbers out(KHARGOVSUN_MAX_PROBLEMS * ENTRIES);
    std::vector<khargovsun_listing> answers(KHARGOVSUN_MAX_PROBLEMS);
    uint32_t code = 0;
    measure(most.panel, [&] { code = panel.list(out, answers); });
    if (code != 0 || answers.back().code != 0) fail("a panel is refused: a fault in stack.cpp");
}

void measure_problem(Most &most, const Problem &p) {
    Numbers out(ENTRIES);
    khargovsun_listing answer;
    measure(most.list, [&] { answer = p.list(100000, out); });
    if (answer.code != 0) fail("a problem is refused: a fault in stack.cpp");
    measure_panel(most, p);
    for (const Numbers &record : records(p, out, answer.records)) measure_record(most, p, record);
}

} // namespace

int main() {
    Most most;
    for (const std::string &document : {chain(DEEPEST), chain(DEEPEST + 1), chain(3000), wide(), std::string("<g>text</g>"), std::string("<g>")}) {
        measure_document(most, DICTIONARY, document);
        measure_document(most, many_names(), document);
    }
    for (const Problem &problem : problems()) measure_problem(most, problem);
    std::printf("| function | bytes of stack |\n|---|---|\n");
    std::printf("| khargovsun_check | %zu |\n| khargovsun_read | %zu |\n", most.check, most.read);
    std::printf("| khargovsun_list | %zu |\n| khargovsun_list_after | %zu |\n| khargovsun_panel | %zu |\n", most.list, most.list_after,
                most.panel);
    std::printf("| khargovsun_test | %zu |\n| khargovsun_instance | %zu |\n| khargovsun_spelling | %zu |\n", most.test, most.instance,
                most.spelling);
    return 0;
}
