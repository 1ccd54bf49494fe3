#include "problem.hpp"

#include <algorithm>

static void append(Numbers &to, const Numbers &from) { to.insert(to.end(), from.begin(), from.end()); }

static void append(Rows &to, const Rows &from) {
    append(to.kind, from.kind);
    append(to.name, from.name);
    append(to.size, from.size);
}

Rows term(uint32_t kind, uint32_t name, const std::vector<Rows> &arguments) {
    Rows rows{{kind}, {name}, {1}};
    for (const Rows &argument : arguments) append(rows, argument);
    rows.size[0] = static_cast<uint32_t>(rows.size.size());
    return rows;
}

static size_t variables_of(const Rows &pattern) {
    uint32_t beyond = 0;
    for (size_t k = 0; k < pattern.kind.size(); k++) {
        if (pattern.kind[k] != 0) beyond = std::max(beyond, pattern.name[k] + 1);
    }
    return beyond;
}

Problem::Problem(const Rows &tree, const Rows &pattern, const Rows &expressions, const Numbers &constrained)
    : label(tree.name), size(tree.size), pattern(pattern), expressions(expressions), constraint(2 * variables_of(pattern)) {
    for (size_t k = 0; k < constrained.size(); k++) constraint[2 * k] = constrained[k];
}

khargovsun_listing Problem::list(uint32_t budget, uint32_t *out, size_t length) const {
    const Rows &p = pattern, &e = expressions;
    return khargovsun_list(label.data(), label.size(), size.data(), size.size(), p.kind.data(), p.kind.size(), p.name.data(),
                           p.name.size(), p.size.data(), p.size.size(), e.kind.data(), e.kind.size(), e.name.data(), e.name.size(),
                           e.size.data(), e.size.size(), constraint.data(), constraint.size(), budget, out, length);
}

khargovsun_listing Problem::list_after(const Numbers &record, uint32_t budget, Numbers &out) const {
    const Rows &p = pattern, &e = expressions;
    return khargovsun_list_after(label.data(), label.size(), size.data(), size.size(), p.kind.data(), p.kind.size(), p.name.data(),
                                 p.name.size(), p.size.data(), p.size.size(), e.kind.data(), e.kind.size(), e.name.data(), e.name.size(),
                                 e.size.data(), e.size.size(), constraint.data(), constraint.size(), record.data(), record.size(), budget,
                                 out.data(), out.size());
}

Panel::Panel(const std::vector<Problem> &problems, uint32_t budget, uint32_t share)
    : label(problems[0].label), size(problems[0].size), budgets(problems.size(), budget), shares(problems.size(), share) {
    for (const Problem &one : problems) {
        append(patterns, one.pattern);
        append(expressions, one.expressions);
        append(constraints, one.constraint);
        pattern_rows.push_back(static_cast<uint32_t>(one.pattern.size.size()));
        expression_rows.push_back(static_cast<uint32_t>(one.expressions.size.size()));
        constraint_numbers.push_back(static_cast<uint32_t>(one.constraint.size()));
    }
}

uint32_t Panel::list(Numbers &out, std::vector<khargovsun_listing> &answers) const {
    const Rows &p = patterns, &e = expressions;
    khargovsun_problems all{{label.data(), size.data(), size.size()},
                            {p.kind.data(), p.name.data(), p.size.data(), p.size.size()},
                            {e.kind.data(), e.name.data(), e.size.data(), e.size.size()},
                            {constraints.data(), constraints.size()},
                            pattern_rows.data(),
                            expression_rows.data(),
                            constraint_numbers.data(),
                            budgets.data(),
                            shares.data(),
                            shares.size()};
    return khargovsun_list_panel(&all, {out.data(), out.size()}, answers.data());
}

Rows between_a_and_b(uint32_t name, std::vector<Rows> before) {
    for (const Rows &next : {sequence(0), symbol(A), sequence(1), symbol(B), sequence(2)}) before.push_back(next);
    return symbol(name, before);
}

std::vector<Rows> alternating(size_t leaves) {
    std::vector<Rows> all;
    for (size_t k = 0; k < leaves; k++) all.push_back(symbol(k % 2 ? B : A));
    return all;
}

Rows chains() {
    std::vector<Rows> all;
    for (uint32_t k = 0; k < 33; k++) {
        Rows chain = symbol(B);
        for (uint32_t row = 1; row < 60; row++) chain = symbol(SYMBOLS[(row * (k + 1) + row / 5) % 5], {chain});
        all.push_back(chain);
    }
    return symbol(G, all);
}

static Rows any_of(const std::vector<Rows> &letters) {
    Rows all = letters[0];
    for (size_t k = 1; k < letters.size(); k++) all = choice(all, letters[k]);
    return repetition(all);
}

Rows a_or_b() { return any_of({symbol(A), symbol(B)}); }
Rows any_label() { return any_of({symbol(G), symbol(F), symbol(H), symbol(A), symbol(B)}); }
