// A problem as the lister takes it, and terms to write one with.
#pragma once
#include <cstdint>
#include <vector>

#include "../../include/khargovsun.h"

using Numbers = std::vector<uint32_t>;

// Labels by the dictionary g, f, h, a, b: the elements g, f, h and the texts a, b.
enum Symbol : uint32_t { G = 0, F = 2, H = 4, A = 7, B = 9 };
constexpr Symbol SYMBOLS[] = {G, F, H, A, B};

// Rows of a pattern or of an expression; a tree is one of symbols only.
struct Rows {
    Numbers kind, name, size;
};

Rows term(uint32_t kind, uint32_t name, const std::vector<Rows> &arguments = {});

inline Rows symbol(uint32_t name, const std::vector<Rows> &arguments = {}) { return term(0, name, arguments); }
inline Rows individual(uint32_t name) { return term(1, name); }
inline Rows sequence(uint32_t name) { return term(2, name); }
inline Rows context(uint32_t name, const Rows &argument) { return term(4, name, {argument}); }

inline Rows choice(const Rows &one, const Rows &other) { return term(3, 0, {one, other}); }
inline Rows repetition(const Rows &of) { return term(4, 0, {of}); }

struct Problem {
    Numbers label, size;
    Rows pattern, expressions;
    Numbers constraint;

    // Constraints: for each variable the first row of its expression plus one, or 0. No flag is set.
    Problem(const Rows &tree, const Rows &pattern, const Rows &expressions = {}, const Numbers &constrained = {});

    khargovsun_listing list(uint32_t budget, uint32_t *out, size_t length) const;
    khargovsun_listing list(uint32_t budget, Numbers &out) const { return list(budget, out.data(), out.size()); }
    khargovsun_listing list_after(const Numbers &record, uint32_t budget, Numbers &out) const;
    size_t variables() const { return constraint.size() / 2; }
};

// Problems over one tree, laid end to end; each has the same budget and share.
struct Panel {
    Numbers label, size;
    Rows patterns, expressions;
    Numbers constraints, pattern_rows, expression_rows, constraint_numbers, budgets, shares;

    Panel(const std::vector<Problem> &problems, uint32_t budget, uint32_t share);

    uint32_t list(Numbers &out, std::vector<khargovsun_listing> &answers) const;
};

// Q: context 0 over f(sequence 1).
inline Rows q() { return context(0, symbol(F, {sequence(1)})); }

// name(x*, a, y*, b, z*), behind the given terms.
Rows between_a_and_b(uint32_t name, std::vector<Rows> before = {});

// a b a b ..
std::vector<Rows> alternating(size_t leaves);

// 33 chains of 60 rows below one root, all five labels on each.
Rows chains();

inline Rows two_contexts(const Rows &inside) { return context(0, context(1, inside)); }

// Repetitions that accept every word of a's and b's, and of all five labels.
Rows a_or_b();
Rows any_label();
