#include "goals.hpp"

#include <cstdio>

static std::string shown(double number) {
    char text[32];
    std::snprintf(text, sizeof text, "%.2f", number);
    return text;
}

void Goals::at_most(const std::string &what, double measured, double limit) {
    lines.push_back({what, "at most " + shown(limit), shown(measured), measured <= limit ? "yes" : "NO"});
}

void Goals::at_least(const std::string &what, double measured, double limit) {
    lines.push_back({what, "at least " + shown(limit), shown(measured), measured >= limit ? "yes" : "NO"});
}

void Goals::left_out(const std::string &what) { lines.push_back({what, "", "", "not on this machine"}); }

void Goals::print() const {
    std::printf("\n| goal | wanted | measured | met |\n|---|---|---|---|\n");
    for (const Line &line : lines) {
        std::printf("| %s | %s | %s | %s |\n", line.what.c_str(), line.wanted.c_str(), line.measured.c_str(), line.met.c_str());
    }
}
