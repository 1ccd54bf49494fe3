// The goals, gathered while measuring and printed at the end.
#pragma once
#include <string>
#include <vector>

class Goals {
public:
    void at_most(const std::string &what, double measured, double limit);
    void at_least(const std::string &what, double measured, double limit);
    void left_out(const std::string &what);
    void print() const;

private:
    struct Line {
        std::string what, wanted, measured, met;
    };
    std::vector<Line> lines;
};
