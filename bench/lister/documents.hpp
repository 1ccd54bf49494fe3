// The documents that are searched: 24 of about 26 kB and 2,000 rows, the same on every machine.
#pragma once
#include <string>
#include <vector>

#include "problem.hpp"

struct Document {
    std::string name, bytes;
    unsigned f_rows; // elements named f; no text is spelled f
};

std::vector<Document> documents();

constexpr size_t MOST_ROWS = 2048;

// Its tree, as our reader gives it, by the dictionary g, f, h, a, b.
Rows tree_of(const Document &document);
