// The time a byte that khargovsun_check takes on deep documents, beside flat ones, in one process. README.md says what is measured.
#include <cstdint>
#include <cstdio>
#include <string>
#include <vector>

#include "../../include/khargovsun.h"
#include "../lister/timing.hpp"

namespace {

constexpr size_t MOST_BYTES = 32768;
constexpr int ROUNDS = 20, TURNS = 21;
const char DICTIONARY[] = "g\nf\n";

std::string times(const char *part, size_t count) {
    std::string all;
    while (count-- > 0) all += part;
    return all;
}

// As many of the part as fit between a root's tags.
std::string filled(const std::string &part) {
    std::string all = "<r>";
    while (all.size() + part.size() + 4 <= MOST_BYTES) all += part;
    return all + "</r>";
}

// So many elements within each other, and back.
std::string chain(size_t depth) { return times("<g>", depth) + times("</g>", depth); }

// A document's start, and then for each of its open elements the part and its end tag, as far as there is room for the part.
std::string ending(const std::string &start, size_t open, const std::string &part) {
    std::string all = start;
    for (size_t left = open; left > 0; left--) {
        if (all.size() + part.size() + 4 * left > MOST_BYTES) return all + times("</g>", left);
        all += part + "</g>";
    }
    return all;
}

// Open elements with whole ones between them: what stands between two open names is walked over where they are found again.
std::string spread(size_t open, const char *between, size_t count) {
    std::string all;
    while (open-- > 0) all += "<g>" + times(between, count);
    return all;
}

struct Document {
    const char *name;
    std::string bytes;
    uint32_t code;
    Timed time;
};

std::vector<Document> documents() {
    return {
        {"flat, 1,985 rows", filled("<list-of-items>a</list-of-items >"), 0, {}},
        {"flat, 4,681 rows", filled("<g></g>"), 5, {}},
        {"10,922 open", times("<g>", 10922), 3, {}},
        {"4,681 deep", chain(4681), 4, {}},
        {"100 deep, again and again", filled(chain(100)), 4, {}},
        {"65 deep, again and again", filled(chain(65)), 4, {}},
        {"100 open in 1,500 bytes, 50 deep in each", ending(times("<g>", 64) + spread(100, "<f/>", 3), 164, chain(50)), 4, {}},
        {"17 open in a thousand bytes, 34 deep in each", ending(times("<g>", 40) + spread(17, "<f/>", 15), 57, chain(34)), 4, {}},
        {"200 open, 100 bytes between, 20 deep in each", ending(spread(200, "<f/>", 25), 200, chain(20)), 4, {}},
        {"1,000 open, 16 bytes between", ending(spread(1000, "<f/>", 4), 1000, ""), 4, {}},
        {"200 open, text with > and ] between", ending(spread(200, "0 > 1 ] ", 12), 200, chain(3)), 4, {}},
    };
}

uint32_t check(const std::string &bytes) {
    uint64_t answer = khargovsun_check(reinterpret_cast<const uint8_t *>(DICTIONARY), sizeof DICTIONARY - 1,
                                       reinterpret_cast<const uint8_t *>(bytes.data()), bytes.size());
    return static_cast<uint32_t>(answer >> 32);
}

// The first two documents are the flat ones.
void print(const std::vector<Document> &all) {
    std::vector<double> each;
    for (const Document &d : all) each.push_back(d.time.seconds() * 1e9 / static_cast<double>(d.bytes.size()));
    std::printf("| document | bytes | code | ns a byte | by the first | by the second |\n|---|---|---|---|---|---|\n");
    for (size_t k = 0; k < all.size(); k++)
        std::printf("| %s | %zu | %u | %.2f | %.1f | %.1f |\n", all[k].name, all[k].bytes.size(), all[k].code, each[k], each[k] / each[0], each[k] / each[1]);
}

} // namespace

int main() {
    std::vector<Document> all = documents();
    for (const Document &d : all) {
        if (d.bytes.size() > MOST_BYTES) fail(d.name, "over 32,768 bytes: a fault in depth.cpp");
        if (check(d.bytes) != d.code) fail(d.name, "not the code that 01 gives");
    }
    for (int round = 0; round < ROUNDS; round++) {
        for (int turn = 0; turn < TURNS; turn++)
            for (Document &d : all) d.time.turn([&] { check(d.bytes); });
        for (Document &d : all) d.time.end_round();
    }
    print(all);
}
