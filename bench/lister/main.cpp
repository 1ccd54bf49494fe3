// The lister beside pugixml, libxml2, SWI-Prolog and Maude. `run` builds and starts it; README.md says what is measured.
#include <cstdio>
#include <set>
#include <string>

#include "parts.hpp"
#include "timing.hpp"

int main(int count, char **words) {
    if (count < 3) fail("arguments", "the commands for SWI-Prolog and Maude are wanted, empty where there is none, then the parts");
    std::set<std::string> parts(words + 3, words + count);
    if (parts.empty()) parts = {"q", "matchers", "tries", "pages", "panel"};
    Goals goals;
    if (parts.erase("q")) measure_q(goals);
    if (parts.erase("matchers")) measure_matchers(goals, words[1], words[2]);
    if (parts.erase("tries")) measure_tries(goals);
    if (parts.erase("pages")) measure_pages(goals);
    if (parts.erase("panel")) measure_panel(goals);
    if (!parts.empty()) fail(parts.begin()->c_str(), "no such part: q, matchers, tries, pages and panel are there");
    goals.print();
    return 0;
}
