#include "peers.hpp"
#include "timing.hpp"

#ifdef WITH_PUGIXML
#include <pugixml.hpp>

namespace {

struct Pugixml : Search {
    pugi::xml_document document;
    pugi::xpath_query query{"//f"};
    size_t found() override { return query.evaluate_node_set(document).size(); }
};

} // namespace

std::unique_ptr<Search> pugixml_search(const Document &document) {
    auto search = std::make_unique<Pugixml>();
    if (!search->document.load_buffer(document.bytes.data(), document.bytes.size())) fail(document.name.c_str(), "pugixml refuses it");
    return search;
}
#else
std::unique_ptr<Search> pugixml_search(const Document &) { return nullptr; }
#endif
