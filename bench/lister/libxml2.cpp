#include "peers.hpp"
#include "timing.hpp"

#ifdef WITH_LIBXML2
#include <libxml/parser.h>
#include <libxml/xpath.h>

namespace {

struct Libxml2 : Search {
    xmlDocPtr document;
    xmlXPathContextPtr context;
    xmlXPathCompExprPtr query;

    // White space only is no row with us, so it is no node here.
    explicit Libxml2(const std::string &bytes)
        : document(xmlReadMemory(bytes.data(), static_cast<int>(bytes.size()), nullptr, nullptr, XML_PARSE_NOBLANKS)),
          context(xmlXPathNewContext(document)), query(xmlXPathCompile(reinterpret_cast<const xmlChar *>("//f"))) {}

    ~Libxml2() override {
        xmlXPathFreeCompExpr(query);
        xmlXPathFreeContext(context);
        xmlFreeDoc(document);
    }

    size_t found() override {
        xmlXPathObjectPtr answer = xmlXPathCompiledEval(query, context);
        size_t count = answer->nodesetval ? static_cast<size_t>(answer->nodesetval->nodeNr) : 0;
        xmlXPathFreeObject(answer);
        return count;
    }
};

} // namespace

std::unique_ptr<Search> libxml2_search(const Document &document) {
    auto search = std::make_unique<Libxml2>(document.bytes);
    if (!search->document || !search->context || !search->query) fail(document.name.c_str(), "libxml2 refuses it");
    return search;
}
#else
std::unique_ptr<Search> libxml2_search(const Document &) { return nullptr; }
#endif
