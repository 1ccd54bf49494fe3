// pugixml and rapidxml behind C functions. What is not on the machine (HAVE_PUGIXML, HAVE_RAPIDXML are not defined) answers -1.
#include <cstddef>
#include <cstring>

#ifdef HAVE_PUGIXML
#include <pugixml.hpp>

// A tree of the whole document, from a copy that pugixml makes; the tree before is freed in the same call.
extern "C" int peers_pugixml(const char *bytes, size_t length) {
    static pugi::xml_document tree;
    return tree.load_buffer(bytes, length, pugi::parse_default, pugi::encoding_utf8) ? 1 : 0;
}
#else
extern "C" int peers_pugixml(const char *, size_t) { return -1; }
#endif

#ifdef HAVE_RAPIDXML
#include <rapidxml/rapidxml.hpp>

// rapidxml writes into the bytes that it is given, so it is given a copy; end names are compared, as the others do.
extern "C" int peers_rapidxml(const char *bytes, size_t length) {
    static rapidxml::xml_document<> tree;
    static char copy[32769];
    std::memcpy(copy, bytes, length);
    copy[length] = 0;
    tree.clear();
    try {
        tree.parse<rapidxml::parse_validate_closing_tags>(copy);
    } catch (const rapidxml::parse_error &) {
        return 0;
    }
    return 1;
}
#else
extern "C" int peers_rapidxml(const char *, size_t) { return -1; }
#endif
