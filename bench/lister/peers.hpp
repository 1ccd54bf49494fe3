// `//f` by the libraries beside us, on a document that they have loaded and with a query that they have compiled before.
#pragma once
#include <cstddef>
#include <memory>

#include "documents.hpp"

struct Search {
    virtual ~Search() = default;
    virtual size_t found() = 0; // searches; answers how many elements are named f
};

// Null where the library is not on this machine.
std::unique_ptr<Search> pugixml_search(const Document &document);
std::unique_ptr<Search> libxml2_search(const Document &document);
