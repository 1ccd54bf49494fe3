// Four shapes, six rates of f among the rows, a seed for each of the 24.
#include "documents.hpp"

#include <cstdint>
#include <cstdlib>

#include "timing.hpp"

namespace {

constexpr unsigned ROWS = 1990, BYTES_A_ROW = 13, DEEPEST = 60;
const char DICTIONARY[] = "g\nf\nh\na\nb\n";

class Writer {
public:
    Writer(uint32_t seed, unsigned one_in) : random(seed), one_in(one_in) {}

    // A fixed generator: every machine measures the same documents.
    unsigned any(unsigned below) {
        random ^= random << 13;
        random ^= random >> 17;
        random ^= random << 5;
        return random % below;
    }

    bool more() const { return rows < ROWS; }
    unsigned depth() const { return static_cast<unsigned>(opened.size()); }
    unsigned f_rows() const { return fs; }
    const std::string &written() const { return bytes; }

    void open(const std::string &wanted) {
        opened.push_back(due() ? "f" : wanted);
        bytes += "<" + opened.back() + ">";
        counted(opened.back());
    }

    void close() {
        bytes += "</" + opened.back() + ">";
        opened.pop_back();
        after_text = false;
    }

    void close_all() {
        while (depth() > 0) close();
    }

    void empty(const std::string &wanted) {
        std::string name = due() ? "f" : wanted;
        bytes += "<" + name + "/>";
        counted(name);
    }

    // Two texts without a tag between them would be one row.
    void text() {
        static const char *const WORD[] = {"NUMBER", "STEPS", "repeat", "motion", "looks", "costume", "data_set", "operator"};
        if (after_text) return;
        bytes += std::to_string(any(10000));
        if (lean()) bytes += std::string(" ") + WORD[any(8)] + " " + WORD[any(8)];
        rows++;
        after_text = true;
    }

    void leaf(const std::string &wanted) {
        open(wanted);
        text();
        close();
    }

    // Long names while the document has fewer bytes a row than wanted, short ones while it has more.
    std::string name() {
        static const char *const LONG[] = {"block", "field", "value", "statement", "mutation", "variable", "comment", "script"};
        static const char *const SHORT[] = {"g", "h", "a", "b", "x", "y", "id", "if"};
        return lean() ? LONG[any(8)] : SHORT[any(8)];
    }

private:
    bool lean() const { return bytes.size() < static_cast<size_t>(BYTES_A_ROW) * rows; }

    // One row in `one_in` is to be an f, and texts cannot be: so an element is one with that much higher a chance.
    bool due() { return elements > 0 && any(1000) < 1000 * rows / (one_in * elements); }

    void counted(const std::string &name) {
        rows++;
        elements++;
        fs += name == "f";
        after_text = false;
    }

    uint32_t random;
    unsigned one_in, rows = 0, elements = 0, fs = 0;
    bool after_text = false;
    std::string bytes;
    std::vector<std::string> opened;
};

void flat(Writer &w) {
    w.open("list");
    while (w.more()) {
        w.open("item");
        for (unsigned k = 1 + w.any(6); k > 0; k--) {
            if (w.any(3)) w.leaf(w.name());
            else w.empty(w.name());
        }
        w.close();
    }
}

void deep(Writer &w) {
    w.open("stage");
    while (w.more()) {
        unsigned bottom = 20 + w.any(DEEPEST - 20);
        while (w.more() && w.depth() < bottom) {
            w.open(w.name());
            if (w.any(4) == 0) w.leaf(w.name());
        }
        w.text();
        for (unsigned up = 1 + w.any(bottom - 1); up > 0 && w.depth() > 1; up--) w.close();
    }
}

// A block as block editors store it, without attributes.
void block(Writer &w, unsigned levels) {
    w.open("block");
    w.leaf("type");
    w.open("field");
    w.leaf("name");
    if (w.any(2)) w.leaf("value");
    w.close();
    if (levels > 0 && w.more()) {
        w.open(w.any(2) ? "statement" : "next");
        block(w, levels - 1);
        w.close();
    }
    w.close();
}

void blocks(Writer &w) {
    w.open("project");
    while (w.more()) {
        w.open("script");
        block(w, w.any(20));
        w.close();
    }
}

// No plan at all: what comes next is drawn each time.
void mixed(Writer &w) {
    w.open("root");
    while (w.more()) {
        unsigned what = w.any(8);
        if (what < 2 && w.depth() < DEEPEST) w.open(w.name());
        else if (what < 4 && w.depth() > 1) w.close();
        else if (what < 6) w.leaf(w.name());
        else if (what < 7) w.empty(w.name());
        else w.text();
    }
}

const struct {
    const char *name;
    void (*write)(Writer &);
} SHAPES[] = {{"flat", flat}, {"deep", deep}, {"block project", blocks}, {"mixed", mixed}};

const unsigned RATES[] = {4, 6, 10, 16, 25, 50};

const uint8_t *bytes(const char *text) { return reinterpret_cast<const uint8_t *>(text); }

} // namespace

std::vector<Document> documents() {
    std::vector<Document> all;
    for (auto &shape : SHAPES) {
        for (unsigned one_in : RATES) {
            Writer w(2463534242u + static_cast<uint32_t>(all.size()), one_in);
            shape.write(w);
            w.close_all();
            all.push_back({std::string(shape.name) + ", f 1 in " + std::to_string(one_in), w.written(), w.f_rows()});
        }
    }
    return all;
}

Rows tree_of(const Document &d) {
    Numbers label(MOST_ROWS), size(MOST_ROWS), start(MOST_ROWS), length(MOST_ROWS);
    auto answer = khargovsun_read(bytes(DICTIONARY), sizeof DICTIONARY - 1, bytes(d.bytes.data()), d.bytes.size(), label.data(),
                                  label.size(), size.data(), size.size(), start.data(), start.size(), length.data(), length.size());
    if (answer.code != 0) fail(d.name.c_str(), "the reader refuses it");
    label.resize(answer.rows);
    size.resize(answer.rows);
    return {{}, label, size};
}
