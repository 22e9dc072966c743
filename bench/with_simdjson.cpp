// Answers the questions of the benchmark with simdjson's DOM: `with_simdjson NAME` runs the loop of that name over its input.
//
// Each loop writes the rows that the program writes for its statement, byte for byte, as those of with_orjson.py do. They are
// made for the lines that corpora.py writes, as one would write them by hand for a known input: numbers are doubles or 64-bit
// integers, and a member that is there is there once.
#include <simdjson.h>

#include <charconv>
#include <cmath>
#include <cstdint>
#include <cstdio>
#include <cstring>
#include <string>
#include <string_view>
#include <vector>

using simdjson::dom::element;
using simdjson::dom::element_type;
using simdjson::dom::parser;

namespace {

constexpr size_t PIECE = 65'536;  // bytes that are read, and about as many that are written, at once
constexpr int DEPTH = 32;         // how deep the leaf of a deep line lies

// The rows that are not written yet.
class Rows {
  public:
    ~Rows() { write(); }

    void begin(uint64_t line) {
        if (text.size() >= PIECE) {
            write();
        }
        number(line);
        text += "\t1\tR\t";
    }

    void error(uint64_t line, std::string_view state) {
        number(line);
        text.append("\t1\tE\t").append(state).append("\n");
    }

    template <typename Whole> void number(Whole value) {
        char digits[24];
        text.append(digits, std::to_chars(digits, digits + sizeof digits, value).ptr);
    }

    // A number of two decimals, given in hundredths.
    void hundredths(int64_t value) {
        number(value / 100);
        text += '.';
        text += static_cast<char>('0' + value % 100 / 10);
        text += static_cast<char>('0' + value % 10);
    }

    // A number as the program prints it in JSON: the shortest text that reads back, without a point where it is whole.
    void plain(double value) {
        char digits[32];
        text.append(digits, std::to_chars(digits, digits + sizeof digits, value).ptr);
    }

    // A text as it stands in a row.
    void escaped(std::string_view value) {
        for (char c : value) {
            switch (c) {
            case '\\': text += "\\\\"; break;
            case '\t': text += "\\t"; break;
            case '\n': text += "\\n"; break;
            case '\r': text += "\\r"; break;
            default: text += c;
            }
        }
    }

    void truth(bool value) { text += value ? "TRUE" : "FALSE"; }

    std::string text;

  private:
    void write() {
        fwrite(text.data(), 1, text.size(), stdout);
        text.clear();
    }
};

int64_t cents(element price) { return llround(double(price) * 100); }

void exists(element order, uint64_t line, Rows &rows) {
    rows.begin(line);
    element found;
    rows.truth(order["customer"]["name"].get(found) == simdjson::SUCCESS);
    rows.text += '\n';
}

void value(element order, uint64_t line, Rows &rows) {
    rows.begin(line);
    rows.escaped(order["customer"]["name"]);
    rows.text += '\t';
    rows.number(int64_t(order["order"]));
    rows.text += '\t';
    rows.hundredths(cents(order["lines"].at(0)["price"]));
    rows.text += '\n';
}

void put_item(element item, Rows &rows) {
    rows.text += "{\"sku\":\"";
    rows.text += std::string_view(item["sku"]);
    rows.text += "\",\"qty\":";
    rows.number(int64_t(item["qty"]));
    rows.text += ",\"price\":";
    rows.plain(item["price"]);
    rows.text += '}';
}

void query(element order, uint64_t line, Rows &rows) {
    rows.begin(line);
    char before = '[';
    for (element item : order["lines"]) {
        if (int64_t(item["qty"]) > 2) {
            rows.text += before;
            put_item(item, rows);
            before = ',';
        }
    }
    rows.text += before == '[' ? "\\N\n" : "]\n";
}

void table(element order, uint64_t line, Rows &rows) {
    for (element item : order["lines"]) {
        rows.begin(line);
        rows.escaped(item["sku"]);
        rows.text += '\t';
        int64_t pieces = item["qty"];
        rows.number(pieces);
        rows.text += '\t';
        rows.hundredths(pieces * cents(item["price"]));
        rows.text += '\n';
    }
}

void aggregate(element order, uint64_t line, Rows &rows) {
    std::string names, pieces;
    std::vector<std::string_view> seen;
    for (element item : order["lines"]) {
        std::string_view sku = item["sku"];
        for (std::string_view it : seen) {
            if (it == sku) {
                return rows.error(line, "22030");
            }
        }
        seen.push_back(sku);
        names.append(names.empty() ? "[\"" : ",\"").append(sku).append("\"");
        pieces.append(pieces.empty() ? "{\"" : ",\"").append(sku).append("\":").append(std::to_string(int64_t(item["qty"])));
    }
    rows.begin(line);
    rows.text.append(names).append("]\t").append(pieces).append("}\n");
}

void wide(element object, uint64_t line, Rows &rows) {
    rows.begin(line);
    for (const char *key : {"a", "b"}) {
        std::string_view found;
        if (object[key].get(found) == simdjson::SUCCESS) {
            rows.escaped(found);
        } else {
            rows.text += "\\N";
        }
        rows.text += *key == 'a' ? '\t' : '\n';
    }
}

void small(element object, uint64_t line, Rows &rows) {
    rows.begin(line);
    rows.number(int64_t(object["a"]));
    rows.text += '\n';
}

void deep(element object, uint64_t line, Rows &rows) {
    for (int level = 0; level < DEPTH; level++) {
        object = object["a"];
    }
    rows.begin(line);
    rows.number(int64_t(object["leaf"]));
    rows.text += '\n';
}

std::string_view kind_of(element_type type) {
    switch (type) {
    case element_type::OBJECT: return "TRUE\tTRUE\tFALSE\tFALSE\n";
    case element_type::ARRAY: return "TRUE\tFALSE\tTRUE\tFALSE\n";
    default: return "TRUE\tFALSE\tFALSE\tTRUE\n";
    }
}

void is_json(element found, uint64_t line, Rows &rows) {
    rows.begin(line);
    rows.text += kind_of(found.type());
}

void is_no_json(uint64_t line, Rows &rows) {
    rows.begin(line);
    rows.text += "FALSE\tFALSE\tFALSE\tFALSE\n";
}

using Loop = void (*)(element, uint64_t, Rows &);

struct Named {
    std::string_view name;
    Loop loop;
};

constexpr Named LOOPS[] = {{"exists", exists}, {"value", value}, {"query", query}, {"table", table}, {"aggregate", aggregate},
                           {"is_json", is_json}, {"wide", wide}, {"small", small}, {"deep", deep}};

// Reads lines, however long, and gives each to the loop. Behind a line the buffer has the bytes that simdjson may look at.
void run(Loop loop) {
    parser reader;
    Rows rows;
    std::vector<char> buffer(PIECE + simdjson::SIMDJSON_PADDING);
    size_t filled = 0;
    uint64_t number = 0;
    for (;;) {
        if (buffer.size() - filled < PIECE + simdjson::SIMDJSON_PADDING) {
            buffer.resize(2 * buffer.size());
        }
        size_t got = fread(buffer.data() + filled, 1, PIECE, stdin);
        if (got == 0) {
            return;
        }
        filled += got;
        char *begin = buffer.data(), *end = begin + filled;
        while (char *stop = static_cast<char *>(memchr(begin, '\n', end - begin))) {
            element document;
            number++;
            if (reader.parse(begin, stop - begin, false).get(document) == simdjson::SUCCESS) {
                loop(document, number, rows);
            } else {
                is_no_json(number, rows);
            }
            begin = stop + 1;
        }
        filled = end - begin;
        memmove(buffer.data(), begin, filled);
    }
}

}  // namespace

int main(int count, char **words) {
    for (const Named &it : LOOPS) {
        if (count == 2 && it.name == words[1]) {
            run(it.loop);
            return 0;
        }
    }
    fputs("usage: with_simdjson NAME\n", stderr);
    return 2;
}
