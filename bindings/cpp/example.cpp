// Reads a clash list from the named file and prints its sitting sheet. Of two files, checks the second, a sheet, against the first, and prints
// "groups K". What is refused is said in words, with status 1.
//
//   c++ -std=c++11 example.cpp $(pkg-config --cflags --libs slotsheet) -o example && ./example list.col
#include <slotsheet.h>

#include <cstdint>
#include <fstream>
#include <iostream>
#include <iterator>
#include <stdexcept>
#include <string>
#include <vector>

using Bytes = std::vector<uint8_t>;

struct Refused : std::runtime_error {
    explicit Refused(const std::string &sentence) : std::runtime_error(sentence) {}
};

// An empty vector's data() may be a null pointer, and goes through as it is.
static std::string in_words(size_t refusal, uint64_t place, size_t column = 0, const Bytes &shown = {}) {
    std::string sentence(slotsheet_sentence(refusal, place, column, shown.data(), shown.size(), nullptr, 0), ' ');
    slotsheet_sentence(refusal, place, column, shown.data(), shown.size(), &sentence[0], sentence.size() + 1);
    return sentence;
}

static std::string sheet_of(const Bytes &text) {
    std::vector<uint64_t> rows(SLOTSHEET_ENTRIES);
    slotsheet_reading read = slotsheet_read_list(text.data(), text.size(), rows.data(), rows.size());
    if (read.refusal) throw Refused(in_words(read.refusal, read.line, read.column));
    rows.resize(read.entries);

    // What was read is a list, and there is room: only the budget may refuse.
    Bytes colours(rows.size());
    slotsheet_walk walk = slotsheet_fewest(rows.data(), rows.size(), colours.data(), colours.size(), SLOTSHEET_NODES);
    if (walk.refusal) throw Refused(in_words(walk.refusal, walk.nodes));

    Bytes out(SLOTSHEET_SHEET_BYTES);
    slotsheet_writing written = slotsheet_write_sheet(colours.data(), colours.size(), out.data(), out.size());
    if (written.refusal) throw Refused(in_words(written.refusal, written.place));
    return std::string(out.begin(), out.begin() + static_cast<std::ptrdiff_t>(written.length));
}

static size_t groups_of(const Bytes &list, const Bytes &sheet) {
    Bytes colours(SLOTSHEET_ENTRIES);
    slotsheet_checking check =
        slotsheet_check_sheet(list.data(), list.size(), sheet.data(), sheet.size(), colours.data(), colours.size());
    if (check.refusal == SLOTSHEET_ACCEPTED) return check.groups;
    slotsheet_part part = slotsheet_fault_line(list.data(), list.size(), sheet.data(), sheet.size(), colours.size());
    const Bytes &text = part.text == SLOTSHEET_LIST ? list : sheet;
    auto start = text.begin() + static_cast<std::ptrdiff_t>(part.start);
    Bytes shown(start, start + static_cast<std::ptrdiff_t>(part.length));
    throw Refused((part.text == SLOTSHEET_LIST ? "list: " : "sheet: ") + in_words(check.refusal, check.line, check.column, shown));
}

static Bytes take(const char *name) {
    std::ifstream from(name, std::ios::binary);
    if (!from) throw std::runtime_error(std::string(name) + ": cannot be read");
    return Bytes(std::istreambuf_iterator<char>(from), std::istreambuf_iterator<char>());
}

int main(int count, char **names) {
    try {
        if (count == 2) {
            std::cout << sheet_of(take(names[1]));
        } else if (count == 3) {
            size_t k = groups_of(take(names[1]), take(names[2]));
            std::cout << "groups " << k << '\n';
        } else {
            throw std::runtime_error("usage: example LIST [SHEET]");
        }
    } catch (const Refused &refused) {
        std::cout << refused.what() << '\n';
        return 1;
    } catch (const std::exception &wrong) {
        std::cerr << wrong.what() << '\n';
        return 2;
    }
    return std::cout.flush() ? 0 : 3;
}
