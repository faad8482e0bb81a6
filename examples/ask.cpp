// ask.cpp: compiles the policy on standard input into a table that knows its own length and summary, and prints from it what each user's roles
// are, by name, and how many of its contexts are valid.
//
// usage: ask-cpp <policy.cil          prints the users, or the refusal with its line
// examples/build builds it; the library is proved, this program is only compiled.
#include <iostream>
#include <iterator>
#include <stdexcept>
#include <string>
#include <vector>

#include "tegzhumbi.h"

namespace {

// A sound table with its summary. Nothing writes to either after the constructor, as the questions without the test want it.
class Table {
public:
    // Compiles a text; throws the refusal as a sentence with its line.
    explicit Table(const std::string &text) : bytes_(TEGZHUMBI_LONGEST_TABLE), summary_() {
        const auto *from = reinterpret_cast<const uint8_t *>(text.data());
        const tegzhumbi_compiled compiled = tegzhumbi_compile(from, text.size(), bytes_.data(), bytes_.size());
        if (compiled.number != 0)
            throw std::runtime_error("line " + std::to_string(compiled.line) + ": " + tegzhumbi_refusal_text(compiled.number));
        bytes_.resize(compiled.place);
        if (tegzhumbi_summarize(bytes_.data(), bytes_.size(), &summary_) != 1)
            throw std::runtime_error(tegzhumbi_refusal_text(TEGZHUMBI_REFUSAL_NOT_SOUND));
    }

    // How many there are of a sort, for all but permissions
    uint32_t count(tegzhumbi_sort sort) const { return summary_.numbers[sort]; }

    std::string name(tegzhumbi_sort sort, uint32_t number) const {
        const tegzhumbi_part part = tegzhumbi_sound_name(bytes_.data(), bytes_.size(), sort, number);
        return std::string(reinterpret_cast<const char *>(bytes_.data()) + part.start, part.length);
    }

    // Whether a number is in the set at a place of a body
    bool in_set(tegzhumbi_body body, uint32_t place, uint32_t number) const {
        const tegzhumbi_part set = tegzhumbi_sound_entry(bytes_.data(), bytes_.size(), body, place);
        return number / 8 < set.length && (bytes_[set.start + number / 8] >> (number % 8) & 1) == 1;
    }

    bool valid(uint32_t user, uint32_t role, uint32_t type) const {
        return tegzhumbi_sound_valid(bytes_.data(), bytes_.size(), &summary_, user, role, type).outcome == TEGZHUMBI_GRANTED;
    }

private:
    std::vector<uint8_t> bytes_;
    tegzhumbi_summary summary_;
};

// How many contexts of a user are valid, over all roles and types
uint32_t valid_contexts(const Table &table, uint32_t user) {
    uint32_t found = 0;
    for (uint32_t role = 0; role < table.count(TEGZHUMBI_SORT_ROLE); role++)
        for (uint32_t type = 0; type < table.count(TEGZHUMBI_SORT_TYPE); type++)
            if (table.valid(user, role, type)) found++;
    return found;
}

void print_user(const Table &table, uint32_t user) {
    std::cout << table.name(TEGZHUMBI_SORT_USER, user) << ":";
    for (uint32_t role = 0; role < table.count(TEGZHUMBI_SORT_ROLE); role++)
        if (table.in_set(TEGZHUMBI_BODY_USER_ROLES, user, role)) std::cout << " " << table.name(TEGZHUMBI_SORT_ROLE, role);
    std::cout << ", " << valid_contexts(table, user) << " valid contexts\n";
}

}  // namespace

int main() {
    const std::string text{std::istreambuf_iterator<char>(std::cin), std::istreambuf_iterator<char>()};
    try {
        const Table table(text);
        for (uint32_t user = 0; user < table.count(TEGZHUMBI_SORT_USER); user++) print_user(table, user);
    } catch (const std::runtime_error &refusal) {
        std::cout << refusal.what() << "\n";
        return 1;
    }
    return 0;
}
