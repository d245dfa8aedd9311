// Prints what the check says of the sheets in files: verdict, order, and every record, as the program `report` does but without its limit.
// One Checker serves all of them.
#include "tirvouez.hpp"

#include <cstdio>
#include <exception>
#include <fstream>
#include <iterator>
#include <vector>

namespace {

void print(const tirvouez::Record& r) {
    std::printf("%u %c %u", static_cast<unsigned>(r.message), r.sign(), r.first);
    if (r.has_second()) std::printf(" %u", r.second);
    std::printf(" %u\n", r.detail);
}

void print(tirvouez::Checker& checker, const std::vector<char>& sheet) {
    const tirvouez::Answer answer = checker.check(sheet);
    if (!answer.accepted()) {
        std::printf("refused %u at %u\n", static_cast<unsigned>(answer.refusal()), answer.position());
        return;
    }
    std::printf("accepted %zu\norder", answer.total());
    for (std::size_t place = 0; place < answer.structs(); ++place) std::printf(" %u", answer.order(place));
    std::printf("\ntiers");
    for (std::size_t place = 0; place < answer.structs(); ++place) std::printf(" %u", answer.tier(answer.order(place)));
    std::printf("\nimproper");
    for (std::size_t name = 0; name < TIRVOUEZ_NAMES; ++name)
        if (answer.has(tirvouez::Set::improper, name)) std::printf(" %zu", name);
    std::printf("\n");
    checker.each(sheet, [](const tirvouez::Record& record) { print(record); });
}

}  // namespace

int main(int argc, char** argv) try {
    if (argc < 2) {
        std::fprintf(stderr, "usage: %s SHEET..\n", argv[0]);
        return 2;
    }
    tirvouez::Checker checker;
    for (int k = 1; k < argc; ++k) {
        std::ifstream file(argv[k], std::ios::binary);
        if (!file) {
            std::fprintf(stderr, "cannot read %s\n", argv[k]);
            return 2;
        }
        const std::vector<char> sheet{std::istreambuf_iterator<char>(file), std::istreambuf_iterator<char>()};
        print(checker, sheet);
    }
} catch (const std::exception& fault) {
    std::fprintf(stderr, "%s\n", fault.what());
    return 1;
}
