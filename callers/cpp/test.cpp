// What tirvouez.hpp promises beside what the example shows: indexes are checked, another version is refused, any container of bytes and any page size will do;
// and why names must be Unpin, which the example does not print.
#include "tirvouez.hpp"

#include <array>
#include <cstdio>
#include <cstdlib>
#include <string>
#include <vector>

namespace {

void expect(bool so, const char* what) {
    if (so) return;
    std::printf("not so: %s\n", what);
    std::exit(1);
}

template <class Fault, class Run>
void expect_throws(Run&& run, const char* what) {
    try {
        run();
    } catch (const Fault&) {
        return;
    }
    expect(false, what);
}

// docs/MESSAGES.md: a struct without fields (27) that derives BitAnd (29), as pairs
constexpr std::array<std::uint8_t, 18> SHEET{0, 0, 1, 0, 6, 0, 1, 0, 24, 0, 0, 0, 1, 0, 11, 0, 0, 0};

void readers() {
    tirvouez::Checker checker;
    const tirvouez::Answer answer = checker.check(SHEET);
    expect(answer.accepted() && answer.refusal() == tirvouez::Refusal::none, "accepted");
    expect(answer.total() == 2 && answer.count() == 2, "two records");
    expect(answer.record(0).message == tirvouez::Message::struct_empty && answer.record(0).letter == tirvouez::Letter::item, "message 27");
    expect(answer.record(1).message == tirvouez::Message::struct_derive_bit && answer.record(1).has_second(), "message 29");
    expect(answer.structs() == 1 && answer.order(0) == 0 && answer.tier(0) == 0, "one struct");
    expect(answer.has(tirvouez::Set::structs, 24) && !answer.has(tirvouez::Set::enums, 24), "sets");
    expect(answer.size(tirvouez::Set::structs) == 1 && answer.reasons(24) == 0, "size and reasons");
    expect_throws<std::out_of_range>([&] { (void)answer.record(2); }, "record 2");
    expect_throws<std::out_of_range>([&] { (void)*answer.end(); }, "the end");
    expect_throws<std::out_of_range>([&] { (void)answer.order(1); }, "place 1");
    expect_throws<std::out_of_range>([&] { (void)answer.tier(255); }, "item 255");
    expect_throws<std::out_of_range>([&] { (void)answer.has(tirvouez::Set::structs, 256); }, "name 256");
    expect_throws<std::out_of_range>([&] { (void)answer.reasons(256); }, "name 256");
    expect_throws<std::out_of_range>([&] { (void)answer.unpin(256); }, "name 256");
    expect_throws<std::out_of_range>([&] { (void)answer.size(static_cast<tirvouez::Set>(8)); }, "set 8");
}

using Kind = tirvouez::UnpinReason::Kind;

void unpin_numbers() {
    std::vector<std::uint8_t> out(TIRVOUEZ_ANSWER);
    out[TIRVOUEZ_AT_VERSION] = TIRVOUEZ_VERSION;
    out[2] = 0x20;
    out[3] = 0x07;
    const auto put = [&](std::size_t name, unsigned number) {
        out[1312 + 2 * name] = static_cast<std::uint8_t>(number % 256);
        out[1313 + 2 * name] = static_cast<std::uint8_t>(number / 256);
    };
    put(0, 1);
    put(27, 1024);
    put(28, 32768);
    put(255, 33022);
    expect(tirvouez_unpin(out.data(), 1) == TIRVOUEZ_UNPIN_NONE && tirvouez_unpin_is_row(0) == 0 && tirvouez_unpin_is_item(0) == 0, "no reason");
    expect(tirvouez_unpin(out.data(), 27) == 1024 && tirvouez_unpin_is_row(1024) == 1 && tirvouez_unpin_is_item(1024) == 0, "a row");
    expect(tirvouez_unpin(out.data(), 255) == 33022 && tirvouez_unpin_is_row(33022) == 0 && tirvouez_unpin_is_item(33022) == 1, "an item");
    const tirvouez::Answer answer(out.data(), out.size());
    expect(answer.unpin(0) == tirvouez::UnpinReason{Kind::row, 0} && answer.unpin(27) == tirvouez::UnpinReason{Kind::row, 1023}, "rows");
    expect(answer.unpin(28) == tirvouez::UnpinReason{Kind::item, 0} && answer.unpin(255) == tirvouez::UnpinReason{Kind::item, 254}, "items");
    expect(answer.unpin(28) && answer.unpin(28) != answer.unpin(0) && !answer.unpin(1) && !answer.unpin(254), "reasons or none");
}

std::vector<std::uint8_t> bytes(const std::vector<std::uint16_t>& pairs) {
    std::vector<std::uint8_t> made;
    for (const std::uint16_t pair : pairs) {
        made.push_back(static_cast<std::uint8_t>(pair % 256));
        made.push_back(static_cast<std::uint8_t>(pair / 256));
    }
    return made;
}

// Sheets of crates/rules/specs/Examples.antt: a C++ type and a function over a mutable reference to it; an alias, a slice of it and methods
void unpin_reasons() {
    tirvouez::Checker checker;
    const auto row = bytes({2, 2, 12, 16, 22, 32, 0, 27, 7, 1, 0, 3, 27, 0, 0, 0, 5, 30, 0, 0, 0, 65535, 1, 1});
    expect(checker.check(row).unpin(27) == tirvouez::UnpinReason{Kind::row, 1}, "a reference");
    const auto item = bytes({3, 5, 20, 24, 30, 36, 44, 62, 80, 98, 0, 27, 10, 1, 0, 7, 3, 0, 7, 27, 0, 0, 5, 30, 0, 0, 2, 27, 1, 65535,
                             0, 6, 31, 0, 0, 2, 27, 1, 65535, 0, 5, 32, 0, 0, 2, 27, 3, 65535, 0, 5, 33, 0, 0, 1, 27, 1, 1, 2});
    const tirvouez::Answer answer = checker.check(item);
    for (std::size_t name = 0; name < TIRVOUEZ_NAMES; ++name)
        expect(answer.unpin(name) == (name == 27 ? tirvouez::UnpinReason{Kind::item, 2} : tirvouez::UnpinReason{}), "a method, of one name");
    expect(!checker.check(nullptr, 0).unpin(27), "refused");
}

void pages() {
    for (std::size_t room = 0; room < 4; ++room) {
        tirvouez::Checker checker(room);
        std::vector<tirvouez::Message> found;
        const auto keep = [&](const tirvouez::Record& record) { found.push_back(record.message); };
        expect(checker.each(SHEET, keep).total() == 2, "total");
        expect(checker.each(SHEET.data(), SHEET.size(), keep).total() == 2, "total");
        const std::vector<tirvouez::Message> once{tirvouez::Message::struct_empty, tirvouez::Message::struct_derive_bit};
        expect(found == std::vector<tirvouez::Message>{once[0], once[1], once[0], once[1]}, "every record, twice");
    }
}

void sheets() {
    tirvouez::Checker checker;
    expect(checker.check(std::vector<std::uint8_t>{}).refusal() == tirvouez::Refusal::sheet_too_short, "nothing");
    expect(checker.check(std::string("\0\0\0\0", 4)).accepted(), "characters");
    expect(checker.check(std::vector<std::byte>(4)).total() == 0, "bytes");
    expect(checker.check(nullptr, 0).position() == 0, "no sheet");
    std::uint8_t pairs[4] = {0, 0, 0, 0};
    std::uint8_t* start = pairs;
    expect(checker.check(pairs, sizeof pairs).accepted() && checker.check(start, 4).accepted(), "pointer and length");
    expect(checker.check(SHEET, 1).count() == 1 && checker.check(SHEET, 9).count() == 0, "from");
}

void layouts() {
    std::vector<std::uint8_t> scratch(TIRVOUEZ_SCRATCH), out(TIRVOUEZ_ROOM(2));
    const std::size_t written = tirvouez_check(SHEET.data(), SHEET.size(), scratch.data(), scratch.size(), 0, out.data(), out.size());
    expect(written == out.size() && tirvouez::Answer(out.data(), written).count() == 2, "as written");
    expect_throws<tirvouez::UnknownLayout>([&] { (void)tirvouez::Answer(out.data(), 0); }, "nothing written");
    expect_throws<tirvouez::UnknownLayout>([&] { (void)tirvouez::Answer(out.data(), written - 8); }, "a record cut off");
    for (const int version : {TIRVOUEZ_VERSION - 1, TIRVOUEZ_VERSION + 1}) {
        out[TIRVOUEZ_AT_VERSION] = static_cast<std::uint8_t>(version);
        expect_throws<tirvouez::UnknownLayout>([&] { (void)tirvouez::Answer(out.data(), written); }, "another version");
    }
    // the same version with a part more: the records begin further on
    out[TIRVOUEZ_AT_VERSION] = TIRVOUEZ_VERSION;
    out.insert(out.begin() + TIRVOUEZ_ANSWER, 16, 0xFF);
    out[TIRVOUEZ_AT_BEGIN] = static_cast<std::uint8_t>(out[TIRVOUEZ_AT_BEGIN] + 16);
    expect(tirvouez::Answer(out.data(), out.size()).record(1).message == tirvouez::Message::struct_derive_bit, "records further on");
    out[TIRVOUEZ_AT_BEGIN] = static_cast<std::uint8_t>(out[TIRVOUEZ_AT_BEGIN] - 24);
    expect_throws<tirvouez::UnknownLayout>([&] { (void)tirvouez::Answer(out.data(), out.size()); }, "records within the answer");
}

}  // namespace

int main() {
    readers();
    unpin_numbers();
    unpin_reasons();
    pages();
    sheets();
    layouts();
    std::printf("C++: the readers keep what they promise\n");
}
