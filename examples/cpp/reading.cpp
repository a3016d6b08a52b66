// What a display reads of a terminal in C++: the sets, the elements of the shown mask, each object as it is now and by itself, and
// a picture.
//
//     g++ -std=c++17 -Iinclude examples/cpp/reading.cpp crates/vt_terminal/out/libvt_terminal.a -o reading && ./reading
//
// The pool is there from the start. The status is 0 only if what is read fits together.
#define SEGYOLANT_HEAP
#include "segyolant.hpp"
#include "vt_records.h"

#include <algorithm>
#include <cstdio>
#include <fstream>
#include <iterator>
#include <string>
#include <vector>

namespace {

constexpr std::uint8_t own = 0x26;
constexpr std::uint8_t implement = 0x80;

int failed(const char *what)
{
    std::fprintf(stderr, "reading: %s\n", what);
    return 1;
}

// Whether an element lies in the list behind the one around it, and has its object.
bool fits(segyolant::Terminal &terminal, const std::vector<segyolant::Element> &elements, std::size_t index)
{
    const segyolant::Element &one = elements[index];
    const bool has_one_around = one.around != VT_NO_ELEMENT;
    if (has_one_around && (one.around >= index || elements[one.around].depth + 1 != one.depth)) {
        return false;
    }
    const std::vector<std::uint8_t> record = terminal.object(implement, one.id).value_or(std::vector<std::uint8_t>());
    return has_one_around == (one.depth > 0) && record.size() >= 3 && vt_record_length(record.data()) == record.size() &&
           vt_number(record.data(), VT_RECORD_ID, 2) == one.id && record[VT_RECORD_KIND] == one.kind;
}

// Whether the picture of an element by itself has its size, and the element at the upper left corner. A Working Set has another size in the
// list than by itself.
bool stands_alone(segyolant::Terminal &terminal, const segyolant::Element &one)
{
    if (one.kind == VT_WORKING_SET) {
        return true;
    }
    const std::string part = terminal.part(implement, one.id).value_or("");
    const std::string size = "width=\"" + std::to_string(one.width) + "\" height=\"" + std::to_string(one.height) + "\"";
    const std::string corner = "data-id=\"" + std::to_string(one.id) + "\" x=\"0\" y=\"0\"";
    return part.find(size) < 60 && part.find(corner) != std::string::npos;
}

// Whether a touch in the middle of what is shown of a key or a button finds something to operate.
bool is_touched(segyolant::Terminal &terminal, const segyolant::Element &one)
{
    const bool is_shown = one.left < one.right && one.top < one.bottom;
    if (!is_shown || (one.kind != VT_KEY && one.kind != VT_BUTTON)) {
        return true;
    }
    return terminal.touch(one.left + (one.right - one.left) / 2, one.top + (one.bottom - one.top) / 2).has_value();
}

// Whether an input has limits, nothing else has them, and a shown number is typed as its raw value again.
bool is_limited(segyolant::Terminal &terminal, const segyolant::Element &one)
{
    segyolant::Result result = segyolant::Result::no_memory;
    const std::optional<segyolant::Limits> limits = terminal.limits(implement, one.id, &result);
    const bool is_input = one.kind >= VT_INPUT_BOOLEAN && one.kind <= VT_INPUT_LIST;
    if (limits.has_value() != is_input || !is_input) {
        return !is_input && !limits && result == segyolant::Result::no_such;
    }
    if (one.kind != VT_INPUT_NUMBER || limits->decimals < limits->places) {
        return limits->kind == one.kind;
    }
    return terminal.raw(implement, one.id, terminal.value_text(implement, one.id).value_or("")) == limits->value;
}

} // namespace

int main(int argc, char **argv)
{
    const char *path = argc > 1 ? argv[1] : "examples/sprayer.iop";
    std::ifstream file(path, std::ios::binary);
    const std::string pool((std::istreambuf_iterator<char>(file)), std::istreambuf_iterator<char>());
    segyolant::Terminal terminal(own, 0x20001D0000000001);
    if (terminal.preload(implement, pool) != segyolant::Result::done) {
        return failed("the pool is not there, or not accepted: run it in the folder of the repository, or give the path of a pool");
    }

    const std::vector<segyolant::Set> sets = terminal.sets().value_or(std::vector<segyolant::Set>());
    if (sets.size() != 1 || sets[0].address != implement || !sets[0].has_pool || !sets[0].is_shown || sets[0].name) {
        return failed("the sets are others");
    }
    const std::optional<segyolant::Active> active = terminal.active(implement);
    if (!active || !active->mask || active->key || active->input) {
        return failed("something else is active");
    }

    const std::vector<segyolant::Element> elements = terminal.elements().value_or(std::vector<segyolant::Element>());
    const std::string picture = terminal.picture(implement).value_or("");
    const std::optional<segyolant::Extent> size = terminal.picture_size(implement);
    if (!size || picture.find("width=\"" + std::to_string(size->width) + "\" height=\"" + std::to_string(size->height) + "\"") > 60) {
        return failed("the picture has another size");
    }
    for (std::size_t k = 0; k < elements.size(); k++) {
        const std::string id = "data-id=\"" + std::to_string(elements[k].id) + "\"";
        if (!fits(terminal, elements, k) || picture.find(id) == std::string::npos) {
            return failed("an element does not fit");
        }
        if (!stands_alone(terminal, elements[k])) {
            return failed("an element by itself has another place or size");
        }
        if (!is_touched(terminal, elements[k])) {
            return failed("a key or a button is not found at its place");
        }
        if (!is_limited(terminal, elements[k])) {
            return failed("the limits of an input do not fit");
        }
    }
    std::printf("mask %u, %zu elements, a picture of %zu bytes\n", static_cast<unsigned>(*active->mask), elements.size(), picture.size());

    const std::uint64_t look = terminal.look();
    const segyolant::Frame claim{0x18EEFF90, {0x1D, 0, 0, 0, 0, 0, 0, 0x20}, 8};
    if (terminal.words(claim) != "90 to all: Address Claimed: NAME 200000000000001D (agriculture, device class 0, function 0, manufacturer 0, identity 29)") {
        return failed("a frame has other words");
    }
    if (terminal.hear(1, claim).result != segyolant::Result::done || terminal.look() != look) {
        return failed("the claim of another node is a change of the picture");
    }

    // Before it has a pool, a set has no state, and outside of the mask nothing is touched.
    return elements.empty() || terminal.active(0x81) || terminal.picture(0x81) != "" || terminal.part(0x81, 0) != "" || terminal.touch(-1, 5) ? failed("too much is told") : 0;
}
