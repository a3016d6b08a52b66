// Segyolant's terminal for C++17: an ISOBUS virtual terminal (ISO 11783-6) as a class that owns its memory.
//
// It is the whole of vt_terminal.h, safe to use: the outputs of a call come with its result, and the memory is given back at the
// end. docs/EMBEDDING.md explains it, with a program from nothing to a screen (examples/cpp/first.cpp).
//
// Link with crates/vt_terminal/out/libvt_terminal.a. One source file of the program defines SEGYOLANT_HEAP before it includes this
// header, or the program defines the three functions of vt_heap.h itself.
//
// One thread at a time may use a terminal; nothing checks it.
#ifndef SEGYOLANT_HPP
#define SEGYOLANT_HPP

#include <array>
#include <cstddef>
#include <cstdint>
#include <iterator>
#include <new>
#include <optional>
#include <stdexcept>
#include <string>
#include <string_view>
#include <utility>
#include <variant>
#include <vector>

#include "vt_terminal.h"

// Whether the program has exceptions. Without them a terminal is made by Terminal::create.
#if defined(__cpp_exceptions) || defined(__EXCEPTIONS) || defined(_CPPUNWIND)
#define SEGYOLANT_THROWS 1
#else
#define SEGYOLANT_THROWS 0
#endif

namespace segyolant {

// As the time of an action: the latest time so far, as an operator's line in a log has it. Nothing times out for it.
constexpr std::uint64_t latest = VT_LATEST;

// The result of a call. After all but `done` the terminal is unchanged, with one exception: after `no_memory` of an action of the operator the
// time may have moved on.
enum class [[nodiscard]] Result : std::uint32_t {
    done = VT_DONE,           // The call is done.
    no_memory = VT_NO_MEMORY, // Memory was refused. The same call may be made again.
    no_such = VT_NO_SUCH,     // There is no such frame or input, nothing is at that place, or no set may be added at that address.
    waiting = VT_WAITING,     // The call came from within a function that takes outputs.
    not_begun = VT_NOT_BEGUN, // The terminal was moved away.
    no_pool = VT_NO_POOL,     // The bytes are no accepted object pool; `segyolant check` says why.
    other_version = VT_OTHER_VERSION, // The library is of another version than this header.
};

// A result in words, with the cure.
inline const char *text_of(Result result) noexcept
{
    switch (result) {
    case Result::done:
        return "the call is done";
    case Result::no_memory:
        return "memory was refused: free some, or give the arena more, take the outputs that wait after an action, and make the call again";
    case Result::no_such:
        return "there is no such frame or address: an identifier is at most 1FFFFFFF, a frame has at most 8 bytes, and a set is "
               "preloaded at an address up to 253 that is not the terminal's own and has no set";
    case Result::waiting:
        return "outputs wait to be taken: make the call after the function that takes outputs has returned";
    case Result::not_begun:
        return "the terminal was moved away: use the one that it was moved to";
    case Result::no_pool:
        return "the bytes are no accepted object pool: `segyolant check FILE` names each fault, and docs/POOLS.md has its cure";
    case Result::other_version:
        return "the library is of another version than this header: link the one of the same commit";
    }
    return "the library returned a result of another version: link the library of the same commit as the header";
}

// A CAN frame with an identifier of 29 bits (ISO 11783-3).
struct Frame {
    std::uint32_t id = 0;                 // at most 1FFFFFFF
    std::array<std::uint8_t, 8> bytes{};  // the first `count` of them are the data
    std::uint8_t count = 0;               // at most 8
};

// Two frames are equal if they have the same identifier and the same data.
inline bool operator==(const Frame &left, const Frame &right) noexcept
{
    if (left.id != right.id || left.count != right.count) {
        return false;
    }
    for (std::size_t k = 0; k < left.bytes.size() && k < left.count; k++) {
        if (left.bytes[k] != right.bytes[k]) {
            return false;
        }
    }
    return true;
}

inline bool operator!=(const Frame &left, const Frame &right) noexcept
{
    return !(left == right);
}

// Why an action of the operator was refused (docs/PROFILE.md, "Refusals"). Such an action changed nothing and sent nothing.
enum class Refusal : std::uint32_t {
    not_shown = 1,    // The object is not shown.
    disabled = 2,     // The input is not enabled.
    out_of_range = 3, // The input does not accept the number.
    too_long = 4,     // The text is longer than the input.
    wrong_kind = 5,   // The object is of a kind without this action.
    not_pressed = 6,  // The key is not the one held.
    held = 7,         // A key of the set is held already.
    busy = 8,         // A long message to the set is still being sent. Try again later.
    no_set = 9,       // No set is shown, or there is none with a pool at that address.
};

// The name of a refusal, as docs/PROFILE.md has it.
inline const char *name_of(Refusal refusal) noexcept
{
    switch (refusal) {
    case Refusal::not_shown:
        return "NotShown";
    case Refusal::disabled:
        return "Disabled";
    case Refusal::out_of_range:
        return "Range";
    case Refusal::too_long:
        return "TooLong";
    case Refusal::wrong_kind:
        return "WrongKind";
    case Refusal::not_pressed:
        return "NotPressed";
    case Refusal::held:
        return "Held";
    case Refusal::busy:
        return "Busy";
    case Refusal::no_set:
        return "NoSet";
    }
    return "";
}

// What an event tells (docs/EMBEDDING.md, "Events").
enum class EventKind : std::uint32_t {
    set_came = 1,      // A set registered where none was, or where one fell silent in the same input.
    set_silent = 2,    // A set fell silent; it is closed and its pool is gone.
    set_closed = 3,    // A set is closed because its NAME does not hold its address any more; its pool is gone.
    pool_accepted = 4, // The first pool of a set is accepted.
    pool_updated = 5,  // An update of a set's pool is accepted.
    pool_faulty = 6,   // An upload is refused for a record: `first` is the fault, 1 to 5 or 7, `second` its offset in the upload.
    pool_refused = 7,  // An upload is refused by a rule: low(first) is its number, high(first) the offset of a command in its macro,
                       // low(second) the object, high(second) the one to which it refers; 65535 for none.
    pool_deleted = 8,  // The implement deleted its pool.
    uploaded = 9,      // Another 1,024 bytes of an upload have come: `first` are received, `second` received or announced.
    text_aborted = 10, // A message to the implement, as a text of the operator, ended without an acknowledgement of its end.
    shown = 11,        // Another set, mask or soft key mask is shown: the address is that of the set, or 254 if none is shown; `first` is the
                       // mask, `second` its soft key mask, each 65535 where there is none.
    alarm = 12,        // An alarm mask is shown, or its priority or acoustic signal is another one: `first` is the mask; low(second) the
                       // priority, 0 high, 1 medium, 2 low; high(second) the signal, 0 highest, 1 medium, 2 lowest, 3 none.
    alarm_over = 13,   // No alarm mask is shown any more; the address is that of the last one.
    signal = 14,       // Control Audio: low(first) is how often, high(first) Hz; low(second) and high(second) are ms on and off.
    volume = 15,       // Set Audio Volume: `first` is the percent.
    address_lost = 16, // Another node took the terminal's address, which the event tells; nothing is sent any more.
};

// Something that happened, with an address, that of its working set where nothing else is said, and two numbers, 0 where the kind has none.
struct Event {
    EventKind kind = EventKind::set_came;
    std::uint8_t address = 0;
    std::uint32_t first = 0;
    std::uint32_t second = 0;
};

// Two events are equal if they tell the same.
inline bool operator==(const Event &left, const Event &right) noexcept
{
    return left.kind == right.kind && left.address == right.address && left.first == right.first && left.second == right.second;
}

inline bool operator!=(const Event &left, const Event &right) noexcept
{
    return !(left == right);
}

// The halves of a number of an event.
constexpr std::uint16_t low(std::uint32_t number) noexcept
{
    return static_cast<std::uint16_t>(number & 0xFFFFu);
}

constexpr std::uint16_t high(std::uint32_t number) noexcept
{
    return static_cast<std::uint16_t>(number >> 16);
}

// An output: a frame to send on the bus, a refusal to show to the operator, or an event. The events of an input come behind its frames and
// refusals.
using Output = std::variant<Frame, Refusal, Event>;

// The result of an input with its outputs, in the order in which they are to be sent.
struct [[nodiscard]] Reply {
    Result result = Result::done;
    std::vector<Output> outputs; // at most 1,024 frames and refusals, or 2,048 for an action, and then events; after `no_memory` of an action
                                 // those that its time brought

    explicit operator bool() const noexcept { return result == Result::done; }
};

// What the terminal answers to requests for its technical data (ISO 11783-6, Get Memory, Get Number of Soft Keys, Get Text Font
// Data, Get Hardware), and the sizes by which pictures, elements and touches
// are made. It changes nothing else. The default is the profile of docs/PROFILE.md.
struct Profile {
    std::uint32_t memory = 1048576;        // for pools, in bytes
    std::uint8_t soft_key_width = 64;      // in pixels
    std::uint8_t soft_key_height = 64;     // in pixels
    std::uint8_t virtual_soft_keys = 64;   // the most keys of a soft key mask
    std::uint8_t physical_soft_keys = 6;   // the keys that the operator has at once
    std::uint8_t small_fonts = 0x7F;       // a bit for each size
    std::uint8_t large_fonts = 0x7F;       // a bit for each size
    std::uint8_t font_styles = 0;          // a bit for each style
    std::uint8_t boot_time = 0;            // in seconds
    std::uint8_t graphic_type = 2;         // 0: 2 colours, 1: 16, 2: 256
    std::uint8_t hardware = 0;             // a bit for each feature
    std::uint16_t width = 480;             // of a mask, in pixels
    std::uint16_t height = 480;            // of a mask, in pixels
};

// A working set.
struct Set {
    std::uint8_t address = 0;          // of its master
    std::optional<std::uint64_t> name; // the NAME of its master (ISO 11783-5); none for a preloaded set before a claim of its address
    bool has_pool = false;
    bool is_shown = false;
};

// What is active in a working set, each by its ID, none where there is none.
struct Active {
    std::optional<std::uint16_t> mask;          // the data mask or alarm mask
    std::optional<std::uint16_t> soft_key_mask; // that of the mask
    std::optional<std::uint16_t> input;         // the input that the operator selected
    std::optional<std::uint16_t> key;           // the key or button that the operator holds
};

// What an input accepts from the operator, and how its number is shown (vt_terminal.h).
using Limits = ::vt_limits;

// The size of a picture, in pixels.
using Extent = ::vt_extent;

// An element of the shown mask or of its soft keys, in pixels from the upper left corner of the mask (vt_terminal.h).
using Element = vt_element;

// An ISOBUS virtual terminal: its working sets, their object pools, and the screen of the shown set.
//
// Each input has two forms. `hear(time, frame)` returns a Reply with the outputs in a vector. `hear(time, frame, each)` calls `each`
// with each output, as a `const Output &`, and allocates nothing but what the terminal itself needs. An input of the same terminal that
// `each` makes is refused with `waiting`. `each` may move or end the terminal: the other outputs come as always, and an ended terminal gives
// its memory back behind the last.
//
// After an exception, of `each` or of the vector, the input is taken and its other outputs are lost.
//
// A terminal that was moved away is empty: inputs return `not_begun`, and the rest answers as a terminal without sets.
class Terminal {
public:
    // The highest address that a terminal may have (ISO 11783-5: 254 is the null address, 255 the global one).
    static constexpr std::uint8_t highest_address = 253;

#if SEGYOLANT_THROWS
    // A terminal at an address, with its NAME (ISO 11783-5) and its profile. It sends nothing yet: see `claim`.
    // Throws std::invalid_argument for an address above 253, std::bad_alloc without memory for itself, and std::runtime_error where the
    // library is of another version than this header.
    Terminal(std::uint8_t own, std::uint64_t name, const Profile &profile = Profile())
    {
        if (own > highest_address) {
            throw std::invalid_argument("the address of a terminal is above 253 (FD): 254 and 255 are no addresses of a node; "
                                        "take one up to 253, such as 38 (26)");
        }
        const Result result = begin(own, name, profile);
        if (result == Result::other_version) {
            throw std::runtime_error(text_of(result));
        }
        if (result != Result::done) {
            throw std::bad_alloc();
        }
    }
#endif

    // Makes a terminal without exceptions: none for an address above 253, without memory for it, or where the library is of another version.
    static std::optional<Terminal> create(std::uint8_t own, std::uint64_t name, const Profile &profile = Profile()) noexcept
    {
        Terminal made;
        if (own > highest_address || made.begin(own, name, profile) != Result::done) {
            return std::nullopt;
        }
        return std::optional<Terminal>(std::move(made));
    }

    Terminal(Terminal &&other) noexcept : at_(std::exchange(other.at_, nullptr)) {}

    // Ends this terminal and takes the other one over. While outputs are given, this one ends behind the last.
    Terminal &operator=(Terminal &&other) noexcept
    {
        if (this != &other) {
            end();
            at_ = std::exchange(other.at_, nullptr);
        }
        return *this;
    }

    Terminal(const Terminal &) = delete;
    Terminal &operator=(const Terminal &) = delete;

    // Ends the terminal and gives its memory back, while outputs are given behind the last. It sends nothing.
    ~Terminal() { end(); }

    // ---- sets that are there from the start

    // Adds a working set with an object pool, without an upload. The address is at most 253, is not the own one, and has no set.
    // `no_such` for another address, `no_pool` if the pool has a fault or breaks a rule. The bytes are not kept.
    Result preload(std::uint8_t address, const std::uint8_t *pool, std::size_t count)
    {
        return Result(called([&](vt_terminal *at) { return vt_preload(at, address, pool, pool ? count : 0); }));
    }

    // The same for a vector, an array or a string of bytes.
    template <class Bytes> Result preload(std::uint8_t address, const Bytes &pool)
    {
        static_assert(sizeof(*std::data(pool)) == 1, "an object pool consists of bytes");
        return preload(address, reinterpret_cast<const std::uint8_t *>(std::data(pool)), std::size(pool));
    }

    // ---- inputs
    //
    // Each has its time, in microseconds of a monotonic clock. An action of the operator moves the time on first, as `tick` does, unless its
    // time is `latest`.

    // A frame of the bus, with the time of its reception in microseconds of a monotonic clock.
    // A time before the latest one counts as the latest one. `no_such` for an identifier above 1FFFFFFF or more than 8 bytes.
    Reply hear(std::uint64_t time, const Frame &frame) { return collect(heard(time, frame)); }
    template <class Each> Result hear(std::uint64_t time, const Frame &frame, Each &&each)
    {
        return give(heard(time, frame), each);
    }

    // The time alone, in microseconds: silent transport sessions end (ISO 11783-3), and silent sets are closed (ISO 11783-6).
    // Call it at `deadline`, or some times a second.
    Reply tick(std::uint64_t time) { return collect(ticked(time)); }
    template <class Each> Result tick(std::uint64_t time, Each &&each) { return give(ticked(time), each); }

    // The operator presses a soft key or a button (ISO 11783-6, Soft Key Activation, Button Activation).
    Reply press(std::uint64_t time, std::uint16_t id) { return collect(acted(time, VT_PRESS, id, 0)); }
    template <class Each> Result press(std::uint64_t time, std::uint16_t id, Each &&each)
    {
        return give(acted(time, VT_PRESS, id, 0), each);
    }

    // The operator releases the key or button held.
    Reply release(std::uint64_t time, std::uint16_t id) { return collect(acted(time, VT_RELEASE, id, 0)); }
    template <class Each> Result release(std::uint64_t time, std::uint16_t id, Each &&each)
    {
        return give(acted(time, VT_RELEASE, id, 0), each);
    }

    // The operator selects an input. No message is sent.
    Reply select(std::uint64_t time, std::uint16_t id) { return collect(acted(time, VT_SELECT, id, 0)); }
    template <class Each> Result select(std::uint64_t time, std::uint16_t id, Each &&each)
    {
        return give(acted(time, VT_SELECT, id, 0), each);
    }

    // The operator enters a number: the raw value, without offset and scale (ISO 11783-6, VT Change Numeric Value).
    Reply number(std::uint64_t time, std::uint16_t id, std::uint32_t value) { return collect(acted(time, VT_NUMBER, id, value)); }
    template <class Each> Result number(std::uint64_t time, std::uint16_t id, std::uint32_t value, Each &&each)
    {
        return give(acted(time, VT_NUMBER, id, value), each);
    }

    // The operator enters a text (ISO 11783-6, VT Change String Value). The bytes are not kept.
    Reply text(std::uint64_t time, std::uint16_t id, std::string_view text) { return collect(entered(time, id, text)); }
    template <class Each> Result text(std::uint64_t time, std::uint16_t id, std::string_view text, Each &&each)
    {
        return give(entered(time, id, text), each);
    }

    // The operator chooses the working set at an address. While an alarm of another set is shown, that stays shown.
    Reply set(std::uint64_t time, std::uint8_t address) { return collect(acted(time, VT_SET, 0, address)); }
    template <class Each> Result set(std::uint64_t time, std::uint8_t address, Each &&each)
    {
        return give(acted(time, VT_SET, 0, address), each);
    }

    // ---- what a host sends by itself

    // The address claim, to be sent at the start (ISO 11783-5). The first other frame goes out 250 ms after it.
    // A lost terminal has no output.
    Reply claim() { return collect(called(vt_claim)); }
    template <class Each> Result claim(Each &&each) { return give(called(vt_claim), each); }

    // The status message, to be sent once a second (ISO 11783-6, VT Status). A lost terminal has no output.
    Reply status() { return collect(called(vt_status)); }
    template <class Each> Result status(Each &&each) { return give(called(vt_status), each); }

    // ---- the screen

    // Whether the text of the screen may differ from the one before the last input. Ask after each input. A host that paints masks asks
    // `look`.
    [[nodiscard]] bool redraws() const noexcept { return at_ && vt_redraws(at_) != 0; }

    // The screen of the shown set as text in ASCII (docs/PROFILE.md, "Form of the text"). None if the library was refused memory; the
    // string itself may throw std::bad_alloc.
    [[nodiscard]] std::optional<std::string> screen()
    {
        if (!at_) {
            return std::string("screen none\n");
        }
        const std::uint64_t count = vt_text_of_screen(at_);
        if (count == UINT64_MAX) {
            return std::nullopt;
        }
        return written<std::string>(count);
    }

    // A number that is another one after each call that may have changed the picture of the shown set, its colours and fonts among it.
    // While it stays, `picture` and `elements` give the same of the shown set.
    [[nodiscard]] std::uint64_t look() const noexcept { return at_ ? vt_look(at_) : 0; }

    // ---- reading the state
    //
    // None if the library was refused memory, where nothing else is said; the container itself may throw std::bad_alloc.

    // The working sets in the order in which they registered.
    [[nodiscard]] std::optional<std::vector<Set>> sets()
    {
        std::array<vt_set, 256> all{};
        std::vector<Set> sets;
        const std::uint64_t listed = at_ ? vt_sets(at_, all.data(), all.size()) : 0;
        if (listed == UINT64_MAX) {
            return std::nullopt;
        }
        for (std::size_t k = 0; k < all.size() && k < listed; k++) {
            const vt_set &one = all[k];
            sets.push_back(Set{one.address, one.has_name ? std::optional<std::uint64_t>(one.name) : std::nullopt, one.has_pool != 0,
                               one.is_shown != 0});
        }
        return sets;
    }

    // What is active in the set at an address; none if there is no set with a pool.
    [[nodiscard]] std::optional<Active> active(std::uint8_t address) const noexcept
    {
        vt_active_ids all{};
        if (!at_ || vt_active(at_, address, &all) != VT_DONE) {
            return std::nullopt;
        }
        return Active{id_of(all.mask), id_of(all.soft_key_mask), id_of(all.input), id_of(all.key)};
    }

    // The record of an object of the set at an address, as it is now, in the layout of object pools (ISO 11783-6). Empty if there is no
    // such object.
    [[nodiscard]] std::optional<std::vector<std::uint8_t>> object(std::uint8_t address, std::uint16_t id)
    {
        const std::uint64_t count = at_ ? vt_text_of_object(at_, address, id) : 0;
        return count == UINT64_MAX ? std::nullopt : std::optional(written<std::vector<std::uint8_t>>(count));
    }

    // A mask of the set at an address as SVG, with its soft keys to its right; without a mask the active one. Empty if there is no set
    // with a pool.
    [[nodiscard]] std::optional<std::string> picture(std::uint8_t address, std::optional<std::uint16_t> mask = std::nullopt)
    {
        const std::uint64_t count = at_ ? vt_text_of_picture(at_, address, mask.value_or(VT_NO_ID)) : 0;
        return count == UINT64_MAX ? std::nullopt : std::optional(written<std::string>(count));
    }

    // An object of the set at an address by itself as SVG, as an item of a list, the label of a key, or a Working Set with its designator.
    // Empty if there is no such object.
    [[nodiscard]] std::optional<std::string> part(std::uint8_t address, std::uint16_t id)
    {
        const std::uint64_t count = at_ ? vt_text_of_part(at_, address, id) : 0;
        return count == UINT64_MAX ? std::nullopt : std::optional(written<std::string>(count));
    }

    // The size of what `picture` draws, in pixels: none if there is no set with a pool.
    [[nodiscard]] std::optional<Extent> picture_size(std::uint8_t address, std::optional<std::uint16_t> mask = std::nullopt) const noexcept
    {
        Extent size{};
        const bool is = at_ && vt_picture_size(at_, address, mask.value_or(VT_NO_ID), &size) == VT_DONE;
        return is ? std::optional<Extent>(size) : std::nullopt;
    }

    // The elements that the shown mask and its soft keys show, in the order in which they are drawn, at most 2,000.
    [[nodiscard]] std::optional<std::vector<Element>> elements()
    {
        const std::uint64_t count = at_ ? vt_elements(at_, nullptr, 0) : 0;
        if (count == UINT64_MAX) {
            return std::nullopt;
        }
        std::vector<Element> elements(static_cast<std::size_t>(count));
        if (at_ && vt_elements(at_, elements.data(), elements.size()) != count) {
            return std::nullopt;
        }
        return elements;
    }

    // The key, button or input that is shown at a place, in pixels from the upper left corner of the mask: of several the one drawn last.
    // None if there is none, or if the library was refused memory: then `result`, if it is given, is `no_such` or `no_memory`.
    [[nodiscard]] std::optional<std::uint16_t> touch(std::int32_t x, std::int32_t y, Result *result = nullptr) const noexcept
    {
        const std::uint64_t id = at_ ? vt_touch(at_, x, y) : VT_NO_ID;
        tell(result, id < VT_NO_ID ? VT_DONE : id == VT_NO_ID ? VT_NO_SUCH : VT_NO_MEMORY);
        return id < VT_NO_ID ? std::optional<std::uint16_t>(static_cast<std::uint16_t>(id)) : std::nullopt;
    }

    // ---- dialogs

    // What an input of the set at an address accepts, and how its number is shown. None if there is no such input, or if the library was
    // refused memory: then `result`, if it is given, is `no_such` or `no_memory`.
    [[nodiscard]] std::optional<Limits> limits(std::uint8_t address, std::uint16_t id, Result *result = nullptr) noexcept
    {
        Limits all{};
        const vt_result found = at_ ? vt_limits_of(at_, address, id, &all) : VT_NO_SUCH;
        tell(result, found);
        return found == VT_DONE ? std::optional<Limits>(all) : std::nullopt;
    }

    // The text of an input or output field of the set at an address, as the terminal shows it, in the bytes of its font; empty for another
    // object. None if the library was refused memory.
    [[nodiscard]] std::optional<std::string> value_text(std::uint8_t address, std::uint16_t id)
    {
        const std::uint64_t count = at_ ? vt_text_of_value(at_, address, id) : 0;
        return count == UINT64_MAX ? std::nullopt : std::optional(written<std::string>(count));
    }

    // The raw value, for `number`, of what the operator typed for an Input Number of the set at an address, exactly: an optional minus,
    // digits, and perhaps a point and more digits, 15 digits at most. None if there is no such value of 32 bits.
    [[nodiscard]] std::optional<std::uint32_t> raw(std::uint8_t address, std::uint16_t id, std::string_view typed) const noexcept
    {
        std::uint32_t raw = 0;
        const bool is = at_ && vt_raw(at_, address, id, typed.data(), typed.size(), &raw) == VT_DONE;
        return is ? std::optional<std::uint32_t>(raw) : std::nullopt;
    }

    // ---- words

    // What a frame says in words, for a log window, as `80 to 26: Hide/Show Object: Container 100, hide`: addresses in hexadecimal, IDs in
    // decimal. The objects are named as the terminal has them now: tell a frame before it is heard, or when it comes as an output. Empty for
    // an identifier above 1FFFFFFF or more than 8 bytes. None if the library was refused memory; the string itself may throw std::bad_alloc.
    [[nodiscard]] std::optional<std::string> words(const Frame &frame)
    {
        const std::uint64_t count = at_ ? vt_words(at_, frame.id, frame.bytes.data(), frame.count, nullptr, 0) : 0;
        return count == UINT64_MAX ? std::nullopt : std::optional(written<std::string>(count));
    }

    // ---- what a host asks

    // The address of the shown working set, if one is shown.
    [[nodiscard]] std::optional<std::uint8_t> shown() const noexcept
    {
        const std::uint32_t address = at_ ? vt_shown(at_) : 254;
        return address <= highest_address ? std::optional<std::uint8_t>(static_cast<std::uint8_t>(address)) : std::nullopt;
    }

    // Whether a node with a lower NAME took the terminal's address (ISO 11783-5). A lost terminal sends nothing any more: make
    // another one at another address.
    [[nodiscard]] bool lost() const noexcept { return at_ && vt_lost(at_) != 0; }

    // The first time, in microseconds, at which a tick is due; none if there is no such time. Before it `tick` does nothing but
    // move the time on. A time that is not after the latest one means: at once.
    [[nodiscard]] std::optional<std::uint64_t> deadline() const noexcept
    {
        const std::uint64_t time = at_ ? vt_deadline(at_) : UINT64_MAX;
        return time != UINT64_MAX ? std::optional<std::uint64_t>(time) : std::nullopt;
    }

private:
    static constexpr std::align_val_t alignment{16};
    static constexpr vt_result moved = VT_NOT_BEGUN;

    // What lies before a terminal in its memory. Both stay in their place when a `Terminal` is moved.
    struct alignas(16) Head {
        bool is_giving = false; // whether a function takes the outputs of a call
        bool is_ended = false;  // whether the `Terminal` has ended meanwhile
    };

    static Head &head_of(vt_terminal *at) noexcept { return *(reinterpret_cast<Head *>(at) - 1); }

    static void give_back(vt_terminal *at) noexcept
    {
        vt_done(at);
        ::operator delete(static_cast<void *>(&head_of(at)), alignment);
    }

    // Takes the outputs that wait when a call ends, also by an exception, so that the next input is heard, and gives the memory of a terminal
    // back that ended meanwhile.
    struct Rest {
        vt_terminal *at;
        explicit Rest(vt_terminal *terminal) : at(terminal) { head_of(at).is_giving = true; }
        Rest(const Rest &) = delete;
        Rest &operator=(const Rest &) = delete;
        ~Rest()
        {
            while (vt_next(at) != VT_NONE) {
            }
            head_of(at).is_giving = false;
            if (head_of(at).is_ended) {
                give_back(at);
            }
        }
    };

    Terminal() noexcept = default;

    Result begin(std::uint8_t own, std::uint64_t name, const Profile &profile) noexcept
    {
        void *memory = ::operator new(sizeof(Head) + vt_size(), alignment, std::nothrow);
        if (!memory) {
            return Result::no_memory;
        }
        vt_profile all = VT_STANDARD_PROFILE;
        all.memory = profile.memory;
        all.soft_key_width = profile.soft_key_width;
        all.soft_key_height = profile.soft_key_height;
        all.virtual_soft_keys = profile.virtual_soft_keys;
        all.physical_soft_keys = profile.physical_soft_keys;
        all.small_fonts = profile.small_fonts;
        all.large_fonts = profile.large_fonts;
        all.font_styles = profile.font_styles;
        all.boot_time = profile.boot_time;
        all.graphic_type = profile.graphic_type;
        all.hardware = profile.hardware;
        all.width = profile.width;
        all.height = profile.height;
        Head *head = new (memory) Head;
        vt_terminal *made = reinterpret_cast<vt_terminal *>(head + 1);
        const Result result = static_cast<Result>(vt_begin(made, own, name, &all));
        if (result == Result::done) {
            at_ = made;
        } else {
            ::operator delete(memory, alignment);
        }
        return result;
    }

    void end() noexcept
    {
        if (!at_) {
            return;
        }
        if (head_of(at_).is_giving) {
            head_of(at_).is_ended = true;
        } else {
            give_back(at_);
        }
        at_ = nullptr;
    }

    vt_result heard(std::uint64_t time, const Frame &frame)
    {
        return called([&](vt_terminal *at) { return vt_hear(at, time, frame.id, frame.bytes.data(), frame.count); });
    }

    vt_result ticked(std::uint64_t time)
    {
        return called([=](vt_terminal *at) { return vt_tick(at, time); });
    }

    vt_result acted(std::uint64_t time, vt_action kind, std::uint32_t id, std::uint32_t number)
    {
        return called([=](vt_terminal *at) { return vt_act(at, time, kind, id, number); });
    }

    vt_result entered(std::uint64_t time, std::uint16_t id, std::string_view text)
    {
        const auto *bytes = reinterpret_cast<const std::uint8_t *>(text.data());
        return called([&](vt_terminal *at) { return vt_text(at, time, id, bytes, text.size()); });
    }

    // The first bytes of the text written last.
    template <class Bytes> Bytes written(std::uint64_t count) const
    {
        Bytes bytes(static_cast<std::size_t>(count), 0);
        if (at_) {
            vt_copy(at_, reinterpret_cast<std::uint8_t *>(bytes.data()), bytes.size());
        }
        return bytes;
    }

    static std::optional<std::uint16_t> id_of(std::uint16_t id) noexcept
    {
        return id != VT_NO_ID ? std::optional<std::uint16_t>(id) : std::nullopt;
    }

    // An output of one of the kinds that this header has; none for another.
    static std::optional<Output> output_of(const vt_out &out)
    {
        if (out.kind == VT_FRAME) {
            Frame frame;
            frame.id = out.id;
            frame.count = static_cast<std::uint8_t>(out.count);
            for (std::size_t k = 0; k < frame.bytes.size(); k++) {
                frame.bytes[k] = out.data[k];
            }
            return frame;
        }
        if (out.kind == VT_REFUSED) {
            return static_cast<Refusal>(out.id);
        }
        if (out.kind == VT_EVENT) {
            const vt_event event = vt_event_of(&out);
            return Event{static_cast<EventKind>(event.kind), static_cast<std::uint8_t>(event.address), event.first, event.second};
        }
        return std::nullopt;
    }

    static void tell(Result *result, vt_result found) noexcept
    {
        if (result) {
            *result = static_cast<Result>(found);
        }
    }

    // Makes a call, unless the terminal was moved away, or the call comes from within a function that takes outputs.
    template <class Call> vt_result called(Call call)
    {
        return !at_ ? moved : head_of(at_).is_giving ? VT_WAITING : call(at_);
    }

    template <class Each> Result give(vt_result status, Each &each)
    {
        if (status == VT_DONE || status == VT_NO_MEMORY) {
            const Rest rest{at_};
            vt_out out;
            while (vt_take(rest.at, &out) != VT_NONE) {
                if (const std::optional<Output> output = output_of(out)) {
                    each(*output);
                }
            }
        }
        return static_cast<Result>(status);
    }

    Reply collect(vt_result status)
    {
        Reply reply;
        auto keep = [&reply](const Output &output) { reply.outputs.push_back(output); };
        reply.result = give(status, keep);
        return reply;
    }

    vt_terminal *at_ = nullptr;
};

} // namespace segyolant

#ifdef SEGYOLANT_HEAP

#include <cstdlib>
#include <cstring>

#include "vt_heap.h"

// The memory of the library over malloc, in the one source file that defines SEGYOLANT_HEAP.
static_assert(alignof(std::max_align_t) >= 16, "malloc gives multiples of 16");

extern "C" vt_memory rattle_alloc(std::uint64_t size, std::uint64_t align)
{
    void *memory = align <= 16 && size <= SIZE_MAX ? std::malloc(size ? static_cast<std::size_t>(size) : 1) : nullptr;
    return vt_memory{memory ? 1u : 0u, reinterpret_cast<std::uintptr_t>(memory)};
}

extern "C" vt_memory rattle_realloc(void *at, std::uint64_t kept, std::uint64_t size, std::uint64_t align)
{
    (void)kept; // realloc keeps at least these bytes
    void *memory = align <= 16 && size <= SIZE_MAX ? std::realloc(at, size ? static_cast<std::size_t>(size) : 1) : nullptr;
    return vt_memory{memory ? 1u : 0u, reinterpret_cast<std::uintptr_t>(memory)};
}

extern "C" void rattle_dealloc(void *at)
{
    std::free(at);
}

#endif

#endif
