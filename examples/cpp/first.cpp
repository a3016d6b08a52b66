// A terminal in C++, from its claim to its first screen: a working set at address 128 uploads examples/pool.iop.
//
//     g++ -std=c++17 -Iinclude examples/cpp/first.cpp crates/vt_terminal/out/libvt_terminal.a -o first && ./first
//
// The frames stand here in place of a bus. The status is 0 only if the screen is as expected.
#define SEGYOLANT_HEAP
#include "segyolant.hpp"

#include <algorithm>
#include <cstdio>
#include <fstream>
#include <iterator>
#include <string>
#include <vector>

using segyolant::Frame;
using segyolant::Output;
using segyolant::Reply;

namespace {

constexpr std::uint8_t own = 0x26;
constexpr std::uint64_t name = 0x20001D0000000001;

// A message of the working set to the terminal (ISO 11783-6, ECU to VT): eight bytes, the last ones FF where nothing is given.
Frame message(std::vector<std::uint8_t> bytes)
{
    Frame frame;
    frame.id = 0x14E72680;
    frame.count = 8;
    frame.bytes.fill(0xFF);
    std::copy(bytes.begin(), bytes.end(), frame.bytes.begin());
    return frame;
}

// The pieces of an upload, of up to seven bytes after the function 11 (hexadecimal; Object Pool Transfer), and its end.
std::vector<Frame> upload(const std::string &pool)
{
    std::vector<Frame> frames;
    for (std::size_t from = 0; from < pool.size(); from += 7) {
        std::vector<std::uint8_t> bytes{0x11};
        for (char byte : pool.substr(from, 7)) {
            bytes.push_back(static_cast<std::uint8_t>(byte));
        }
        Frame frame = message(bytes);
        frame.count = static_cast<std::uint8_t>(bytes.size());
        frames.push_back(frame);
    }
    frames.push_back(message({0x12}));
    return frames;
}

// Prints the outputs. A program on a bus sends the frames instead.
bool print(const Reply &reply)
{
    if (!reply) {
        std::fprintf(stderr, "first: %s\n", segyolant::text_of(reply.result));
        return false;
    }
    for (const Output &output : reply.outputs) {
        if (const Frame *frame = std::get_if<Frame>(&output)) {
            std::printf("%08X#", static_cast<unsigned>(frame->id));
            for (std::size_t k = 0; k < frame->count; k++) {
                std::printf("%02X", static_cast<unsigned>(frame->bytes[k]));
            }
            std::printf("\n");
        } else if (const auto *refusal = std::get_if<segyolant::Refusal>(&output)) {
            std::printf("operator %s\n", segyolant::name_of(*refusal));
        }
    }
    return true;
}

} // namespace

int main(int argc, char **argv)
{
    const char *path = argc > 1 ? argv[1] : "examples/pool.iop";
    std::ifstream file(path, std::ios::binary);
    const std::string pool((std::istreambuf_iterator<char>(file)), std::istreambuf_iterator<char>());
    if (pool.empty()) {
        std::fprintf(stderr, "first: %s cannot be read: run it in the folder of the repository, or give the path of the pool\n", path);
        return 2;
    }

    segyolant::Terminal terminal(own, name);
    bool done = print(terminal.claim());

    // The working set claims its address (ISO 11783-5), registers (ISO 11783-6, Working Set Master), and uploads.
    std::vector<Frame> frames{
        {0x18EEFF80, {0x02, 0x00, 0x00, 0x00, 0x00, 0x1D, 0x00, 0x20}, 8},
        {0x1CFE0D80, {0x01, 0xFF, 0xFF, 0xFF, 0xFF, 0xFF, 0xFF, 0xFF}, 8},
    };
    for (const Frame &frame : upload(pool)) {
        frames.push_back(frame);
    }
    std::uint64_t time = 1000000;
    for (const Frame &frame : frames) {
        time += 10000;
        done = print(terminal.hear(time, frame)) && done;
    }

    const std::string screen = terminal.screen().value_or("no memory\n");
    std::printf("%s", screen.c_str());
    if (!done || terminal.shown() != 0x80 || screen != "screen 80 mask 1000\ncontainer 100 10 5 50x20\n") {
        std::fprintf(stderr, "first: the screen is not the one of examples/pool.iop\n");
        return 1;
    }

    // Without a frame for more than three seconds the set is closed. The tick at the deadline does it.
    const std::uint64_t deadline = terminal.deadline().value_or(0);
    std::printf("silent until %llu\n", static_cast<unsigned long long>(deadline));
    done = deadline > time && print(terminal.tick(deadline)) && !terminal.shown();
    std::printf("%s", terminal.screen().value_or("no memory\n").c_str());
    return done ? 0 : 1;
}
