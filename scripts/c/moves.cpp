// A test of segyolant.hpp: the function that takes the outputs of a call moves its terminal, puts another one in its place, or ends it. All
// outputs come, inputs are refused meanwhile, and no memory is lost or used after its end. The status is 0 only if all is as expected.
#define SEGYOLANT_HEAP
#include "segyolant.hpp"

#include <cstdio>
#include <fstream>
#include <iterator>
#include <optional>
#include <string>

using segyolant::Frame;
using segyolant::Output;
using segyolant::Result;
using segyolant::Terminal;

namespace {

const Frame request{0x18EA2680, {0x00, 0xEE, 0x00}, 3}; // for the claim: one output
constexpr std::uint64_t silence = 5000000;              // closes the set: a status, its end, and another picture, three outputs

int failures = 0;

void check(bool is, const char *what)
{
    if (!is) {
        std::fprintf(stderr, "moves: %s\n", what);
        failures++;
    }
}

// A terminal with a set that has the pool.
Terminal begun(const std::string &pool)
{
    Terminal terminal(0x26, 0x20001D0000000001);
    check(terminal.preload(0x80, pool) == Result::done, "no pool");
    check(terminal.hear(1000000, request).outputs.size() == 1, "no claim");
    return terminal;
}

void is_moved(const std::string &pool)
{
    std::optional<Terminal> from(begun(pool)), to;
    int count = 0;
    const Result result = from->tick(silence, [&](const Output &) {
        count++;
        if (!to) {
            to.emplace(std::move(*from));
        }
        check(from->tick(silence).result == Result::not_begun, "a terminal that was moved away hears");
        check(to->tick(silence).result == Result::waiting, "a terminal that was moved hears while its outputs are taken");
    });
    check(result == Result::done && count == 3, "a terminal that was moved gives other outputs");
    check(to->hear(silence, request).outputs.size() == 1, "a terminal that was moved does not hear after its outputs are taken");
}

void is_replaced(const std::string &pool)
{
    Terminal terminal = begun(pool);
    int count = 0;
    const Result result = terminal.tick(silence, [&](const Output &) {
        if (count++ == 0) {
            terminal = begun(pool);
            check(terminal.hear(silence, request).outputs.size() > 0, "a terminal in the place of another one does not hear");
        }
    });
    check(result == Result::done && count == 3, "a terminal with another one in its place gives other outputs");
    check(terminal.hear(silence, request).outputs.size() == 1, "a terminal in the place of another one does not hear later");
}

void is_ended(const std::string &pool)
{
    std::optional<Terminal> terminal(begun(pool));
    int count = 0;
    const Result result = terminal->tick(silence, [&](const Output &) {
        count++;
        terminal.reset();
    });
    check(result == Result::done && count == 3, "a terminal that was ended gives other outputs");
}

void throws(const std::string &pool)
{
    std::optional<Terminal> terminal(begun(pool));
    try {
        (void)terminal->tick(silence, [&](const Output &) {
            terminal.reset();
            throw 1;
        });
        check(false, "no exception comes");
    } catch (int) {
    }
}

} // namespace

int main(int argc, char **argv)
{
    std::ifstream file(argc > 1 ? argv[1] : "examples/pool.iop", std::ios::binary);
    const std::string pool((std::istreambuf_iterator<char>(file)), std::istreambuf_iterator<char>());
    is_moved(pool);
    is_replaced(pool);
    is_ended(pool);
    throws(pool);
    return failures ? 1 : 0;
}
