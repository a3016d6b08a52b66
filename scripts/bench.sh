#!/usr/bin/env bash
# Times the proved program, from its start to its end, on a million lines: first read and ignored
# (vt_can::parse_line; the screen is drawn after each, and never changes), then read, answered and written
# (vt_can::write_frame), each with another screen than the one before (vt_layout::draw), and then with two
# macros that each line sets off (vt_machine::Live::apply).
set -eu
top=$(cd "$(dirname "$0")/.." && pwd)
program="$top/crates/vt_replay/out/vt_replay"
work=$(mktemp -d)
trap 'rm -rf "$work"' EXIT
lines=1000000
awk -v lines="$lines" 'BEGIN {
    for (i = 0; i < lines; i++)
        printf "(%d.%06d) can0 14E72680#A06400%02dFFFFFFFF\n", i / 1000, i % 1000 * 1000, i % 2
}' >"$work/log"

time_run() {
    local name=$1 begin end
    shift
    begin=$(date +%s%N)
    "$program" "$work/log" "$@" >/dev/null
    end=$(date +%s%N)
    echo "$name: $((lines * 1000000000 / (end - begin))) lines per second"
}

time_run "read and ignored"
time_run "read, answered and written" --pool "$top/examples/pool.iop" --owner 80

# The example's pool, where the container lists macros 1 and 2 at being shown and hidden (events 3 and 4);
# each sets the colour of the mask.
{
    head -c 24 "$top/examples/pool.iop"
    printf '\144\000\003\062\000\024\000\000\000\004\003\001\003\002\004\001\004\002'
    printf '\001\000\034\010\000\247\350\003\005\377\377\377\377'
    printf '\002\000\034\010\000\247\350\003\006\377\377\377\377'
} >"$work/macros.iop"
time_run "with two macros each" --pool "$work/macros.iop" --owner 80
