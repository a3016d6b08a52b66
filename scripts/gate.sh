#!/usr/bin/env bash
# Runs the tests, the gate, and the tests in C and in Python, tells what each takes, and ends with the count of them all.
set -u
cd "$(dirname "$0")/.."
said=$(mktemp)
clock=$(mktemp)
trap 'rm -f "$said" "$clock"' EXIT

# The processor seconds of all that has ended so far, in $used.
look_at_clock() {
    times >"$clock"
    used=$(sed -n 2p "$clock" | sed 's/[ms]/ /g' | awk '{print int($1 * 60 + $2 + $3 * 60 + $4)}')
}

status=0
for step in test prove test-c test-python test-desk test-page; do
    look_at_clock
    before=$used begun=$(date +%s)
    make "$step" GATE=1 2>&1 | tee -a "$said"
    status=${PIPESTATUS[0]}
    look_at_clock
    echo "gate: make $step took $(($(date +%s) - begun)) seconds, and $((used - before)) of processor"
    [ "$status" = 0 ] || break
done
python3 - "$said" "$status" <<'PY'
import re
import sys

said = open(sys.argv[1], encoding='utf-8', errors='replace').read()
counts = re.findall(r'^(\d+) passed, (\d+) failed', said, re.M)
passed, failed = sum(int(it[0]) for it in counts), sum(int(it[1]) for it in counts)
print(f'{passed} passed, {failed or int(sys.argv[2] != "0")} failed')
PY
exit "$status"
