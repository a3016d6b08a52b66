#!/usr/bin/env bash
# Copies the examples to where the gate runs the programs on them, as it takes no links; with --check says whether they are the same.
set -eu
cd "$(dirname "$0")/.."

# The files that a program of the gate runs on.
files_of() {
    case $1 in
        vt_replay) echo seeder.log ;;
        segyolant) echo sprayer.iop sprayer.h ;;
        segyolant_log) echo field.log sprayer.h ;;
    esac
}

for crate in vt_replay segyolant segyolant_log; do
    data=crates/$crate/data
    mkdir -p "$data"
    for file in $(files_of "$crate"); do
        if [ "${1-}" = --check ]; then
            cmp "examples/$file" "$data/$file" || {
                echo "examples/$file is not what the gate runs: make examples copies it" >&2
                exit 1
            }
        else
            cp "examples/$file" "$data/$file"
        fi
    done
done
