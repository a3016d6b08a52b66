#!/usr/bin/env bash
# Draws the example pools by the proved program, and makes PNG of the pictures by Debian's rsvg-convert (package librsvg2-bin), for
# README.md and examples/kinds.md.
set -eu
cd "$(dirname "$0")/.."

program=crates/segyolant/out/segyolant
mkdir -p docs/pictures
"$program" draw examples/sprayer.iop | rsvg-convert -o docs/pictures/sprayer.png
for mask in 1000 1001 1002 1003 1004 1005 1006 1010; do
    "$program" draw examples/kinds.iop --mask "$mask" | rsvg-convert -o "docs/pictures/kinds-$mask.png"
done
