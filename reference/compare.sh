#!/bin/sh
# Calls the proved library through its C interface and compares it with the independent program.
#   reference/compare.sh                          a fixed seed and a bounded count: the step of the test command
#   reference/compare.sh --seed S --calls N       any seed and count (the program's `help` says what else)
# The library must be there: `rt lib` in crates/exports makes it.
set -eu
cd "$(dirname "$0")"
if [ ! -f ../crates/exports/out/libexports.a ]; then
    echo "compare: there is no crates/exports/out/libexports.a; rt lib in crates/exports makes it" >&2
    exit 1
fi
# a folder of its own, so that the program without the library stays built, too
JOURNEYS_LIB=$(cd ../crates/exports/out && pwd) cargo build --release --quiet --offline --features linked --target-dir target/linked
program=target/linked/release/reference
if [ $# -gt 0 ]; then
    exec "$program" compare "$@"
fi
"$program" compare --seed 1 --calls 120000 --largest 100
"$program" compare --seed 1 --calls 10000 --largest 500
# one bit falsified behind each call: each must be noticed, or the comparison itself is worth nothing
if told=$("$program" compare --seed 1 --calls 20000 --largest 60 --spoil); then
    echo "compare: all $(echo "$told" | sed -n 's/^\([0-9]*\) calls$/\1/p') falsified calls were noticed"
else
    echo "$told"
    exit 1
fi
