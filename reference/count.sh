#!/bin/sh
# Instructions of one call, by valgrind: what `drive` takes for one repetition more. The program must be built before (see the README).
#   count.sh PROGRAM CALL NODES..       programs: ours ready theirs; calls: check checks prepare plain contracted
# plain, contracted and checks are 20 questions; the line tells the instructions of one.
# With SPLIT=1 the library's functions are listed too, each by its own instructions and its share.
set -eu
cd "$(dirname "$0")"
program=$1 call=$2
shift 2
reference=${REFERENCE:-target/linked/release/reference}
out=target/count
mkdir -p target

count() { # nodes, times
    valgrind --tool=callgrind --callgrind-out-file="$out.$2" "$reference" drive \
        --program "$program" --call "$call" --nodes "$1" --times "$2" --seed "${SEED:-1}" 2>&1 | sed -n 's/.*Collected : //p'
}

case $call in check | prepare) each=1 ;; *) each=20 ;; esac
for nodes; do
    without=$(count "$nodes" 0)
    with=$(count "$nodes" 1)
    echo "$program $call $nodes nodes: $(((with - without) / each)) instructions"
    if [ "${SPLIT:-0}" = 1 ]; then
        callgrind_annotate --threshold=100 "$out.1" | grep '%' | sed 's/ \[.*//; s/???://' |
            grep -E ' (journeys_|(preparation|legs|search|network|columns|exports)::)|/memset-'
    fi
done
