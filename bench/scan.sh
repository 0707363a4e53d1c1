#!/bin/sh
# Splits 16 MiB of text in the form of MPS into lines and fields, twenty times, beside `wc -w` on the same file as often, in one
# run. Prints MB per second of each and their ratio. It wants GNU time (Debian's package `time`). A benchmark, no test.
set -eu

top=$(CDPATH='' cd -- "$(dirname -- "$0")/.." && pwd)
work=$(mktemp -d)
trap 'rm -rf "$work"' EXIT
turns=${1:-20}
# shellcheck source=bench/reading.sh
. "$top/bench/reading.sh"

awk 'BEGIN {
    print "NAME scan\nROWS\n N cost"
    for (i = 0; i < 2000; i++) print " L row" i
    print "COLUMNS"
    for (j = 0; size < 16777216; j++) {
        line = sprintf("    column%-6d row%-6d %9.3f   row%-6d %9.3f", j % 4000, j * 7 % 2000, j % 1000 / 8, j * 9 % 2000, j % 77)
        size += length(line) + 1
        print line
    }
    print "ENDATA"
}' >"$work/whole"
head -c 16777216 "$work/whole" >"$work/model.mps"

build
words=$(wc -w <"$work/model.mps")
(cd "$work" && /usr/bin/time -f '%e' -o proved.time "$bench" scan model.mps "$turns") >"$work/said"
grep -q " fields $((words))$" "$work/said" || {
    echo "the words differ: $(cat "$work/said") $words" >&2
    exit 1
}
count_words model.mps >"$work/plain.seconds"
paste -d ' ' "$work/proved.time" "$work/plain.seconds" |
    awk -v turns="$turns" '{ size = 16.777216 * turns; printf "lines and fields %.0f MB/s, wc -w %.0f MB/s, ratio of times %.2f\n", size / $1, size / $2, $1 / $2 }'
