#!/bin/sh
# Reads three texts of 16 MiB in the LP format, ten times each: a model at the limits, one that is comments but for a few
# lines, and one whose terms all stand in one row; beside `wc -w` on the first as often. Prints MB per second of each, and
# the peak of memory. It wants GNU time (Debian's package `time`). A benchmark, no test.
set -eu

top=$(CDPATH='' cd -- "$(dirname -- "$0")/.." && pwd)
work=$(mktemp -d)
trap 'rm -rf "$work"' EXIT
turns=${1:-10}
# shellcheck source=bench/reading.sh
. "$top/bench/reading.sh"

awk -v pad=150 'function name(kind, number) { return sprintf("%s%0*d", kind, pad, number) }
BEGIN {
    print "Minimize"
    for (j = 0; j < 4000; j++) print " + " j % 77 " " name("c", j)
    print "Subject To"
    for (i = 0; i < 2000; i++) {
        print " " name("r", i) ":"
        for (k = 0; k < 48; k++) print " - " (i + k) % 1000 / 8 " " name("c", (i * 2 + k * 83) % 4000)
        print " <= " i
    }
    print "Bounds"
    for (c = 0; c < 4000; c++) print " 1 <= " name("c", c) " <= 8"
    print "General"
    for (c = 0; c < 4000; c++) print " " name("c", c)
    print "End"
}' >"$work/limits.lp"
awk 'BEGIN {
    print "Minimize\nSubject To\n x >= 1"
    for (size = 0; size < 16777216; size += 64) print "\\ 3456789 123456789 123456789 123456789 123456789 123456789 123"
    print "End"
}' >"$work/comments.lp"
awk -v pad=155 'function name(kind, number) { return sprintf("%s%0*d", kind, pad, number) }
BEGIN {
    print "Minimize\nSubject To"
    for (k = 0; k < 100000; k++) print " - " k % 1000 / 8 " " name("c", k * 83 % 4000)
    print " >= 1\nEnd"
}' >"$work/row.lp"

build
for file in limits comments row; do
    read_text lp "$file.lp"
done
print_count limits.lp
