#!/bin/sh
# Reads three texts of 16 MiB in the MPS format, ten times each: a model at the limits, one that is comments but for a few
# lines, and one whose entries all stand in one column; beside `wc -w` on the first as often. Prints MB per second of each, and
# the peak of memory. It wants GNU time (Debian's package `time`). A benchmark, no test.
set -eu

top=$(CDPATH='' cd -- "$(dirname -- "$0")/.." && pwd)
work=$(mktemp -d)
trap 'rm -rf "$work"' EXIT
turns=${1:-10}
# shellcheck source=bench/reading.sh
. "$top/bench/reading.sh"

awk -v pad=100 'function name(kind, number) { return sprintf("%s%0*d", kind, pad, number) }
BEGIN {
    print "NAME limits\nROWS"
    for (i = 0; i < 1000; i++) print " N " name("n", i)
    for (i = 0; i < 2000; i++) print " L " name("r", i)
    print "COLUMNS"
    for (j = 0; j < 50000; j++) {
        c = int(j * 4000 / 50000)
        print " " name("c", c) " " name("r", j * 2 % 2000) " " j % 1000 / 8 " " name("r", (j * 2 + 1) % 2000) " " j % 77
    }
    print "RHS"
    for (i = 0; i < 2000; i++) print " " name("r", i) " " i
    print "RANGES"
    for (i = 0; i < 2000; i++) print " " name("r", i) " 1"
    print "BOUNDS"
    for (c = 0; c < 4000; c++) print " UP " name("c", c) " 8"
    print "ENDATA"
}' >"$work/limits.mps"
awk 'BEGIN {
    print "ROWS\n L r\nCOLUMNS\n x r 1"
    for (size = 0; size < 16777216; size += 64) print "* 3456789 123456789 123456789 123456789 123456789 123456789 123"
    print "ENDATA"
}' >"$work/comments.mps"
awk -v pad=150 'function name(kind, number) { return sprintf("%s%0*d", kind, pad, number) }
BEGIN {
    print "ROWS\n N cost\n N " name("d", 0)
    for (i = 0; i < 2000; i++) print " G " name("r", i)
    print "COLUMNS"
    for (i = 0; i < 2000; i += 2) print " x " name("r", i) " 1 " name("r", i + 1) " 2"
    for (i = 0; i < 49000; i++) print " x " name("d", 0) " 1 " name("d", 0) " 2"
    print "ENDATA"
}' >"$work/column.mps"

build
for file in limits comments column; do
    read_text mps "$file.mps"
done
print_count limits.mps
