#!/bin/sh
# Ten million sums and ten million products of small fractions: the proved crate frac128 (program bench) beside the same loop in plain
# Rust (rustc -O), in one run. Prints the seconds of each and their ratio. A benchmark, no test.
set -eu

top=$(CDPATH='' cd -- "$(dirname -- "$0")/.." && pwd)
work=$(mktemp -d)
trap 'rm -rf "$work"' EXIT
count=${1:-10000000}
# shellcheck source=bench/building.sh
. "$top/bench/building.sh"

build
rustc -O -o "$work/plain" "$top/bench/fractions.rs"
/usr/bin/time -f '%e' -o "$work/proved.time" "$bench" fractions "$count" >"$work/proved"
/usr/bin/time -f '%e' -o "$work/plain.time" "$work/plain" "$count" >"$work/said"
cmp -s "$work/proved" "$work/said" || {
    echo "the check sums differ: $(cat "$work/proved") $(cat "$work/said")" >&2
    exit 1
}
paste -d ' ' "$work/proved.time" "$work/plain.time" |
    awk '{ printf "proved %.2f s, plain %.2f s, ratio %.2f\n", $1, $2, $1 / $2 }'
