#!/bin/sh
# Settles infeasible networks of 20 x 40, 100 x 200 and 400 x 800 rows and columns, and prints for each the pivots of a run, the
# entries that the dictionary keeps at its end, its seconds of processor time, the nanoseconds for each of these entries and
# pivot, and the peak memory. Small ones are run many times over, and a run's seconds are the mean. It wants GNU time (Debian's
# package `time`). A benchmark, no test.
set -eu

top=$(CDPATH='' cd -- "$(dirname -- "$0")/.." && pwd)
work=$(mktemp -d)
trap 'rm -rf "$work"' EXIT
# shellcheck source=bench/building.sh
. "$top/bench/building.sh"

build
echo "rows columns pivots stored seconds nanoseconds megabytes"
while read -r rows columns times; do
    (cd "$work" && /usr/bin/time -f '%U %M' -o figures "$bench" settle "$rows" "$columns" "$times") >"$work/said" </dev/null
    grep -q ' end infeasible$' "$work/said" || {
        echo "not infeasible: $(cat "$work/said")" >&2
        exit 1
    }
    paste -d ' ' "$work/said" "$work/figures" |
        awk -v times="$times" '{
            seconds = $13 / times
            printf "%d %d %d %d %.5f %.1f %.1f\n", $2, $4, $6, $10, seconds, seconds * 1e9 / ($10 * $6), $14 / 1024
        }'
done <<'EOF'
20 40 1000
100 200 100
400 800 1
EOF
