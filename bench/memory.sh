#!/bin/sh
# What a quick run keeps: the peak of memory of the program bench when it asks whether a point satisfies a model, beside that when
# it reads the model and asks nothing, on models of `bench/models.sh`. With words, only the models whose names have one of them are
# gone through. It wants GNU time (Debian's package `time`). A benchmark, no test.
set -eu

top=$(CDPATH='' cd -- "$(dirname -- "$0")/.." && pwd)
work=$(mktemp -d)
trap 'rm -rf "$work"' EXIT
# shellcheck source=bench/models.sh
. "$top/bench/models.sh"
# shellcheck source=bench/building.sh
. "$top/bench/building.sh"
cd "$work"
[ "$#" -gt 0 ] || set -- "plan of 200" "plan of 500" "plan of 1000" "2000 x 4000" transport flow mixed

# The peak of memory of a run in kilobytes, the mean of 20: of one run the system may count 100 more or fewer.
peak() {
    for _ in $(seq 20); do
        /usr/bin/time -f '%M' -o figures "$@" >said 2>&1 </dev/null || true
        tail -n 1 figures
    done | awk '{ sum += $1 } END { print sum / NR }'
}

# One line of the table.
measure() {
    nothing=$(peak "$bench" ask "$2" nothing)
    check=$(peak "$bench" ask "$2" check)
    awk -v name="$1" -v nothing="$nothing" -v check="$check" 'BEGIN {
        printf "| %s | %.2f | %.2f | %.2f |\n", name, nothing / 1024, check / 1024, (check - nothing) / 1024
    }'
}

build
echo "| model | the model read, MB | \`check\`, MB | more, MB |"
echo "|---|---|---|---|"
each_model measure "$@"
