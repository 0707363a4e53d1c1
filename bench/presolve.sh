#!/bin/sh
# How far `reduce` gets with models, and what it takes: plans of 60 to 1,000 periods, chains of equations of two columns, random
# sparse systems of up to 2,000 rows and 4,000 columns, transports and flows. Prints for each the steps and what is left, the
# seconds of processor time, those for each step in microseconds, and the peak of memory; then the seconds of `check` by the
# reference with the reduction before its run and without (program bench), and those of `glpsol --exact` and of `esolver`
# (QSopt_ex) on the same files, where these are installed. A run is cut off after 30 seconds by the clock. With words, only the
# models whose names have one of them are gone through. It wants GNU time (Debian's package `time`). A benchmark, no test.
set -eu

top=$(CDPATH='' cd -- "$(dirname -- "$0")/.." && pwd)
work=$(mktemp -d)
trap 'rm -rf "$work"' EXIT
# shellcheck source=bench/models.sh
. "$top/bench/models.sh"
# shellcheck source=bench/timing.sh
. "$top/bench/timing.sh"
# shellcheck source=bench/building.sh
. "$top/bench/building.sh"
find_program
cd "$work"
limit=30
echo reduce >script

# A chain of so many columns, each one more than the one before, of which the last is to be at most 1.
chain() {
    awk -v n="$1" 'BEGIN {
        print "Minimize\n cost: x1\nSubject To"
        for (t = 2; t <= n; t++) print " e" t ": x" t " - x" t - 1 " = 1"
        print " last: x" n " + 2 y <= " 2 * n "\nEnd"
    }'
}

# The seconds of another solver, or a dash.
other() {
    if command -v "$1" >/dev/null 2>&1; then
        timed "$limit" "$@"
        cat seconds
    else
        echo -
    fi
}

# One line of the table.
measure() {
    name=$1 file=$2
    format=freemps
    [ "${file##*.}" = mps ] || format="lp"
    timed "$limit" "$program" analyse "$file" script
    steps=$(grep -c -E '^(empty|singleton|fixed|redundant|forcing|doubleton) ' said || true)
    left=$(sed -n -e 's/^left rows \(.*\) columns \(.*\)$/\1 x \2/p' -e 's/^infeasible$/contradiction/p' said)
    reduced=$(cat seconds) memory=$(cat megabytes)
    each=$(echo "$reduced $steps" | awk '{ if ($2 > 0) printf "%.1f", $1 * 1000000 / $2; else print "-" }')
    timed "$limit" "$bench" ask "$file" check presolved
    presolved=$(cat seconds) end=$(sed -n 's/.* end \([a-z]*\) .*/\1/p' said)
    timed "$limit" "$bench" ask "$file" check reference
    alone=$(cat seconds)
    glpsol=$(other glpsol --exact "--$format" "$file")
    esolver=$(other esolver "$file")
    echo "| $name | $steps | $left | $reduced | $each | $memory | $end | $presolved | $alone | $glpsol | $esolver |"
}

build
echo "| model | steps | left | seconds | µs a step | megabytes | end | presolved | alone | \`glpsol --exact\` | \`esolver\` |"
echo "|---|---|---|---|---|---|---|---|---|---|---|"
for length in 60 250 1000 1900; do
    has_word "chain of $length" "$@" || continue
    chain "$length" >model.lp
    measure "chain of $length" model.lp
done
each_model measure "$@"
