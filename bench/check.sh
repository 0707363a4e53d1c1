#!/bin/sh
# Answers `check` on the models of `bench/models.sh`: plans of 10 to 1,000 periods in the LP format, and in the MPS format random
# sparse systems of up to 2,000 rows and 4,000 columns, feasible and infeasible, transports, flows, and a system of rows of all
# kinds. Prints for each the answer, the seconds of processor time and the peak of memory; beside them the seconds of `glpsol
# --exact` and of `esolver` (QSopt_ex) on the same files, where these are installed; where a model is feasible these minimise its
# objective, too. A run is cut off after 120 seconds by the clock, that of another solver after 30. With words, only the models
# whose names have one of them are gone through. It wants GNU time (Debian's package `time`). A benchmark, no test.
set -eu

top=$(CDPATH='' cd -- "$(dirname -- "$0")/.." && pwd)
work=$(mktemp -d)
trap 'rm -rf "$work"' EXIT
# shellcheck source=bench/models.sh
. "$top/bench/models.sh"
# shellcheck source=bench/timing.sh
. "$top/bench/timing.sh"
# shellcheck source=bench/building.sh
. "$top/bench/building.sh"
find_program
cd "$work"
limit=120 limit_of_others=30
echo check >script

# The seconds of another solver, or a dash.
other() {
    if command -v "$1" >/dev/null 2>&1; then
        timed "$limit_of_others" "$@"
        cat seconds
    else
        echo -
    fi
}

# One line of the table.
measure() {
    name=$1 file=$2
    format=freemps
    [ "${file##*.}" = mps ] || format="lp"
    timed "$limit" "$program" analyse "$file" script
    line="$name | $(sed -n 3p said) | $(cat seconds) | $(cat megabytes)"
    glpsol=$(other glpsol --exact "--$format" "$file")
    esolver=$(other esolver "$file")
    echo "| $line | $glpsol | $esolver |"
}

echo "| model | answer | seconds | megabytes | \`glpsol --exact\` | \`esolver\` |"
echo "|---|---|---|---|---|---|"
each_model measure "$@"
