#!/bin/sh
# What bench/relax.sh, bench/alternative.sh and bench/improve.sh share: the least budget of pivots, and what other solvers tell. To be
# read by `.`. It wants bench/timing.sh, a function `ask BUDGET RIGID` that leaves what is said in the file `said`, the seconds
# `limit` of a run, the name other_system of the file that the others read, and its format other_format, lp or freemps.

# Whether a run of so many seconds gave an answer and was quick, so that many more like it can be made.
is_quick() { awk -v answer="$2" -v seconds="$1" 'BEGIN { exit !(answer != "" && seconds != "cut off" && seconds < 1) }'; }

# Whether pivots were spent, or the run was cut off.
is_spent() { ! grep -qx 'report end' said || grep -qx 'pivots spent' said; }

# The least budget with which the answer is not that the pivots are spent. With less than a quick run wants the reference run is
# made, which may take long: such runs are cut off after two seconds.
least_budget() {
    limit=2 spent=-1 enough=1
    ask "$enough" "${1:-}"
    while is_spent; do
        spent=$enough enough=$((enough * 2))
        ask "$enough" "${1:-}"
    done
    while [ $((enough - spent)) -gt 1 ]; do
        middle=$(((enough + spent) / 2))
        ask "$middle" "${1:-}"
        if is_spent; then spent=$middle; else enough=$middle; fi
    done
    echo "$enough"
}

# What is told of another solver, which has run: its seconds, and whether its value is the same, as text or in nine digits.
told() {
    awk -v seconds="$(cat seconds)" -v value="$1" -v found="$2" -v exact="$3" '
        function number(text, part, n) { n = split(text, part, "/"); return part[1] / (n > 1 ? part[2] : 1) }
        function size(x) { return x < 0 ? -x : x }
        BEGIN {
            if (value == "" || found == "") { print seconds; exit }
            gap = size(number(value) - number(found))
            same = exact ? value "" == found "" : gap <= 1e-9 * (1 + size(number(value)))
            print seconds ", " (same ? "same" : "another value: " found)
        }'
}

# The same of each that is installed, or a dash.
glpsol_told() {
    command -v glpsol >/dev/null 2>&1 || { echo - && return; }
    : >solution
    timed "$limit" glpsol --exact "--$other_format" "$other_system" -w solution
    told "$1" "$(awk '$1 == "s" && $5 == "f" { print $NF }' solution)" ""
}

esolver_told() {
    command -v esolver >/dev/null 2>&1 || { echo - && return; }
    : >solution
    timed "$limit" esolver -O solution "$other_system"
    told "$1" "$(awk '$1 == "Value" { print $3 }' solution)" exact
}
