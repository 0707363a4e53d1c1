#!/bin/sh
# Makes models that only the marks of their columns contradict: boxes and knapsacks whose even weights are to come to an odd
# total, and shift plans. For each it prints the nodes of the proof that `check` gives, its processor seconds and megabytes, the
# bytes of the report, and the seconds of `verify` of it; besides those of `glpsol` and `cbc`, where they are there. Then it runs
# the deletion filter on odd cycles, with quick trees and by the reference trees alone, and prints for each the asks, those of them
# that the reference was asked, the nodes and pivots of all trees, the seconds, and the size of the set or how it ended. It wants
# GNU time (Debian's package `time`). The program is the one that the variable IISAN names, or else the one that ./iisan builds. A
# benchmark, no test.
set -eu

top=$(CDPATH='' cd -- "$(dirname -- "$0")/.." && pwd)
work=$(mktemp -d)
trap 'rm -rf "$work"' EXIT
# shellcheck source=bench/timing.sh
. "$top/bench/timing.sh"
# shellcheck source=bench/building.sh
. "$top/bench/building.sh"
find_program
cd "$work"

# So many columns from 0 to 1, each twice, come to an odd number.
box() {
    awk -v n="$1" 'BEGIN {
        printf "Minimize\nobj: x1\nSubject To\nc:"
        for (j = 1; j <= n; j++) printf " + 2 x%d", j
        print " = " (n % 2 ? n : n - 1) "\nBounds"
        for (j = 1; j <= n; j++) print "x" j " <= 1"
        print "General"
        for (j = 1; j <= n; j++) print "x" j
        print "End"
    }'
}

# So many columns from 0 to 3 with even weights come to an odd number.
knapsack() {
    awk -v n="$1" 'BEGIN {
        printf "Minimize\nobj: x1\nSubject To\nc:"
        for (j = 1; j <= n; j++) printf " + %d x%d", 2 * (3 + (j * 5) % 7), j
        print " = " (8 * n + 1) "\nBounds"
        for (j = 1; j <= n; j++) print "x" j " <= 3"
        print "General"
        for (j = 1; j <= n; j++) print "x" j
        print "End"
    }'
}

# So many cycles of so many columns each, an odd number: of two that follow one another one is to be taken, and of all together
# not as many as that takes.
cycles() {
    awk -v n="$1" -v columns="$2" 'BEGIN {
        print "Minimize\nobj: x1_1\nSubject To"
        for (c = 1; c <= n; c++) for (j = 1; j <= columns; j++)
            printf "e%d_%d: x%d_%d + x%d_%d >= 1\n", c, j, c, j, c, j % columns + 1
        printf "all:"
        for (c = 1; c <= n; c++) for (j = 1; j <= columns; j++) printf " + x%d_%d", c, j
        print " <= " (n * (columns + 1) / 2 - 0.5)
        print "General"
        for (c = 1; c <= n; c++) for (j = 1; j <= columns; j++) print "x" c "_" j
        print "End"
    }'
}

# A week in which each shift works on five days in a row, and a crew that only parts of people would make large enough, in so
# many places with a crew each.
shifts() {
    awk -v n="$1" 'BEGIN {
        split("17 13 15 19 14 16 11", need, " ")
        print "Minimize\nobj: s1_0\nSubject To"
        for (p = 1; p <= n; p++) {
            for (d = 0; d < 7; d++) {
                printf "p%dd%d:", p, d
                for (k = 0; k < 5; k++) printf " + s%d_%d", p, (d + 7 - k) % 7
                print " >= " need[d + 1]
            }
            printf "p%dcrew:", p
            for (d = 0; d < 7; d++) printf " + s%d_%d", p, d
            print " <= " (p == n ? 22.5 : 23)
        }
        print "Bounds"
        for (p = 1; p <= n; p++) for (d = 0; d < 7; d++) print "s" p "_" d " <= 20"
        print "General"
        for (p = 1; p <= n; p++) for (d = 0; d < 7; d++) print "s" p "_" d
        print "End"
    }'
}

printf 'budget pivots 1000000\nbudget nodes 100000\ncheck\n' >script
echo "model nodes seconds megabytes bytes verify glpsol cbc"
for model in "box 9" "box 13" "knapsack 6" "shifts 2"; do
    # The two words are the kind and the size.
    # shellcheck disable=SC2086
    $model >model.lp
    timed 120 "$program" analyse model.lp script
    cp said report
    nodes=$(grep -c -E '^(split|leaf)' report || true)
    seconds=$(cat seconds)
    megabytes=$(cat megabytes)
    bytes=$(wc -c <report)
    timed 120 "$program" verify model.lp report
    verify=$(cat seconds)
    grep -q '^accepted settled' said || verify="$(head -n 1 said)"
    others=""
    for other in "glpsol --lp model.lp" "cbc model.lp solve quit"; do
        if command -v "${other%% *}" >/dev/null 2>&1; then
            # shellcheck disable=SC2086
            timed 120 $other
            others="$others $(tr ' ' '_' <seconds)"
        else
            others="$others -"
        fi
    done
    echo "$model $nodes $seconds $megabytes $bytes $verify$others"
done

build

# One line of the table of filters.
filter() {
    timed 120 "$bench" ask model.lp deletion "$2"
    awk -v name="$1" -v trees="$2" -v seconds="$(cat seconds)" '
        { for (k = 1; k < NF; k += 2) told[$k] = $(k + 1) }
        function of(word) { return word in told ? told[word] : "-" }
        END {
            found = of("end") == "set" ? of("size") : of("end")
            print name, trees, of("asks"), of("reference"), of("nodes"), of("pivots"), seconds, found
        }' said
}

echo
echo "model trees asks reference nodes pivots seconds found"
for model in "cycles 3 11" "cycles 6 7" "cycles 9 5"; do
    # The words are the kind and the sizes.
    # shellcheck disable=SC2086
    $model >model.lp
    filter "$model" quick
    filter "$model" reference
done
