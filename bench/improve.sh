#!/bin/sh
# Asks `unbounded` of models with a greatest value: packings, whose rows have four entries from 1 to 5, and shipments, whose
# columns each count once at a source and once at a sink, every third column with an upper limit. Each column is at least 0, and
# each row at most something above 0, so the start is settled and all pivots are those of the improve run. Then of plans,
# transports, flows, mixed and sparse systems that a point satisfies (`bench/models.sh`), the others than plans with costs from 1
# to 20, whose cost is made least. Prints for each the pivots, the least budget with which the answer is not that they are spent;
# the processor seconds and the peak of memory of a run from start to end; and the best value. Beside them stand the seconds of
# `glpsol --exact` and of `esolver` (QSopt_ex) on the same files, where these are installed, and whether their values are the same:
# esolver's exactly, glpsol's in the digits that it prints. A run is cut off after 30 seconds by the clock. The pivots are not
# counted of runs that take a second or more. The program is the one that the variable IISAN names, or else the one that ./iisan
# builds. With words, only the models whose names have one of them are gone through. It wants GNU time (Debian's package `time`).
# A benchmark, no test.
set -eu

top=$(CDPATH='' cd -- "$(dirname -- "$0")/.." && pwd)
work=$(mktemp -d)
trap 'rm -rf "$work"' EXIT
# shellcheck source=bench/models.sh
. "$top/bench/models.sh"
# shellcheck source=bench/forms.sh
. "$top/bench/forms.sh"
# shellcheck source=bench/timing.sh
. "$top/bench/timing.sh"
# shellcheck source=bench/others.sh
. "$top/bench/others.sh"
# shellcheck source=bench/building.sh
. "$top/bench/building.sh"
find_program
cd "$work"
limit=30

# A packing of so many rows and columns in the LP format; each column counts in a row of its own, so that it is bounded.
packing() {
    awk -v rows="$1" -v columns="$2" 'BEGIN {
        srand(rows * 7 + columns)
        for (j = 0; j < columns; j++) factor[j % rows, j] = 1 + int(rand() * 5)
        for (i = 0; i < rows; i++)
            for (k = 0; k < 3; k++) {
                j = int(rand() * columns)
                if (!((i, j) in factor)) factor[i, j] = 1 + int(rand() * 5)
            }
        print "Maximize\n cost:"
        for (j = 0; j < columns; j++) print "  + " 1 + int(rand() * 9) " x" j
        print "Subject To"
        for (i = 0; i < rows; i++) {
            print " r" i ":"
            for (j = 0; j < columns; j++) if ((i, j) in factor) print "  + " factor[i, j] " x" j
            print "  <= " 10 + int(rand() * 40)
        }
        print "End"
    }'
}

# Shipments from so many sources to so many sinks, in the LP format.
shipment() {
    awk -v sources="$1" -v sinks="$2" 'BEGIN {
        srand(sources * 7 + sinks)
        print "Maximize\n cost:"
        for (i = 0; i < sources; i++) for (j = 0; j < sinks; j++) print "  + " 1 + int(rand() * 20) " x" i "_" j
        print "Subject To"
        for (i = 0; i < sources; i++) {
            print " s" i ":"
            for (j = 0; j < sinks; j++) print "  + x" i "_" j
            print "  <= " 5 + int(rand() * 20)
        }
        for (j = 0; j < sinks; j++) {
            print " d" j ":"
            for (i = 0; i < sources; i++) print "  + x" i "_" j
            print "  <= " 5 + int(rand() * 20)
        }
        print "Bounds"
        for (i = 0; i < sources; i++) for (j = 0; j < sinks; j++) if ((i + j) % 3 == 0) print " x" i "_" j " <= " 2 + int(rand() * 6)
        print "End"
    }'
}

# A model of bench/models.sh that a point satisfies, in the MPS format, with costs by chance from 1 to 20.
priced() {
    if [ "$1" = flow ] || [ "$1" = system ]; then "$1" "$2" "$3" feasible; else "$1" "$2" feasible; fi |
        awk '$2 == "cost" && $3 == 1 { state = (state + 7) * 16807 % 2147483647; $0 = " " $1 " cost " 1 + state % 20 } { print }'
}

# Makes a model of a kind with its numbers; the name of its file goes to the variable `file`.
make_model() {
    file=model.lp other_format=lp
    case $1 in
    packing | shipment) "$1" "$2" "$3" >"$file" ;;
    plan) plan "$2" feasible >"$file" ;;
    *)
        file=model.mps other_format=freemps
        priced "$1" "$2" "$3" >"$file"
        ;;
    esac
    other_system=$file
}

# The rows and columns of that model.
count_rows_and_columns() {
    case $1 in
    packing) rows=$2 columns=$3 ;;
    shipment) rows=$(($2 + $3)) columns=$(($2 * $3)) ;;
    *)
        plain "$file" >lines
        rows=$(grep -c '^row' lines) columns=$(grep -c '^column' lines)
        ;;
    esac
}

# Asks with a budget of pivots: what is said goes to the file `said`.
ask() {
    printf 'budget pivots %s\nunbounded\n' "$1" >script
    timeout "$limit" "$program" analyse "$file" script >said 2>&1 </dev/null || true
}

# One line of the table.
measure() {
    kind=$1 first=$2 second=$3
    make_model "$kind" "$first" "$second"
    count_rows_and_columns "$kind" "$first" "$second"
    printf 'budget pivots 1000000\nunbounded\n' >script
    timed "$limit" "$program" analyse "$file" script
    value=$(awk '$1 == "objective" { print $2 }' said)
    end=${value:-$(grep -v 'done\|command\|report' said | head -n 1)}
    whole=$(cat seconds) most=$(cat megabytes) pivots=-
    ! is_quick "$whole" "$value" || pivots=$(least_budget)
    line="$kind $first${second:+ x $second} | $rows | $columns | $pivots | $whole | $most | $end"
    echo "| $line | $(glpsol_told "$value") | $(esolver_told "$value") |"
}

echo "| model | rows | columns | pivots | seconds | peak megabytes | best value | \`glpsol --exact\` | \`esolver\` |"
echo "|---|---|---|---|---|---|---|---|---|"
while read -r kind first second; do
    second=${second#-}
    has_word "$kind $first x $second " "$@" || continue
    measure "$kind" "$first" "$second"
done <<'END'
packing 10 10
packing 20 20
packing 30 30
packing 40 40
packing 60 60
packing 100 100
shipment 4 5
shipment 10 10
shipment 20 20
shipment 30 30
shipment 40 40
shipment 60 60
plan 60 -
plan 200 -
plan 500 -
plan 1000 -
transport 20 -
transport 40 -
flow 200 4
flow 600 4
flow 1500 2
mixed 100 -
mixed 200 -
mixed 400 -
mixed 1000 -
system 400 800
system 1000 2000
END
