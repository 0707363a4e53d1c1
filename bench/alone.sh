#!/bin/sh
# What quick runs cost where they do not help: `check`, the deletion and the additive filter of the program bench with quick
# runs beside the same by reference runs alone, on models whose numbers are too wide for quick runs or for both, on small ones,
# which are asked of the reference run at once, and on some that quick runs answer. Prints for each the end with quick runs, and
# that of reference runs alone where it is another; the asks, and those of them that went to the reference run; the processor
# seconds of each from start to end, with the reading of the model; and their ratio. Each is run once, or where that takes little
# time 20 or 100 times in a row, in three turns, and the least mean counts. With words, only the models whose
# names have one of them are gone through. It wants GNU time (Debian's package `time`). A benchmark, no test.
set -eu

top=$(CDPATH='' cd -- "$(dirname -- "$0")/.." && pwd)
work=$(mktemp -d)
trap 'rm -rf "$work"' EXIT
# shellcheck source=bench/models.sh
. "$top/bench/models.sh"
# shellcheck source=bench/building.sh
. "$top/bench/building.sh"
cd "$work"

# Runs the program so often: what it says goes to a file, and the mean of its processor seconds to the end of another.
run() {
    out=$1 times=$2 often=$3
    shift 3
    /usr/bin/time -f '%U %S' -o figures sh -c 'for k in $(seq "$0"); do "$@" || exit 1; done' "$often" "$@" >"$out" </dev/null
    tail -n 1 figures | awk -v often="$often" '{ print ($1 + $2) / often }' >>"$times"
}

# The line of the table for a question of a model.
line() {
    name=$1 file=$2 question=$3
    : >quick.times
    : >alone.times
    run quick quick.times 1 "$bench" ask "$file" "$question"
    run alone alone.times 1 "$bench" ask "$file" "$question" reference
    often=$(awk '$1 > most { most = $1 } END { print most < 0.01 ? 100 : most < 0.1 ? 20 : 1 }' quick.times alone.times)
    : >quick.times
    : >alone.times
    for _ in 1 2 3; do
        run quick quick.times "$often" "$bench" ask "$file" "$question"
        run alone alone.times "$often" "$bench" ask "$file" "$question" reference
    done
    { head -n 1 quick; head -n 1 alone; paste -d ' ' quick.times alone.times; } | awk -v name="$name" -v question="$question" '
        NR == 1 { asks = $2; reference = $4; quick_end = $8 == "set" ? $10 : $8 }
        NR == 2 { end = $8 == "set" ? $10 : $8 }
        NR == 3 || NR > 3 && $1 < quick { quick = $1 }
        NR == 3 || NR > 3 && $2 < alone { alone = $2 }
        END {
            ratio = alone > 0 ? sprintf("%.2f", quick / alone) : "-"
            ends = quick_end == end ? end : quick_end ", alone " end
            printf "| %s | %s | %s | %s, %s | %.4f | %.4f | %s |\n", name, question, ends, asks, reference, quick, alone, ratio
        }'
}

# The lines of the table for a model.
measure() {
    for question in check deletion additive; do
        line "$1" "$2" "$question"
    done
}

# Makes a model that quick runs may not answer, and measures it, where its name has one of the words.
other() {
    kind=$1 rows=$2 columns=$3 each=$4 digits=$5
    shift 5
    has_word "$kind $rows x $columns, $each of $digits digits" "$@" || return 0
    "$kind" "$rows" "$columns" "$each" "$digits" >model.mps
    measure "$kind $rows x $columns, $each of $digits digits" model.mps
}

build
echo "| model | question | end | asks, of the reference run | with quick runs | alone | ratio |"
echo "|---|---|---|---|---|---|---|"
while read -r rows columns each digits; do
    other wide "$rows" "$columns" "$each" "$digits" "$@"
done <<'END'
12 20 4 2
20 40 4 2
30 30 6 3
50 100 8 6
100 100 10 3
100 200 8 4
200 200 6 5
200 400 8 6
400 800 8 6
1000 2000 4 6
2000 4000 10 6
END
for model in "plan of 10 periods" "50 x 100 infeasible" "100 x 200 infeasible" "transport 20"; do
    has_word "$model" "$@" && each_model measure "$model"
done
