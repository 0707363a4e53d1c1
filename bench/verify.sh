#!/bin/sh
# Prints the seconds and the peak memory of `iisan verify`: first of models of 250, 1,000 and 2,000 rows in the MPS format, each
# with a report that satisfies it; then of reports that list all members of a model, each with a witness of so many values that
# are not 0, and are rejected behind the last of them; then of so many answers that a model is feasible, infeasible or unbounded,
# up to 64 MiB of text; then of proofs that are a chain of splits, as long, in two shapes: each lower child is a leaf, or each upper one. It wants GNU time
# (Debian's package `time`). A benchmark, no test.
set -eu

top=$(CDPATH='' cd -- "$(dirname -- "$0")/.." && pwd)
work=$(mktemp -d)
trap 'rm -rf "$work"' EXIT
# shellcheck source=bench/building.sh
. "$top/bench/building.sh"

# A model of so many rows, twice as many columns and so many entries a column; and with upper bounds, where there is a third word;
# with a row that contradicts one of them, where that is "clash", or with a column that runs away, where it is "away".
model() {
    awk -v rows="$1" -v entries="$2" -v bounds="${3:-}" 'BEGIN {
        print "ROWS"
        if (bounds == "away") print " N cost"
        if (bounds == "clash") print " G clash"
        for (i = 0; i < rows; i++) print " L row" i
        print "COLUMNS"
        for (j = 0; j < 2 * rows; j++)
            for (k = 0; k < entries; k++) print " column" j " row" (j * 7 + k * 9) % rows " " 1 + (j + k) % 9
        if (bounds == "clash") print " column" 2 * rows - 1 " clash 1"
        if (bounds == "away") print " away cost -1"
        print "RHS"
        if (bounds == "clash") print " clash 2000"
        for (i = 0; i < rows; i++) print " row" i " 1000000"
        if (bounds) {
            print "BOUNDS"
            for (j = 0; j < 2 * rows; j++) print " UP column" j " 1000"
        }
        print "ENDATA"
    }'
}

# A report of all members of such a model with upper bounds: each of their witnesses has so many values.
witnesses() {
    awk -v rows="$1" -v values="$2" '
        function member(kind, name) {
            print "member " kind " " name "\npoint"
            for (k = 0; k < values; k++) print "value column" start + k " 1"
            start = (start + 13) % (2 * rows - values)
        }
        BEGIN {
            print "iisan report 2\ncommand iis deletion\nirreducible"
            for (i = 0; i < rows; i++) member("rowup", "row" i)
            for (j = 0; j < 2 * rows; j++) member("lower", "column" j)
            for (j = 0; j < 2 * rows; j++) member("upper", "column" j)
            print "proof\nleaf\nend\nreport end"
        }'
}

# A report of so many answers: each point has so many values.
answers() {
    awk -v rows="$1" -v answers="$2" -v values="$3" 'BEGIN {
        print "iisan report 2"
        for (i = 0; i < answers; i++) {
            print "command check\nfeasible\npoint"
            for (k = 0; k < values; k++) print "value column" start + k " 1"
            print "end"
            start = (start + 13) % (2 * rows - values)
        }
        print "report end"
    }'
}

# A report of so many answers that the contradiction is one, or that the column runs away.
refuted() {
    awk -v column="column$((2 * $1 - 1))" -v answers="$2" 'BEGIN {
        members = "member rowlo clash\nmember upper " column
        proof = "proof\nleaf\nuse rowlo clash 1\nuse upper " column " 1"
        print "iisan report 2"
        for (i = 0; i < answers; i++) print "command check\ninfeasible\n" members "\n" proof "\nend"
        print "report end"
    }'
}
rays() {
    awk -v answers="$1" 'BEGIN {
        print "iisan report 2"
        for (i = 0; i < answers; i++) print "command unbounded\nunbounded\npoint\nray\nvalue away 1\nend"
        print "report end"
    }'
}

# A report in which each column is 1, 2 or 3.
report() {
    awk -v rows="$1" 'BEGIN {
        print "iisan report 2\ncommand check\nfeasible\npoint"
        for (j = 0; j < 2 * rows; j++) print "value column" j " " 1 + j % 3
        print "end\nreport end"
    }'
}

# A model that a chain of so many splits refutes: twice a whole number is odd.
odd() {
    printf 'Minimize\n cost: 0 x\nSubject To\n odd: 2 x = %d\nBounds\n x free\nGeneral\n x\nEnd\n' $((2 * $1 + 1))
}

# The report with that chain: its leaves are the lower children, or the upper ones.
chain() {
    awk -v splits="$1" -v leaves="$2" '
        function lower() { print "leaf\nuse rowlo odd 1\nuse below x 2" }
        function upper() { print "leaf\nuse rowup odd 1\nuse above x 2" }
        BEGIN {
            print "iisan report 2\ncommand check\ninfeasible\nmember rowlo odd\nmember rowup odd\nmember whole x\nproof"
            for (k = 0; k <= splits; k++) {
                print "split x " (leaves == "lower" ? k : 2 * splits - k)
                if (leaves == "lower") lower()
            }
            if (leaves == "lower") upper()
            else {
                lower()
                for (k = 0; k <= splits; k++) upper()
            }
            print "end\nreport end"
        }'
}

# Verifies the report, which is to end as the second word says, and prints the words behind it and what it took.
verified() {
    model=$1
    end=$2
    shift 2
    (cd "$work" && /usr/bin/time -q -f '%e %M' -o figures "$program" verify "$model" report >said) || true
    grep -q "^$end\$" "$work/said" || {
        echo "not $end: $(cat "$work/said")" >&2
        exit 1
    }
    awk -v words="$*" '{ print words, $1, $2 / 1024 }' "$work/figures"
}

accepted="accepted settled 1 unsettled 0"

find_program
echo "rows columns entries bytes seconds megabytes"
for rows in 250 1000 2000; do
    model "$rows" 25 >"$work/model.mps"
    report "$rows" >"$work/report"
    verified model.mps "$accepted" "$rows" $((2 * rows)) $((50 * rows)) "$(wc -c <"$work/model.mps")"
done
echo "members values bytes seconds megabytes"
for rows in 2000 20000; do
    model "$rows" 10 bounds >"$work/model.mps"
    for values in 0 1 20; do
        witnesses "$rows" "$values" >"$work/report"
        lines=$(wc -l <"$work/report")
        verified model.mps "rejected line $((lines - 2))" $((5 * rows)) "$values" "$(wc -c <"$work/report")"
    done
done
echo "answers values bytes seconds megabytes"
for count in "1 0" "1000 0" "2000000 0" "100000 20"; do
    # shellcheck disable=SC2086
    answers 20000 $count >"$work/report"
    verified model.mps "accepted settled ${count% *} unsettled 0" "$count" "$(wc -c <"$work/report")"
done
echo "infeasible or unbounded answers, bytes seconds megabytes"
model 19999 10 clash >"$work/model.mps"
refuted 19999 450000 >"$work/report"
verified model.mps "accepted settled 450000 unsettled 0" infeasible 450000 "$(wc -c <"$work/report")"
model 19999 10 away >"$work/model.mps"
rays 1100000 >"$work/report"
verified model.mps "accepted settled 1100000 unsettled 0" unbounded 1100000 "$(wc -c <"$work/report")"
echo "splits leaves bytes seconds megabytes"
for splits in 20000 100000 1300000; do
    for leaves in lower upper; do
        odd "$splits" >"$work/model.lp"
        chain "$splits" "$leaves" >"$work/report"
        verified model.lp "$accepted" "$splits" "$leaves" "$(wc -c <"$work/report")"
    done
done
