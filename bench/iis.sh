#!/bin/sh
# Asks `iis` by each method of the models of `bench/models.sh` that nothing satisfies. Prints for each method the processor seconds
# of a run from start to end, and in brackets how many members its irreducible set has, or what is answered else; then how many
# sets the chain of rounds of `elastic` has. Behind them stand the same of `z3` and `cvc5`, where these are installed, for the
# unsatisfiable core that they find and minimise, on the same systems in SMT-LIB, where both sides of a row are one assertion. A
# method is cut off after 60 seconds by the clock, another solver after 30. The program is the one that the variable IISAN names, or
# else the one that ./iisan builds. With words, only the models whose names have one of them are gone through: `bench/iis.sh plan`
# or `bench/iis.sh "plan of 200"`. It wants GNU time (Debian's package `time`). A benchmark, no test.
set -eu

top=$(CDPATH='' cd -- "$(dirname -- "$0")/.." && pwd)
work=$(mktemp -d)
trap 'rm -rf "$work"' EXIT
# shellcheck source=bench/models.sh
. "$top/bench/models.sh"
# shellcheck source=bench/forms.sh
. "$top/bench/forms.sh"
# shellcheck source=bench/timing.sh
. "$top/bench/timing.sh"
# shellcheck source=bench/building.sh
. "$top/bench/building.sh"
find_program
cd "$work"
limit=60 limit_of_others=30

# The cell of a method.
method() {
    printf 'budget pivots 1000000\niis %s\n' "$1" >script
    timed "$limit" "$program" analyse "$2" script
    found=$(awk '$1 == "member" { n++ } END { if (n) print n }' said)
    echo "$(cat seconds) (${found:-$(awk '$1 == "command" && $2 == "iis" { getline; print; exit }' said)})"
}

# The text of a model in SMT-LIB: options of one solver's own, and the assertions.
smt() {
    echo "(set-option :produce-unsat-cores true)"
    [ -z "$1" ] || echo "$1"
    echo "(set-logic QF_LRA)"
    cat terms
    echo "(check-sat)"
    echo "(get-unsat-core)"
}

# The cell of another solver, or a dash.
solver() {
    command -v "$1" >/dev/null 2>&1 || { echo - && return; }
    timed "$limit_of_others" "$@"
    # What it said until it was cut off is no core.
    ! grep -q cut seconds || { cat seconds && return; }
    echo "$(cat seconds) ($(tr -s '() ' '\n' <said | grep -cE '^(row|lower|upper)_' || true))"
}

# One line of the table; none of a model that a point satisfies.
measure() {
    case $1 in *" feasible") return 0 ;; esac
    line=$1
    for method in deletion additive sensitivity alternative elastic; do
        line="$line | $(method "$method" "$2")"
    done
    line="$line | $(awk '$1 == "rounds" { print $2 }' said)"
    plain "$2" >model.plain
    assertions model.plain >terms
    smt "(set-option :smt.core.minimize true)" >z3.smt2
    smt "" >cvc5.smt2
    echo "| $line | $(solver z3 z3.smt2) | $(solver cvc5 --minimal-unsat-cores cvc5.smt2) |"
}

echo "| model | deletion | additive | sensitivity | alternative | elastic | rounds | \`z3\` | \`cvc5\` |"
echo "|---|---|---|---|---|---|---|---|---|"
each_model measure "$@"
