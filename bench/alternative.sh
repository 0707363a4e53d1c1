#!/bin/sh
# Asks `iis alternative` of models that nothing satisfies: plans of so many periods and random systems whose rows ask for more
# than others allow (`bench/entries.sh`), and transports, flows, mixed and sparse systems (`bench/models.sh`). Prints for each how
# many members it has, the size of the table of their system of the alternative, the pivots, the least budget with which the
# answer is not that they are spent; the processor seconds and the peak of memory of a run from start to end, which asks besides
# for a witness of each member that is found; and the total with the number of these. Beside them stand the seconds of `glpsol
# --exact` and of `esolver` (QSopt_ex) on the system of the alternative written as an LP, where these are installed, and whether
# their totals are the same: esolver's exactly, glpsol's in the digits that it prints. A run is cut off after 30 seconds by the
# clock. The pivots are not counted of runs that take a second or more. The program is the one that the variable IISAN names, or
# else the one that ./iisan builds. With words, only the models whose names have one of them are gone through. It wants GNU time
# (Debian's package `time`). A benchmark, no test.
set -eu

top=$(CDPATH='' cd -- "$(dirname -- "$0")/.." && pwd)
work=$(mktemp -d)
trap 'rm -rf "$work"' EXIT
# shellcheck source=bench/models.sh
. "$top/bench/models.sh"
# shellcheck source=bench/forms.sh
. "$top/bench/forms.sh"
# shellcheck source=bench/timing.sh
. "$top/bench/timing.sh"
# shellcheck source=bench/others.sh
. "$top/bench/others.sh"
# shellcheck source=bench/entries.sh
. "$top/bench/entries.sh"
# shellcheck source=bench/building.sh
. "$top/bench/building.sh"
find_program
cd "$work"
limit=30 other_system=alternative.lp other_format=lp

# The model of the entries in the LP format.
model_of() {
    awk '
        $1 == "row" { names[++count] = $2; lo[$2] = $3; up[$2] = $4 }
        $1 == "term" { form[$2] = form[$2] ($4 < 0 ? " - " (0 - $4) : " + " $4) " " $3 }
        $1 == "bound" { columns[++width] = $2; least[$2] = $3; most[$2] = $4 }
        END {
            printf "Minimize\n cost: 0 %s\nSubject To\n", columns[1]
            for (i = 1; i <= count; i++) {
                name = names[i]
                if (lo[name] == up[name]) print " " name ":" form[name] " = " lo[name]
                else print " " name ":" form[name] (up[name] == "-" ? " >= " lo[name] : " <= " up[name])
            }
            print "Bounds"
            for (j = 1; j <= width; j++) {
                name = columns[j]
                print " " least[name] " <= " name (most[name] == "-" ? "" : " <= " most[name])
            }
            print "End"
        }' entries
}

# Its system of the alternative: a weight for each member that asks for a number, each column cancelled, and -1 of the numbers.
alternative_of() {
    awk '
        $1 == "row" { names[++count] = $2; lo[$2] = $3; up[$2] = $4 }
        $1 == "term" { terms[$2] = terms[$2] " " $3 " " $4 }
        $1 == "bound" { columns[++width] = $2; least[$2] = $3; most[$2] = $4 }
        function plus(number) { return (number < 0 ? "\n  - " (0 - number) : "\n  + " number) " y" members }
        function side(form, number, sign, part, n, k) {
            members++
            cost = cost "\n  + y" members
            numbers = numbers plus(sign * number)
            n = split(form, part, " ")
            for (k = 1; k < n; k += 2) sums[part[k]] = sums[part[k]] plus(sign * part[k + 1])
        }
        END {
            for (i = 1; i <= count; i++) {
                if (lo[names[i]] != "-") side(terms[names[i]], lo[names[i]], -1)
                if (up[names[i]] != "-") side(terms[names[i]], up[names[i]], 1)
            }
            for (j = 1; j <= width; j++) {
                if (least[columns[j]] != "-") side(columns[j] " 1", least[columns[j]], -1)
                if (most[columns[j]] != "-") side(columns[j] " 1", most[columns[j]], 1)
            }
            printf "Minimize\n cost:%s\nSubject To\n", cost
            for (j = 1; j <= width; j++) print " " columns[j] ":" sums[columns[j]] " = 0"
            print " numbers:" numbers " = -1\nEnd"
        }' entries
}

# Asks with a budget of pivots: what is said goes to the file `said`.
ask() {
    printf 'budget pivots %s\niis alternative\n' "$1" >script
    timeout "$limit" "$program" analyse "$file" script >said 2>&1 </dev/null || true
}

# One line of the table: the kind and its numbers.
measure() {
    kind=$1 first=$2 second=$3
    make_model "$kind" "$first" "$second"
    alternative_of >alternative.lp
    rows=$(grep -c '^row' entries) columns=$(grep -c '^bound' entries)
    members=$(awk '/^Subject/ { exit } /^  . y/ { n++ } END { print n }' alternative.lp)
    printf 'budget pivots 1000000\niis alternative\n' >script
    timed "$limit" "$program" analyse "$file" script
    total=$(awk '$1 == "total" { print $2 }' said)
    end=${total:-$(grep -v 'done\|command\|report' said | head -n 1)}
    found=$(grep -c '^member' said || true)
    whole=$(cat seconds) most=$(cat megabytes) pivots=-
    ! is_quick "$whole" "$total" || pivots=$(least_budget "")
    line="$kind $first${second:+ x $second} | $rows | $columns | $members | $(((columns + 2) * members)) | $pivots"
    line="$line | $whole | $most | $end | $found"
    echo "| $line | $(glpsol_told "$total") | $(esolver_told "$total") |"
}

echo "| model | rows | columns | members | size | pivots | seconds | peak megabytes | total | found | \`glpsol --exact\` | \`esolver\` |"
echo "|---|---|---|---|---|---|---|---|---|---|---|---|"
while read -r kind first second; do
    second=${second#-}
    has_word "$kind $first x $second " "$@" || continue
    measure "$kind" "$first" "$second"
done <<'END'
plan 5 -
plan 10 -
plan 20 -
plan 40 -
plan 60 -
plan 80 -
plan 160 -
plan 200 -
plan 400 -
plan 800 -
tight 6 6
tight 10 10
tight 20 20
tight 30 30
tight 40 40
tight 60 60
tight 80 80
transport 20 -
transport 40 -
flow 200 4
mixed 100 -
mixed 400 -
mixed 1000 -
system 400 800
system 1000 2000
END
