#!/bin/sh
# Asks `relax` of models that nothing satisfies: plans of so many periods, with all members soft and with their bounds rigid,
# random systems whose rows ask for more than others allow (`bench/entries.sh`), and transports, flows, mixed and sparse systems
# (`bench/models.sh`). Prints for each how many soft members it has, the size of the elastic system's table, the pivots, the least
# budget with which the answer is not that they are spent; the processor seconds and the peak of memory of a run from start to
# end; and the least total. Beside them stand the seconds of `glpsol --exact` and of `esolver` (QSopt_ex) on the elastic system
# written as an LP, where these are installed, and whether their totals are the same: esolver's exactly, glpsol's in the digits
# that it prints. A run is cut off after 30 seconds by the clock. The pivots are not counted of runs that take a second or more.
# The program is the one that the variable IISAN names, or else the one that ./iisan builds. With words, only the models whose
# names have one of them are gone through. It wants GNU time (Debian's package `time`). A benchmark, no test.
set -eu

top=$(CDPATH='' cd -- "$(dirname -- "$0")/.." && pwd)
work=$(mktemp -d)
trap 'rm -rf "$work"' EXIT
# shellcheck source=bench/models.sh
. "$top/bench/models.sh"
# shellcheck source=bench/forms.sh
. "$top/bench/forms.sh"
# shellcheck source=bench/timing.sh
. "$top/bench/timing.sh"
# shellcheck source=bench/others.sh
. "$top/bench/others.sh"
# shellcheck source=bench/entries.sh
. "$top/bench/entries.sh"
# shellcheck source=bench/building.sh
. "$top/bench/building.sh"
find_program
cd "$work"
limit=30 other_system=elastic.lp other_format=lp

# The model of such entries in the LP format, or with `elastic` its elastic system, where with `rigid` the bounds stay as they are.
model_of() {
    awk -v elastic="${1:-}" -v rigid="${2:-}" '
        $1 == "row" { names[++count] = $2; lo[$2] = $3; up[$2] = $4 }
        $1 == "term" { form[$2] = form[$2] ($4 < 0 ? " - " (0 - $4) : " + " $4) " " $3 }
        $1 == "bound" { columns[++width] = $2; least[$2] = $3; most[$2] = $4 }
        function side(name, text, number, upper) {
            soft++
            rows = rows " " name (upper ? "u" : "l") ":" text (upper ? " - e" : " + e") soft (upper ? " <= " : " >= ") number "\n"
            cost = cost (soft % 10 == 1 ? "\n  + e" : " + e") soft
        }
        END {
            print "Minimize"
            if (!elastic) print " cost: 0 " columns[1]
            for (i = 1; i <= count; i++) {
                name = names[i]
                if (elastic && lo[name] != "-") side(name, form[name], lo[name], 0)
                if (elastic && up[name] != "-") side(name, form[name], up[name], 1)
                if (!elastic && lo[name] == up[name]) rows = rows " " name ":" form[name] " = " lo[name] "\n"
                else if (!elastic) rows = rows " " name ":" form[name] (up[name] == "-" ? " >= " lo[name] : " <= " up[name]) "\n"
            }
            for (j = 1; j <= width; j++) {
                name = columns[j]
                if (elastic && !rigid) {
                    bounds = bounds " " name " free\n"
                    if (least[name] != "-") side("L" name, " + " name, least[name], 0)
                    if (most[name] != "-") side("U" name, " + " name, most[name], 1)
                } else bounds = bounds " " least[name] " <= " name (most[name] == "-" ? "" : " <= " most[name]) "\n"
            }
            if (elastic) print " cost:" cost
            printf "Subject To\n%sBounds\n%sEnd\n", rows, bounds
        }' entries
}

# The script: with `rigid` the bounds are made so first.
script_of() {
    [ -z "$2" ] || awk '$1 == "bound" { if ($3 != "-") print "weight lower", $2, "rigid"; if ($4 != "-") print "weight upper", $2, "rigid" }' entries
    echo "budget pivots $1"
    echo relax
}

# Asks with a budget of pivots: what is said goes to the file `said`.
ask() {
    script_of "$1" "$2" >script
    timeout "$limit" "$program" analyse "$file" script >said 2>&1 </dev/null || true
}

# One line of the table: the kind, its numbers, and whether the bounds are rigid.
measure() {
    kind=$1 first=$2 second=$3 rigid=$4
    make_model "$kind" "$first" "$second"
    model_of elastic "$rigid" >elastic.lp
    rows=$(grep -c '^row' entries) columns=$(grep -c '^bound' entries)
    soft=$(grep -o '[-+] e[0-9]*' elastic.lp | sort -u | sed 's/.* //' | sort -u | wc -l)
    script_of 1000000 "$rigid" >script
    timed "$limit" "$program" analyse "$file" script
    total=$(awk '$1 == "total" { print $2 }' said)
    end=${total:-$(grep -v 'done\|command\|report' said | head -n 1)}
    whole=$(cat seconds) most=$(cat megabytes) pivots=-
    ! is_quick "$whole" "$total" || pivots=$(least_budget "$rigid")
    size=$(((soft + 1) * (columns + soft)))
    line="$kind $first${second:+ x $second}${rigid:+, bounds rigid} | $rows | $columns | $soft | $size | $pivots | $whole | $most | $end"
    echo "| $line | $(glpsol_told "$total") | $(esolver_told "$total") |"
}

echo "| model | rows | columns | soft members | size | pivots | seconds | peak megabytes | least total | \`glpsol --exact\` | \`esolver\` |"
echo "|---|---|---|---|---|---|---|---|---|---|---|"
while read -r kind first second rigid; do
    second=${second#-}
    has_word "$kind $first x $second $rigid " "$@" || continue
    measure "$kind" "$first" "$second" "$rigid"
done <<'END'
plan 5 -
plan 10 -
plan 20 -
plan 40 -
plan 60 -
plan 80 -
plan 160 -
plan 200 -
plan 400 -
plan 5 - rigid
plan 10 - rigid
plan 20 - rigid
plan 40 - rigid
plan 80 - rigid
plan 160 - rigid
plan 320 - rigid
plan 400 - rigid
plan 900 - rigid
tight 6 6
tight 10 10
tight 20 20
tight 30 30
tight 40 40
tight 60 60
tight 80 80
transport 20 -
transport 40 -
flow 200 4
mixed 100 -
mixed 400 -
system 400 800
END
