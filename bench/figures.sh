#!/bin/sh
# Makes the runs whose results stand in docs/FIGURES.md: `bench/figures.sh PLACE`. What each benchmark prints goes to a file of that
# folder, which is named as it is. Three go side by side, so the machine is to have four processors that do nothing else. The
# programs are those that the variables IISAN and BENCH name, or else they are proved and built first. A benchmark, no test.
set -eu

top=$(CDPATH='' cd -- "$(dirname -- "$0")/.." && pwd)
mkdir -p "$1"
place=$(realpath "$1")

# Makes the runs of one benchmark, of the models whose names have one of these words.
run() {
    benchmark=$1
    shift
    "$top/bench/$benchmark.sh" "$@" >"$place/$benchmark" 2>&1
}

first() {
    run check "plan of 100 " "plan of 1000" "400 x 800 infeasible" "2000 x 4000" "transport 60" "flow 600" "flow 2000" mixed
    run relax "plan 200 x" "plan 400 x" "plan 900 x" "tight 30" "tight 80" "transport 40" "flow 200" "mixed 400" system
    run improve "packing 30" "packing 100" "shipment 60" "plan 1000" "transport 40" flow "mixed 200" "mixed 400" "system 1000"
}

second() {
    run iis "plan of 60" "plan of 200" "plan of 1000" "400 x 800 infeasible" "2000 x 4000 infeasible" "transport 40" flow mixed
}

third() {
    run alternative "plan 80 x" "plan 400" "plan 800" "tight 80" "transport 40" flow "mixed 1000" "system 1000"
    run marks
    run presolve "chain of 250" "chain of 1900" "plan of 1000" "flow 200"
    run memory "plan of 1000" "transport 60" "flow 2000" "2000 x 4000"
    for benchmark in verify fractions read_lp read_mps; do run "$benchmark"; done
}

first &
second &
third &
wait
