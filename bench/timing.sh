#!/bin/sh
# How runs are timed beside one another. To be read by `.`, in a folder for files that go away; it does nothing of its own. It
# wants GNU time (Debian's package `time`).

# Runs a command, which is cut off after so many seconds by the clock. What it says goes to the file `said`, its processor
# seconds, or that it was cut off, to the file `seconds`, and its peak of memory in megabytes to the file `megabytes`. A command
# that takes less than a tenth of a second is run ten times more, and its seconds are the mean of these.
timed() {
    most=$1
    shift
    /usr/bin/time -f '%U %S %M' -o figures timeout "$most" "$@" >said 2>&1 </dev/null || true
    tail -n 1 figures | awk '{ printf "%.1f\n", $3 / 1024 }' >megabytes
    if grep -q 'status 124' figures; then
        echo "cut off" >seconds
        return
    fi
    tail -n 1 figures | awk '{ printf "%.2f\n", $1 + $2 }' >seconds
    if awk '{ exit !($1 < 0.1) }' seconds; then
        /usr/bin/time -f '%U %S' -o figures sh -c 'for k in 1 2 3 4 5 6 7 8 9 10; do "$@" >often 2>&1 </dev/null || true; done' sh "$@"
        tail -n 1 figures | awk '{ printf "%.3f\n", ($1 + $2) / 10 }' >seconds
    fi
}
