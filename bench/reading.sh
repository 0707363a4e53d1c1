#!/bin/sh
# What the benchmarks of readers share. To be read by `.`, where `top` is the top of the repository, `work` a folder for files
# that go away, and `turns` how often each text is read; it does nothing of its own. It wants
# GNU time (Debian's package `time`).

# shellcheck source=bench/building.sh
. "$top/bench/building.sh"

# Does a task of the program with a text, and prints MB per second and the peak of memory.
read_text() {
    (cd "$work" && /usr/bin/time -f '%e %M' -o read.time "$bench" "$1" "$2" "$turns") >"$work/said"
    grep -q 'rows [1-9]' "$work/said" || {
        echo "$2 is refused" >&2
        exit 1
    }
    size=$(wc -c <"$work/$2")
    awk -v file="${2%.*}" -v size="$size" -v turns="$turns" '{ printf "%s %.1f MB: %.0f MB/s, %.0f MB at the peak\n", file, size / 1e6, size * turns / $1 / 1e6, $2 / 1000 }' "$work/read.time"
}

# The seconds that `wc -w` takes for a text, as often.
count_words() {
    cat >"$work/count" <<'END'
i=0
while [ "$i" -lt "$1" ]; do
    wc -w <"$2" >counted
    i=$((i + 1))
done
END
    (cd "$work" && /usr/bin/time -f '%e' -o plain.time sh count "$turns" "$1")
    cat "$work/plain.time"
}

# The same in MB per second.
print_count() {
    size=$(wc -c <"$work/$1")
    count_words "$1" | awk -v size="$size" -v turns="$turns" '{ printf "wc -w: %.0f MB/s\n", size * turns / $1 / 1e6 }'
}
