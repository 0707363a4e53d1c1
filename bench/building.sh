# Which programs the benchmarks measure, and how they are built. To be read by `.`, where `top` is the top of the repository and
# `work` a folder for files that go away; it does nothing of its own.

bench=${BENCH:-$top/crates/bench/out/bench}

# Builds the program `bench`, unless the variable BENCH names one.
build() {
    [ -n "${BENCH:-}" ] || (cd "$top/crates/bench" && rt run) >"$work/log" 2>&1 </dev/null || {
        tail -n 5 "$work/log" >&2
        exit 1
    }
}

# The program goes to the variable `program`: the one that IISAN names, or else the one that ./iisan proves and builds.
find_program() {
    if [ -z "${IISAN:-}" ]; then
        "$top/iisan" >/dev/null 2>&1 </dev/null || true
        IISAN=$top/.build/iisan
    fi
    program=$(realpath "$IISAN")
}
