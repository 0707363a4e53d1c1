#!/bin/sh
# The models that benchmarks make: plans in the LP format; and in the MPS format random sparse systems, transports, flows, and
# systems of rows of all kinds. To be read by `.`; it does nothing of its own.

# A plan of so many periods: what is made and what is in store meets each period's demand, and no more than 10 can be made. The
# last period asks for 2 more than is left, so all rows, all upper bounds and the last lower bound contradict one another; with
# `feasible` it asks for no more than that, as the last rows of the models below do.
plan() {
    awk -v n="$1" -v feasible="${2:-}" 'BEGIN {
        print "Minimize"
        line = " cost: s1"
        for (t = 2; t <= n; t++) line = line (t % 10 == 1 ? "\n  + s" : " + s") t
        print line
        print "Subject To"
        for (t = 1; t <= n; t++) {
            demand = (t % 2 == 1 ? 9 : 11) + (t == n && !feasible ? 2 : 0)
            if (t == 1) print " b1: p1 - s1 = " demand
            else print " b" t ": s" t - 1 " + p" t " - s" t " = " demand
        }
        print "Bounds"
        for (t = 1; t <= n; t++) print " p" t " <= 10"
        print "End"
    }'
}

# A random system of so many rows and columns, 4 entries a row, that a point of small whole numbers satisfies; with `infeasible`
# the last row asks for more than the three rows before it allow together.
system() {
    awk -v rows="$1" -v columns="$2" -v kind="$3" 'BEGIN {
        srand(rows + columns)
        for (j = 0; j < columns; j++) point[j] = int(rand() * 4)
        for (i = 0; i < rows; i++) {
            sum = 0
            for (k = 0; k < 4; k++) {
                j = int(rand() * columns)
                if (!((i, j) in factor)) { factor[i, j] = 1 + int(rand() * 5); sum += factor[i, j] * point[j] }
            }
            side[i] = sum; sense[i] = (i % 3 == 0 ? "G" : "L")
        }
        if (kind == "infeasible") {
            last = rows - 1
            for (j = 0; j < columns; j++) delete factor[last, j]
            side[last] = 1; sense[last] = "G"
            for (i = last - 3; i < last; i++) {
                sense[i] = "L"; side[last] += side[i]
                for (j = 0; j < columns; j++) if ((i, j) in factor) factor[last, j] += factor[i, j]
            }
        }
        print "NAME system\nROWS\n N cost"
        for (i = 0; i < rows; i++) print " " sense[i] " r" i
        print "COLUMNS"
        for (j = 0; j < columns; j++) {
            print " x" j " cost 1"
            for (i = 0; i < rows; i++) if ((i, j) in factor) print " x" j " r" i " " factor[i, j]
        }
        print "RHS"
        for (i = 0; i < rows; i++) print " rhs r" i " " side[i]
        print "ENDATA"
    }'
}

# What the models below share, in awk. `state` is the seed at first, so that each awk makes the same model.
made='
    # A number by chance, from 0 up, below a limit.
    function below(limit) { state = state * 16807 % 2147483647; return state % limit }

    # Puts an entry into a row. The rows of a column come in order.
    function put(i, j, factor) { entries[j] = entries[j] " x" j " r" i " " factor "\n" }

    # The model: of each row its kind, its right side and perhaps its range, and of each column its entries and perhaps its
    # upper bound.
    function print_model(rows, columns, i, j, ranges, bounds) {
        print "NAME model\nROWS\n N cost"
        for (i = 0; i < rows; i++) print " " kind[i] " r" i
        print "COLUMNS"
        for (j = 0; j < columns; j++) printf " x%d cost 1\n%s", j, entries[j]
        print "RHS"
        for (i = 0; i < rows; i++) {
            print " rhs r" i " " side[i]
            if (i in range) ranges = ranges " range r" i " " range[i] "\n"
        }
        for (j = 0; j < columns; j++) if (j in upper) bounds = bounds " UP bound x" j " " upper[j] "\n"
        if (ranges != "") printf "RANGES\n%s", ranges
        if (bounds != "") printf "BOUNDS\n%s", bounds
        print "ENDATA"
    }
'

# A transport from so many suppliers to as many customers, each of whom may buy from each supplier: a row for each, at most what
# there is, and at least what is asked for, which is 1 more in all.
transport() {
    awk -v n="$1" -v feasible="${2:-}" "$made"'BEGIN {
        state = n
        for (i = 0; i < n; i++) {
            kind[i] = "L"; kind[n + i] = "G"
            side[i] = 5 + below(16); side[n + i] = 0
        }
        for (i = 0; i < n; i++) for (k = 0; k < side[i]; k++) side[n + below(n)]++
        if (!feasible) side[n + n - 1]++
        for (i = 0; i < n; i++) for (j = 0; j < n; j++) { put(i, i * n + j, 1); put(n + j, i * n + j, 1) }
        print_model(2 * n, n * n)
    }'
}

# A flow through so many nodes with so many arcs out of each but the last, to later ones, each arc of at most 1 to 9. What comes
# to a node leaves it, and the last one is to have 1 more than the greatest flow brings. The greatest flow is found by shortest
# ways on which more can flow (Edmonds and Karp).
flow() {
    awk -v nodes="$1" -v arcs="$2" -v feasible="${3:-}" "$made"'
    # Puts an arc, and behind it the way back, on which nothing can flow yet.
    function arc(from, to, most) {
        head[ends] = to; room[ends] = most; after[ends] = first[from]; first[from] = ends++
        head[ends] = from; room[ends] = 0; after[ends] = first[to]; first[to] = ends++
    }

    # Whether there is a way to the last node on which more can flow: `came` tells the end by which each node was reached.
    function find(node, end, done, count, queue) {
        split("", came)
        came[0] = -1; queue[0] = 0; count = 1
        for (done = 0; done < count && !(nodes - 1 in came); done++) {
            node = queue[done]
            for (end = first[node]; end >= 0; end = after[end])
                if (room[end] > 0 && !(head[end] in came)) { came[head[end]] = end; queue[count++] = head[end] }
        }
        return nodes - 1 in came
    }

    # The end that goes the other way.
    function back(end) { return end % 2 == 0 ? end + 1 : end - 1 }

    # Lets all flow on that way that can.
    function push(node, least) {
        least = 1000
        for (node = nodes - 1; node > 0; node = head[back(came[node])]) if (room[came[node]] < least) least = room[came[node]]
        for (node = nodes - 1; node > 0; node = head[back(came[node])]) {
            room[came[node]] -= least
            room[back(came[node])] += least
        }
        return least
    }

    BEGIN {
        state = nodes; ends = 0
        reach = int(nodes / 20) > 2 ? int(nodes / 20) : 2
        for (u = 0; u < nodes; u++) first[u] = -1
        columns = 0
        for (u = 0; u < nodes - 1; u++) for (k = 0; k < arcs; k++) {
            v = u + 1 + below(reach)
            if (v > nodes - 1) v = nodes - 1
            upper[columns] = 1 + below(9)
            arc(u, v, upper[columns])
            if (u > 0) put(u - 1, columns, -1)
            put(v - 1, columns, 1)
            columns++
        }
        greatest = 0
        while (find()) greatest += push()
        for (v = 1; v < nodes; v++) { kind[v - 1] = v < nodes - 1 ? "E" : "G"; side[v - 1] = v < nodes - 1 ? 0 : greatest + !feasible }
        print_model(nodes - 1, columns)
    }'
}

# So many random rows over twice as many columns, of which three in ten have the upper bound 10: 5 entries a row, of either sign,
# that a point of small whole numbers satisfies, of each ten rows about three equations, three at least, three at most and one
# with a range. The row behind them asks for 1 more than ten of them allow together; with `feasible` there is none.
mixed() {
    awk -v n="$1" -v feasible="${2:-}" "$made"'BEGIN {
        state = n
        for (j = 0; j < 2 * n; j++) {
            point[j] = below(6)
            if (below(10) < 3) upper[j] = 10
        }
        bounded = 0
        for (i = 0; i < n; i++) {
            value = 0
            for (k = 0; k < 5; k++) {
                j = below(2 * n); factor = (below(2) ? -1 : 1) * (1 + below(3))
                if ((i, j) in entry) continue
                entry[i, j] = factor; column[i, count[i]++] = j; value += factor * point[j]
            }
            chance = below(10)
            kind[i] = chance < 3 ? "E" : chance < 6 ? "L" : "G"
            side[i] = chance < 3 ? value : chance < 6 ? value + below(4) : value - below(4)
            if (chance == 9) range[i] = 4 + below(4)
            if (chance < 6 || chance == 9) rows_up[bounded++] = i
        }
        kind[n] = "G"; side[n] = 1; count[n] = 0
        for (taken = 0; taken < 10 && bounded > 0; taken++) {
            place = below(bounded); i = rows_up[place]; rows_up[place] = rows_up[--bounded]
            side[n] += side[i] + range_of(i)
            for (k = 0; k < count[i]; k++) {
                j = column[i, k]
                if (!((n, j) in entry)) { entry[n, j] = 0; column[n, count[n]++] = j }
                entry[n, j] += entry[i, j]
            }
        }
        rows = feasible ? n : n + 1
        for (i = 0; i < rows; i++) for (k = 0; k < count[i]; k++) {
            j = column[i, k]
            if (entry[i, j] != 0) put(i, j, entry[i, j])
        }
        print_model(rows, 2 * n)
    }

    # How far up the sides of a row reach from the right side of at least.
    function range_of(i) { return i in range ? range[i] : 0 }'
}

# A random system of so many rows and columns, so many entries a row, whose factors have up to so many digits, that a point of small
# whole numbers satisfies, but for the last row, which asks for 1 more than the three before it allow together. Runs over it often
# come to numbers that do not fit.
wide() {
    awk -v rows="$1" -v columns="$2" -v each="$3" -v digits="$4" "$made"'BEGIN {
        CONVFMT = OFMT = "%.0f"
        state = 1 + rows * columns + digits
        for (j = 0; j < columns; j++) point[j] = below(4)
        last = rows - 1
        for (i = 0; i < last; i++) {
            side[i] = 0; kind[i] = i % 3 == 0 && i < last - 3 ? "G" : "L"
            for (k = 0; k < each; k++) {
                j = below(columns)
                if ((i, j) in factor) continue
                factor[i, j] = 1 + below(10 ^ digits - 1); side[i] += factor[i, j] * point[j]
            }
        }
        side[last] = 1; kind[last] = "G"
        for (i = last - 3; i < last; i++) {
            side[last] += side[i]
            for (j = 0; j < columns; j++) if ((i, j) in factor) factor[last, j] += factor[i, j]
        }
        for (j = 0; j < columns; j++) for (i = 0; i < rows; i++) if ((i, j) in factor) put(i, j, factor[i, j])
        print_model(rows, columns)
    }'
}

# Makes the models of the tables one by one, and calls a command with the name and the file of each: `each_model COMMAND [WORD..]`.
# With words, only of those whose names have one of them.
each_model() {
    command=$1
    shift
    while read -r kind first second third; do
        case $kind in
        plan) name="plan of $first periods" file=model.lp ;;
        system) name="system $first x $second $third" file=model.mps ;;
        *) name="$kind $first${second:+ $second}" file=model.mps ;;
        esac
        has_word "$name" "$@" || continue
        "$kind" "$first" "$second" "$third" >"$file"
        "$command" "$name" "$file"
    done <<'END'
plan 10
plan 60
plan 100
plan 200
plan 500
plan 1000
system 50 100 infeasible
system 100 200 infeasible
system 200 400 infeasible
system 400 800 infeasible
system 1000 2000 infeasible
system 2000 4000 infeasible
system 100 200 feasible
system 400 800 feasible
system 2000 4000 feasible
transport 20
transport 40
transport 60
flow 200 4
flow 600 4
flow 2000 2
mixed 400
END
}

# Whether a name has one of the words behind it, or there is none.
has_word() {
    named=$1
    shift
    [ "$#" -gt 0 ] || return 0
    for word; do
        case $named in *"$word"*) return 0 ;; esac
    done
    return 1
}
