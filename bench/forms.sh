#!/bin/sh
# Other forms of the models of `bench/models.sh`. To be read by `.`; it does nothing of its own.

# A model in plain lines: `column LOWER UPPER` for each column in the order in which they are named first, and `row LOWER UPPER
# FACTOR COLUMN FACTOR COLUMN ..` for each row, with a dash where there is no limit and columns numbered from 0.
plain() {
    case $1 in
    *.lp) plain_lp "$1" ;;
    *) plain_mps "$1" ;;
    esac
}

# The same of a plan in the LP format, whose rows are equations with the factors 1 and -1, and stand on a line each.
plain_lp() {
    awk '
    BEGIN { count = 0 }
    function number(name) {
        if (!(name in numbers)) { numbers[name] = count; order[count++] = name }
        return numbers[name]
    }
    /^Minimize$/ || /^Subject To$/ || /^Bounds$/ || /^End$/ { section = $1; next }
    section == "Minimize" { for (k = 1; k <= NF; k++) if ($k ~ /^[sp][0-9]+$/) number($k) }
    section == "Subject" {
        form = ""; factor = 1
        for (k = 2; k < NF - 1; k++) {
            if ($k == "+" || $k == "-") factor = $k == "-" ? -1 : 1
            else form = form " " factor " " number($k)
        }
        rows = rows "row " $NF " " $NF form "\n"
    }
    section == "Bounds" { upper[$1] = $3 }
    END {
        for (k = 0; k < count; k++) print "column 0 " (order[k] in upper ? upper[order[k]] : "-")
        printf "%s", rows
    }' "$1"
}

# The same of a model in the MPS format.
plain_mps() {
    awk '
    BEGIN { row_count = column_count = 0 }
    /^[A-Z]/ { section = $1; next }
    section == "ROWS" && $1 != "N" { kind[$2] = $1; rows[row_count++] = $2 }
    section == "COLUMNS" {
        if (!($1 in numbers)) { numbers[$1] = column_count; columns[column_count++] = $1 }
        if ($2 in kind) form[$2] = form[$2] " " $3 " " numbers[$1]
    }
    section == "RHS" { side[$2] = $3 }
    section == "RANGES" { range[$2] = $3 }
    section == "BOUNDS" { upper[$3] = $4 }
    END {
        for (k = 0; k < column_count; k++) print "column 0 " (columns[k] in upper ? upper[columns[k]] : "-")
        for (k = 0; k < row_count; k++) {
            name = rows[k]
            low = high = side[name] + 0
            if (kind[name] == "L") low = name in range ? high - range[name] : "-"
            if (kind[name] == "G") high = name in range ? low + range[name] : "-"
            print "row " low " " high form[name]
        }
    }' "$1"
}

# The assertions of a model in plain lines, in SMT-LIB: one for each row, with both its sides, and one for each bound.
assertions() {
    awk '
    BEGIN { columns = rows = 0 }
    function real(number) { return number < 0 ? "(- " (-number) ".0)" : number ".0" }
    function term(factor, column) {
        if (factor == 1) return "x" column
        if (factor == -1) return "(- x" column ")"
        return "(* " real(factor) " x" column ")"
    }
    function claim(text, name) { claims = claims "(assert (! " text " :named " name "))\n" }
    $1 == "column" {
        print "(declare-const x" columns " Real)"
        if ($2 != "-") claim("(>= x" columns " " real($2) ")", "lower_" columns)
        if ($3 != "-") claim("(<= x" columns " " real($3) ")", "upper_" columns)
        columns++
    }
    $1 == "row" {
        form = "(+"
        for (k = 4; k < NF; k += 2) form = form " " term($k, $(k + 1))
        form = form " 0.0)"
        if ($2 == $3) claim("(= " form " " real($2) ")", "row_" rows)
        else if ($3 == "-") claim("(>= " form " " real($2) ")", "row_" rows)
        else if ($2 == "-") claim("(<= " form " " real($3) ")", "row_" rows)
        else claim("(and (>= " form " " real($2) ") (<= " form " " real($3) "))", "row_" rows)
        rows++
    }
    END { printf "%s", claims }' "$1"
}
