# What bench/relax.sh and bench/alternative.sh share: plans and random systems as lines of entries. It wants bench/models.sh and
# bench/forms.sh, and a function `model_of` that prints the model of the file `entries` in the LP format.

# A plan as lines of entries: `row NAME LO UP`, `term ROW COLUMN FACTOR` and `bound COLUMN LO UP`, a dash where there is none.
plan_entries() {
    awk -v n="$1" 'BEGIN {
        for (t = 1; t <= n; t++) {
            demand = (t % 2 == 1 ? 9 : 11) + (t == n ? 2 : 0)
            print "row b" t, demand, demand
            if (t > 1) print "term b" t, "s" t - 1, 1
            print "term b" t, "p" t, 1
            print "term b" t, "s" t, -1
            print "bound p" t, 0, 10
            print "bound s" t, 0, "-"
        }
    }'
}

# The same of a random system of so many rows and columns, three entries a row, without the columns that none names; two rows in three
# ask for more than the others allow.
tight_entries() {
    awk -v rows="$1" -v columns="$2" 'BEGIN {
        srand(rows * 7 + columns)
        for (i = 0; i < rows; i++) {
            if (i % 3) print "row r" i, 20 + int(rand() * 20), "-"
            else print "row r" i, "-", 5 + int(rand() * 10)
            for (k = 0; k < 3; k++) {
                j = int(rand() * columns)
                if (!((i, j) in factor)) { factor[i, j] = 1 + int(rand() * 5); used[j] = 1; print "term r" i, "x" j, factor[i, j] }
            }
        }
        for (j = 0; j < columns; j++) if (j in used) print "bound x" j, 0, 4 + int(rand() * 6)
    }'
}

# The lines of entries of a model in the MPS format.
mps_entries() {
    plain "$1" | awk '
        BEGIN { columns = rows = 0 }
        $1 == "column" { print "bound x" columns++, $2, $3 }
        $1 == "row" {
            print "row r" rows, $2, $3
            for (k = 4; k < NF; k += 2) print "term r" rows, "x" $(k + 1), $k
            rows++
        }'
}

# Makes a model of a kind with its numbers, and its entries in the file of that name; the name of its file goes to the variable
# `file`. Plans and tight systems are made of their entries, the others by bench/models.sh.
make_model() {
    case $1 in
    plan | tight)
        file=model.lp
        "${1}_entries" "$2" "$3" >entries
        model_of >"$file"
        ;;
    *)
        file=model.mps
        infeasible "$@" >"$file"
        mps_entries "$file" >entries
        ;;
    esac
}

# A model of bench/models.sh that nothing satisfies.
infeasible() {
    if [ "$1" = system ]; then system "$2" "$3" infeasible; else "$@"; fi
}
