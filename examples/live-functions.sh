# What live.sh and kill-live.sh have in common; they read this file, with the program in $binary.

# The bundles of the store in the folder: the export of each, or that there is none.
bundles() {
    for bundle in 0 1 2 3 4 5 6 7; do
        (cd "$1" && "$binary" export s1 "b$bundle")
    done
}

# Gives the lines of the script $1 whose numbers stand in the file $2, after its configuration, to `run` over a new store in the
# folder $3. The status is 0 where the run ends with 0, no line is refused, and the store has the bundles of the one in the folder $4.
again() {
    rm -f "$3/emu.store"
    awk 'NR == FNR { text[FNR] = $0; if (FNR == 1) print; next } { print text[$1] }' "$1" "$2" >"$3/edits"
    (cd "$3" && "$binary" run --store <edits >replies) || return 1
    bundles "$3" >"$3/here"
    bundles "$4" >"$3/there"
    ! grep -q '"refused"' "$3/replies" && cmp -s "$3/here" "$3/there"
}
