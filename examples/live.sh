#!/usr/bin/env bash
# live.sh [BINARY [TIMES [LINES]]]: runs the sixteen sessions of make-live.sh at once over a store, so many times (200 where the
# number is not given), each time with another seed. Each run ends within two minutes with status 0; each line has its one
# reply, and each session's stand in the order of its lines; and the edits that were accepted, given to `run` in the order of the
# `at` lines, are all accepted again and leave the same bundles. BINARY is crates/emu/out/emu where it is not given. The last line
# says how many runs were right; the status is 0 where all were.
here=$(realpath -- "$(dirname "$0")")
binary=$(realpath -- "${1:-$here/../crates/emu/out/emu}") || exit 2
times=${2:-200}
lines=${3:-200}
. "$here/live-functions.sh"
folder=$(mktemp -d) || exit 2
trap 'rm -rf "$folder"' EXIT
mkdir "$folder/live" "$folder/again"
right=0
for ((seed = 1; seed <= times; seed++)); do
    rm -f "$folder/live/emu.store"
    sh "$here/make-live.sh" "$seed" "$lines" >"$folder/script"
    (cd "$folder/live" && timeout 120 "$binary" live --store <"$folder/script" >"$folder/output")
    status=$?
    # Each line once, in the order of its session; the `at` lines count up from 1.
    found=$(awk -v FS='[:,{}]' '
        NR == FNR { if (FNR > 1) { count++; session[FNR] = $3 } next }
        /^{"at":/ { if ($3 != ++marks) wrong++; next }
        /^{"from":/ { if ($3 != 0) wrong++; next }
        $3 == 1 { next }
        { s = session[$3]; if (s < group || s == group && $3 <= last) wrong++; group = s; last = $3; replies++ }
        END { print wrong + 0, count - replies }' "$folder/script" "$folder/output")
    # The lines of the accepted edits, in the order of the history.
    awk '/^{"at":/ { split($0, part, /[:,}]/); print part[4] }' "$folder/output" >"$folder/accepted"
    if [ "$status" = 0 ] && [ "$found" = "0 0" ] &&
        again "$folder/script" "$folder/accepted" "$folder/again" "$folder/live"; then
        right=$((right + 1))
    else
        echo "seed $seed: status $status, order and replies $found"
    fi
done
echo "$right of $times"
[ "$right" = "$times" ]
