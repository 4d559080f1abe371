#!/usr/bin/env bash
# kill-live.sh [BINARY [TIMES [LINES]]]: runs the sixteen sessions of make-live.sh at once over a store, kills the program at a
# random moment, and opens the store again, so many times (200 where the number is not given), each time with another seed. What
# the store has then are edits of the script, those of each session in the order of its lines; given to `run` in the order of the
# history they are all accepted, and leave the same bundles; and a further live run goes on after them. BINARY is
# crates/emu/out/emu where it is not given. The last line says how many stores were right; the status is 0 where all were.
here=$(realpath -- "$(dirname "$0")")
binary=$(realpath -- "${1:-$here/../crates/emu/out/emu}") || exit 2
times=${2:-200}
lines=${3:-200}
. "$here/live-functions.sh"
folder=$(mktemp -d) || exit 2
trap 'rm -rf "$folder"' EXIT
mkdir "$folder/live" "$folder/again"
right=0
within=0
for ((seed = 1; seed <= times; seed++)); do
    rm -f "$folder/live/emu.store"
    sh "$here/make-live.sh" "$seed" "$lines" >"$folder/script"
    (cd "$folder/live" && exec "$binary" live --store <"$folder/script" >"$folder/output") &
    sleep "0.$(printf '%03d' $((RANDOM % 400)))"
    kill -9 $! 2>/dev/null
    wait $! 2>/dev/null
    (cd "$folder/live" && "$binary" history >"$folder/history")
    status=$?
    if [ "$status" = 10 ] && [ ! -s "$folder/output" ]; then
        # It was killed before it had written the configuration.
        right=$((right + 1))
        continue
    fi
    # The edits count up from 1; each is that of its line; those of a session rise.
    wrong=$(awk -v FS='[:,{}]' '
        NR == FNR { session[FNR] = $3; asked[FNR] = $5; next }
        $3 != ++count || $9 != session[$7] || $5 != asked[$7] || $7 <= last[$9] { wrong++ }
        { last[$9] = $7 }
        END { print wrong + 0 }' "$folder/script" "$folder/history")
    awk -v FS='[:,{}]' '{ print $7 }' "$folder/history" >"$folder/held"
    held=$(wc -l <"$folder/held")
    [ -s "$folder/output" ] || within=$((within + 1))
    if [ "$status" = 0 ] && [ "$wrong" = 0 ] && again "$folder/script" "$folder/held" "$folder/again" "$folder/live" &&
        echo '{"s":1,"do":"finish"}' | (cd "$folder/live" && "$binary" live --store) | grep -q "^{\"from\":$held}"; then
        right=$((right + 1))
    else
        echo "seed $seed: status $status, held $held, wrong $wrong"
    fi
done
echo "$within were killed in their midst, with edits in the store or without"
echo "$right of $times"
[ "$right" = "$times" ]
