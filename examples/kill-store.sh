#!/usr/bin/env bash
# kill-store.sh [BINARY [TIMES]]: runs a script of many edits over a store, kills the program at a random moment, and opens the store
# again: it holds each edit that was acknowledged, and at most one more. So many times, 200 where the number is not given; BINARY is
# crates/emu/out/emu where it is not given. The last line says how often the store was right; the status is 0 where it always was.
binary=$(realpath -- "${1:-$(dirname "$0")/../crates/emu/out/emu}") || exit 2
times=${2:-200}
folder=$(mktemp -d) || exit 2
trap 'rm -rf "$folder"' EXIT
cd "$folder" || exit 2
{
    echo '{"do":"config","config":{"name":"t","levelDefinitions":[{"name":"Phonetic","type":"SEGMENT","attributeDefinitions":[{"name":"Phonetic"}]}]}}'
    for ((bundle = 0; bundle < 6000; bundle++)); do
        echo '{"s":1,"do":"add_bundle","session":"s1","bundle":"b'$bundle'","annot":{"sampleRate":20000}}'
    done
} >script.jsonl
right=0
for ((time = 0; time < times; time++)); do
    rm -f emu.store replies
    "$binary" run --store <script.jsonl >replies &
    sleep "0.$(printf '%03d' $((RANDOM % 400)))"
    kill -9 $! 2>/dev/null
    wait $! 2>/dev/null
    acknowledged=$(grep -c '"ok":"add_bundle"}$' replies)
    "$binary" history >history
    status=$?
    held=$(grep -c '"do":"add_bundle"' history)
    if [ "$status" = 0 ] || { [ "$status" = 10 ] && ! grep -q '"ok":"config"}$' replies; }; then
        if ((acknowledged <= held && held <= acknowledged + 1)); then
            right=$((right + 1))
            continue
        fi
    fi
    echo "acknowledged $acknowledged, held $held, status $status"
done
echo "$right of $times"
[ "$right" = "$times" ]
