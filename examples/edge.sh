#!/usr/bin/env bash
# edge.sh [BINARY [TIMES]]: what happens at the edge of the program, and that no acknowledged edit is lost there: standard streams
# that are closed or full, two programs on one store (TIMES times, 200 where the number is not given), a file system that is full, no
# right to write, a folder or a dead link with the store's name, and `kill -9`: for `run`, `live`, `load` and `import`. BINARY is
# crates/emu/out/emu where it is not given. What cannot be tried on this machine is said. The last line says how many agreed; the status
# is 0 where all did.
here=$(realpath -- "$(dirname "$0")")
binary=$(realpath -- "${1:-$here/../crates/emu/out/emu}" 2>/dev/null)
times=${2:-200}
if [ ! -x "$binary" ]; then
    echo "edge.sh: there is no program yet: build it by 'rt run -- run' in crates/emu" >&2
    exit 2
fi
room=$(mktemp -d) || exit 2
full=
trap '[ -z "$full" ] || umount "$full" 2>/dev/null; rm -rf "$room"' EXIT
chmod 755 "$room"
cd "$room" || exit 2
passed=0
failed=0

# agree NAME FOUND WANTED: counts, and shows what was found where it is not what was wanted.
agree() {
    if [ "$2" = "$3" ]; then
        passed=$((passed + 1))
    else
        failed=$((failed + 1))
        echo "$1: $2, wanted $3"
    fi
}

config='{"do":"config","config":{"name":"t","levelDefinitions":[{"name":"Phonetic","type":"SEGMENT","attributeDefinitions":[{"name":"Phonetic"}]}]}}'
# edits PREFIX COUNT: so many lines that each add a bundle, of some 1,000 bytes in the store.
long=$(printf '%01000d' 0)
edits() {
    for ((k = 0; k < $2; k++)); do
        echo '{"s":1,"do":"add_bundle","session":"s1","bundle":"'"$1$k"'","annot":{"annotates":"'"$long"'","sampleRate":20000}}'
    done
}
edits one 10 >one.jsonl
edits two 10 >two.jsonl
edits many 100 >many.jsonl
{ echo "$config" && cat one.jsonl; } >new-one.jsonl
{ echo "$config" && cat two.jsonl; } >new-two.jsonl
{ echo "$config" && cat many.jsonl; } >new-many.jsonl
# A database of 100 bundles of that size, which come in the order of their numbers from 100 on; and a TextGrid of some 3,000 bytes.
mkdir -p many_emuDB/s1_ses
echo '{"name":"many","levelDefinitions":[{"name":"Phonetic","type":"SEGMENT","attributeDefinitions":[{"name":"Phonetic"}]}]}' \
    >many_emuDB/many_DBconfig.json
for ((k = 100; k < 200; k++)); do
    mkdir "many_emuDB/s1_ses/b${k}_bndl"
    echo '{"name":"b'"$k"'","annotates":"'"$long"'","sampleRate":20000}' >"many_emuDB/s1_ses/b${k}_bndl/b${k}_annot.json"
done
echo '"ooTextFile" "TextGrid" 0 1 <exists> 1 "IntervalTier" "Phonetic" 0 1 1 0 1 "'"$long$long$long"'"' >long.TextGrid

# Goes to an empty folder of this name, with a database and a TextGrid in it.
fresh() {
    cd "$room" && rm -rf "$1" && mkdir "$1" && cd "$1" && cp -r "$here/t_emuDB" "$here/a.TextGrid" .
}
entries() { "$binary" history | grep -c '"do":'; }
acknowledged() { grep -c '"ok":"add_bundle"}$'; }
# Whether the store has so many of the bundles of the database `many`: the last of them is there, and the one after it is not.
has_first() {
    { [ "$1" = 0 ] || "$binary" export s1 "b$((99 + $1))" | grep -q '"sampleRate":20000'; } &&
        [ "$("$binary" export s1 "b$((100 + $1))")" = '{"cause":"NoBundle","status":10}' ]
}

# Standard output is closed: the status is 5, what was stored before is as it was, and at most the command's own entries came.
closed_output() {
    name=$1 most=$2
    shift 2
    fresh closed
    "$binary" load t >/dev/null
    "$binary" history >before
    [ "$name" != load ] || rm emu.store
    "$binary" "$@" <../one.jsonl >&-
    agree "$name, output closed" $? 5
    "$binary" history >after
    agree "$name, output closed: history" $? 0
    [ "$name" = load ] || head -n "$(wc -l <before)" after | cmp -s before -
    agree "$name, output closed: entries of before" $? 0
    more=$(($(wc -l <after) - $(wc -l <before)))
    [ "$more" -ge 0 ] && [ "$more" -le "$most" ]
    agree "$name, output closed: $more more entries" $? 0
    "$binary" ask 'Phonetic == m' | grep -q '"labels":"m"'
    agree "$name, output closed: the bundle of before" $? 0
}
closed_output run 1 run --store
closed_output live 10 live --store
closed_output load 0 load t
closed_output import 1 import s1 b9 20000 a.TextGrid
closed_output ask 0 ask 'Phonetic == m'
closed_output export 0 export s1 b1
closed_output history 0 history

# Standard input is closed: the status is 4, nothing is written and the store is as it was.
fresh input
"$binary" load t >/dev/null
cp emu.store before
for words in 'run --store' 'live --store' 'run' 'live'; do
    # shellcheck disable=SC2086
    wrote=$("$binary" $words <&-)
    agree "$words, input closed" "$?$wrote" 4
    cmp -s before emu.store
    agree "$words, input closed: the store" $? 0
done
"$binary" run --store <&- >&- 2>&-
agree "all streams closed" $? 4
cmp -s before emu.store
agree "all streams closed: the store" $? 0

# Standard output is full, or its reader has gone.
if [ -c /dev/full ]; then
    "$binary" run --store <../one.jsonl >/dev/full
    agree "output full" $? 5
fi
"$binary" history >after
agree "output full: history" $? 0

# Two programs on one store. Each has its script and waits for more until the first of the two has ended: one has the store and
# answers all, the other ends at once with status 6 and writes nothing. Gives what was found.
two_on_a_store() {
    fresh two
    "$binary" load t >/dev/null
    begin_two
    cat ../one.jsonl >&3
    cat ../two.jsonl >&4
    while kill -0 "$left" && kill -0 "$right"; do sleep 0.01; done
    end_two 1
}
# Two programs that both find no store, and then both would make it. The one that comes later ends with status 6, or with 3 where it
# began so late that it found the other's configuration.
two_on_no_store() {
    fresh two
    begin_two
    sleep 0.1
    cat ../new-one.jsonl >&3
    cat ../new-two.jsonl >&4
    end_two 0
}
# Begins two programs, whose scripts come from the descriptors 3 and 4.
begin_two() {
    mkfifo left right
    timeout 300 "$binary" run --store <left >left.replies &
    left=$!
    timeout 300 "$binary" run --store <right >right.replies &
    right=$!
    exec 3>left 4>right
}
# Ends them, and gives their statuses, the greater one first, the number of acknowledged edits, and that of stored ones, of which so
# many stood before.
end_two() {
    exec 3>&- 4>&-
    wait "$left"
    first=$?
    wait "$right"
    second=$?
    ((first >= second)) || { swap=$first && first=$second && second=$swap; }
    echo "status $first and $second, acknowledged $(cat left.replies right.replies | acknowledged), stored $(($(entries) - $1))"
}
held=0
made=0
for ((round = 1; round <= times; round++)); do
    found=$(two_on_a_store 2>/dev/null)
    case $found in
    "status 6 and 0, acknowledged 10, stored 10") held=$((held + 1)) ;;
    *) echo "two programs on a store, round $round: $found" ;;
    esac
    found=$(two_on_no_store 2>/dev/null)
    case $found in
    "status "[63]" and 0, acknowledged 10, stored 10") made=$((made + 1)) ;;
    *) echo "two programs on no store, round $round: $found" ;;
    esac
done
agree "two programs on a store" "$held of $times" "$times of $times"
agree "two programs on no store" "$made of $times" "$times of $times"

# A program has the store: every command that needs it ends with 6 at once, writes nothing and leaves the store as it is. When the
# program is killed, the next one has the store.
fresh held
"$binary" load t >/dev/null
mkfifo hold
"$binary" run --store <hold >replies &
holder=$!
exec 3>hold
for ((turn = 0; turn < 600; turn++)); do
    # shellcheck disable=SC2012
    ls -l "/proc/$holder/fd" 2>/dev/null | grep -q emu.store && break
    sleep 0.05
done
sleep 0.2
cp emu.store before
while read -r words; do
    # shellcheck disable=SC2086
    wrote=$(timeout 300 "$binary" $words <../two.jsonl)
    agree "$words, while another program has the store" "$?$wrote" 6
done <<'WORDS'
run --store
live --store
load t
import s1 b9 20000 a.TextGrid
ask Phonetic==m
export s1 b1
history
WORDS
cmp -s before emu.store
agree "the store that another program has" $? 0
kill -9 "$holder"
wait "$holder" 2>/dev/null
exec 3>&-
agree "entries after the kill" "$(entries)" 1

# A file system that is full: a small one of its own where that may be mounted, and a limit on the size of files. A pipe has no such
# limit, so what is written goes through one.
limited() { (trap '' XFSZ && ulimit -f 64 && exec "$@"); }
# no_room NAME RUNNER..: what the folder has no room for, each begun by the runner. `load` ends with 6 and writes nothing, and the store
# has the first bundles of the database. `live` and `run` go on to the end, and the store has just what was acknowledged. `import` ends
# with 6, writes nothing and adds nothing.
no_room() {
    name=$1
    shift
    ln -s "$room/many_emuDB" "$room/long.TextGrid" .
    wrote=$("$@" "$binary" load many)
    agree "$name, load" "$?$wrote" 6
    count=$(entries)
    [ "$count" -gt 0 ] && [ "$count" -lt 100 ] && has_first "$count"
    agree "$name, load: the first $count bundles" $? 0
    for mode in live run; do
        rm -f emu.store
        replies=$("$@" "$binary" "$mode" --store <"$room/new-many.jsonl")
        agree "$name, $mode" $? 0
        grep -q '"rule":"Disk"' <<<"$replies"
        agree "$name, $mode: an edit is refused" $? 0
        count=$(acknowledged <<<"$replies")
        [ "$count" -gt 0 ]
        agree "$name, $mode: an edit is accepted" $? 0
        agree "$name, $mode: entries" "$(entries)" "$count"
    done
    wrote=$("$@" "$binary" import s1 long 20000 long.TextGrid)
    agree "$name, import" "$?$wrote" 6
    agree "$name, import: entries" "$(entries)" "$count"
}
fresh limit
no_room "a limit on the file" limited
agree "an import past the limit" "$("$binary" import s1 long 20000 long.TextGrid)" '{"n":'$((count + 1))',"ok":"import"}'
fresh nothing
for words in 'run --store' 'live --store' 'load t'; do
    # shellcheck disable=SC2086
    wrote=$(trap '' XFSZ && ulimit -f 0 && "$binary" $words <../new-many.jsonl)
    agree "$words, a limit of no byte" "$?$wrote" 6
done
fresh full
mkdir small
if mount -t tmpfs -o size=64k tmpfs small 2>/dev/null; then
    full=$PWD/small
    cd small || exit 2
    no_room "a full file system" env
    cp emu.store .. && cd .. && umount "$full" && full=
    agree "a copy of a full file system" "$(entries)" "$count"
else
    echo "edge.sh: a small file system can't be mounted here; the limit on files stands for it"
fi

# No right to write: to the store, and to its folder.
as=()
if [ "$(id -u)" = 0 ]; then
    as=(setpriv --reuid=65534 --regid=65534 --clear-groups)
fi
if "${as[@]}" "$binary" fly >/dev/null 2>&1; [ $? = 2 ]; then
    fresh rights
    "$binary" load t >/dev/null
    chmod 444 emu.store
    cp emu.store before
    for words in 'ask Phonetic==m' 'history' 'run --store' 'live --store' 'load t' 'import s1 b9 20000 a.TextGrid'; do
        # shellcheck disable=SC2086
        wrote=$("${as[@]}" "$binary" $words <../one.jsonl)
        agree "$words, no right to write the store" "$?$wrote" 6
    done
    cmp -s before emu.store
    agree "no right to write the store: the store" $? 0
    rm emu.store
    chmod 555 .
    for words in 'run --store' 'live --store' 'load t'; do
        # shellcheck disable=SC2086
        wrote=$("${as[@]}" "$binary" $words <../new-one.jsonl)
        agree "$words, no right to write the folder" "$?$wrote" 6
    done
    chmod 755 .
    [ ! -e emu.store ]
    agree "no right to write the folder: no store" $? 0
else
    echo "edge.sh: no other user can run the program here; rights are not tried"
fi

# A folder, and a link to nothing, with the store's name.
fresh folder
mkdir emu.store
wrote=$("$binary" run --store <../new-one.jsonl)
agree "a folder named emu.store" "$?$wrote" 6
agree "a folder named emu.store: what is in it" "$(ls emu.store)" ""
fresh link
ln -s nowhere emu.store
wrote=$("$binary" run --store <../new-one.jsonl)
agree "a link to nothing named emu.store" "$?$wrote" 6
[ ! -e nowhere ]
agree "a link to nothing named emu.store: nothing is made" $? 0

# The program is killed in the midst.
agree "kill -9 of run" "$(bash "$here/kill-store.sh" "$binary" 10 | tail -n 1)" "10 of 10"
agree "kill -9 of live" "$(bash "$here/kill-live.sh" "$binary" 5 | tail -n 1)" "5 of 5"
# killed MILLISECONDS WORDS..: begins the program on these words, and kills it at a random moment within this time. What it wrote stands
# in the file wrote.
killed() {
    within=$1
    shift
    "$binary" "$@" >wrote &
    sleep "0.$(printf '%03d' $((RANDOM % within)))"
    kill -9 $! 2>/dev/null
    wait $! 2>/dev/null
}
# A `load` leaves the first bundles of the database, all where it wrote its line; or no configuration.
fresh killed-load
ln -s "$room/many_emuDB" .
right=0
for ((round = 1; round <= 10; round++)); do
    rm -f emu.store
    killed 100 load many
    "$binary" history >history
    status=$?
    count=$(grep -c '"do":' history)
    if [ -s wrote ] && [ "$count" != 100 ]; then
        echo "a load that was killed had written its line: $count bundles"
    elif [ "$status" = 10 ] || { [ "$status" = 0 ] && has_first "$count"; }; then
        right=$((right + 1))
    else
        echo "a load that was killed: status $status, $count bundles"
    fi
done
agree "kill -9 of load" "$right of 10" "10 of 10"
# An `import` leaves what was there, and its own bundle or not; surely where it wrote its line.
fresh killed-import
"$binary" load t >/dev/null
right=0
count=1
for ((round = 1; round <= 10; round++)); do
    before=$count
    killed 20 import s1 "n$round" 20000 a.TextGrid
    count=$(entries)
    if [ "$count" -le $((before + 1)) ] && [ "$count" -ge $((before + $(grep -c '"ok":"import"' wrote))) ]; then
        right=$((right + 1))
    else
        echo "an import that was killed: $count entries, $before before, wrote $(cat wrote)"
    fi
done
agree "kill -9 of import" "$right of 10" "10 of 10"

echo "$passed agree, $failed do not"
[ "$failed" = 0 ] && [ "$passed" != 0 ]
