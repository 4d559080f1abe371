#!/usr/bin/env bash
# check.sh [BINARY]: runs the program on each script NAME.jsonl beside this file, and compares what it writes with NAME.stdout and
# its status with that of the last line, or 0 where the last line has none. NAME.args has further words of the command line.
# A file NAME.cases has many scripts, parted by empty lines: a line '# TITLE' says what a script shows, '$ WORDS' gives the words of the
# command line where they are not 'run', '<' stands before each line of the script, and '>' before each line of the output.
# Then it asks the queries of make-wide.sh, where 1,000,000 tuples are answered and more are not, fills a history, takes back the longest lists (make-undo.sh), walks over a store (store.sh),
# tries the tools for tables, TextGrids and pictures (tools.sh), stores that are cut or altered (damage.py), a store of the first version (first-version.py), and lists of many rows (long-list.py). BINARY is crates/emu/out/emu where it is not given. The last line says how many agreed; the status is 0 where all did.
# check.sh --try [NAME.cases ..] compares what 'rt try' gives for the scripts NAME.jsonl, or for the cases of these files, in a minute or two:
# nothing is built and nothing is proved, statuses are not looked at, and cases with other words are left out.
export LC_ALL=C
begun=$PWD
cd "$(dirname "$0")" || exit 2
cases=$(mktemp -d) || exit 2
trap 'rm -rf "$cases"' EXIT
# Writes each case of NAME.cases to the folder, as NAME-1, NAME-2 .. with their .stdout, .title and, where they have words, .words.
part() {
    local line title='' case='' number=0
    while IFS= read -r line; do
        case $line in
            '') case= ;;
            '# '*) title=${line#\# } ;;
            *)
                if [ -z "$case" ]; then
                    number=$((number + 1))
                    case=$cases/${1%.cases}-$number
                    : >"$case"
                    : >"$case.stdout"
                    printf '%s\n' "$title" >"$case.title"
                fi
                case $line in
                    '<'*) printf '%s\n' "${line#<}" >>"$case" ;;
                    '>'*) printf '%s\n' "${line#>}" >>"$case.stdout" ;;
                    '$'*) printf '%s\n' "${line#\$}" >"$case.words" ;;
                    *) echo "check.sh: $1: what is this line? $line" >&2 && exit 2 ;;
                esac
                ;;
        esac
    done <"$1"
}
# Copies the scripts NAME.jsonl to the folder.
copy_scripts() {
    local script name
    for script in *.jsonl; do
        name=${script%.jsonl}
        cp "$script" "$cases/$name" && cp "$name.stdout" "$cases" || exit 2
        if [ -f "$name.args" ]; then cp "$name.args" "$cases"; fi
    done
}
if [ "$1" = --try ]; then
    shift
    [ $# -gt 0 ] || copy_scripts
    for file in "$@"; do
        part "$file"
    done
    for words in "$cases"/*.words; do
        rm -f "${words%.words}" "${words%.words}.stdout" "$words"
    done
    rm -f "$cases"/*.title
    cd ../crates/emu && rt try --cases "$cases" -- run
    exit
fi
copy_scripts
for file in *.cases; do
    part "$file"
done
if [ $# -gt 0 ]; then
    binary=$(cd "$begun" && realpath -- "$1")
else
    binary=$(realpath -- ../crates/emu/out/emu 2>/dev/null)
fi
if [ ! -x "$binary" ]; then
    echo "check.sh: there is no program yet: build it by 'rt run -- run' in crates/emu" >&2
    exit 2
fi
wrote=$(mktemp) || exit 2
trap 'rm -rf "$cases" "$wrote"' EXIT
passed=0
failed=0
# Counts a case whose output, as it was written, has to be that of a file.
agree() { # NAME WANTED
    if cmp -s "$wrote" "$2"; then
        passed=$((passed + 1))
    else
        failed=$((failed + 1))
        echo "$1: output, with what was wanted:"
        diff "$wrote" "$2"
    fi
}
for wanted in "$cases"/*.stdout; do
    case=${wanted%.stdout}
    words=(run)
    [ -f "$case.args" ] && mapfile -t -O 1 words <"$case.args"
    [ -f "$case.words" ] && read -ra words <"$case.words"
    "$binary" "${words[@]}" <"$case" >"$wrote"
    status=$?
    due=$(tail -n 1 "$wanted" | sed -n 's/^{"cause".*"status":\([0-9]*\).*/\1/p')
    if [ "$status" != "${due:-0}" ]; then
        failed=$((failed + 1))
        echo "${case##*/}: status $status, wanted ${due:-0}"
    else
        agree "${case##*/}$([ -f "$case.title" ] && echo " ($(cat "$case.title"))")" "$wanted"
    fi
done
# Counts a text that has to be another.
same() { # NAME FOUND WANTED
    if [ "$2" = "$3" ]; then
        passed=$((passed + 1))
    else
        failed=$((failed + 1))
        echo "$1: $2, wanted $3"
    fi
}
# For each query of a wide bundle: how many rows it has, or the rule that it is refused by.
wide() {
    sh ./make-wide.sh "$1" 1000 | "$binary" run |
        awk 'NR > 2 { if (match($0, /"rule":"[A-Za-z]+"/)) print substr($0, RSTART + 8, RLENGTH - 9); else print gsub(/"labels"/, "") }' |
        paste -s -d ' '
}
same "make-wide.sh 1000 1000" "$(wide 1000)" "1000 1000 1000"
same "make-wide.sh 1001 1000" "$(wide 1001)" "TooManyTuples 1000 1001"
# A word that is no text asks for nothing.
same "a word that is no text" "$("$binary" ask $'\xff' </dev/null | tr -d '\n'; echo "${PIPESTATUS[0]}")" '{"cause":"Usage","status":2}2'
# A history of 100,000 edits takes none more, of an item that is there or of one that is not: its last three replies.
same "make-history.sh" "$(sh ./make-history.sh 99999 | "$binary" run | tail -n 3 | paste -s -d ' ')" \
    '{"line":100001,"n":100000,"ok":"set_label"} {"line":100002,"n":100000,"refused":{"rule":"HistoryFull"}} {"line":100003,"n":100000,"refused":{"rule":"HistoryFull"}}'
# What takes a list or a merge back has at most 65,536 edits: the reply to its undo, and the query after it.
undone() { sh ./make-undo.sh "$1" "$2" | "$binary" run | tail -n 2 | paste -s -d ' '; }
same "make-undo.sh 65533 0" "$(undone 65533 0)" '{"line":4,"n":3,"ok":"undo"} {"line":5,"n":3,"segments":[{"attribute":"Phonetic","bundle":"b1","end":340175,"endItem":2,"endPos":1,"labels":"V->m","level":"Phonetic","sampleEnd":6803,"sampleRate":20000,"sampleStart":3749,"session":"s1","start":187425,"startItem":1,"startPos":0}]}'
same "make-undo.sh 65533 1" "$(undone 65533 1)" '{"line":4,"refused":{"rule":"TooManyEdits"}} {"line":5,"n":2,"segments":[]}'
same "make-undo.sh 0 65534" "$(undone 0 65534)" '{"line":4,"refused":{"rule":"TooManyEdits"}} {"line":5,"n":2,"segments":[]}'
# The walk over a store.
bash ./store.sh "$binary" >"$wrote"
agree store.sh store.stdout
# The questions of ae.queries, and the tools beside this file.
if bash ./tools.sh "$binary" >"$wrote"; then
    passed=$((passed + 1))
else
    failed=$((failed + 1))
    echo "tools.sh:"
fi
grep -v ' agree, 0 do not$' "$wrote"
# Stores that are cut or altered, a store of the first version, and lists of many rows.
for script in damage.py first-version.py long-list.py; do
    if "./$script" "$binary" >"$wrote"; then
        passed=$((passed + 1))
    else
        failed=$((failed + 1))
        cat "$wrote"
    fi
done
echo "$passed agree, $failed do not"
[ "$failed" = 0 ] && [ "$passed" != 0 ]
