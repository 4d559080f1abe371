#!/usr/bin/env bash
# tools.sh [BINARY]: asks the questions of ae.queries over the database ae_emuDB, and runs what stands beside this file for the way from
# and to other programs: tables (rows.jq, rows.py, rows.R), a configuration and links from TextGrids, the picture of a bundle, and the
# ways back into a database folder and to TextGrids. Each part is run where its tools are there (jq; R with jsonlite; pandas; dot), else
# that is said.
# BINARY is crates/emu/out/emu where it is not given. The last line says how many agreed; the status is 0 where all did.
here=$(realpath -- "$(dirname "$0")")
binary=$(realpath -- "${1:-$here/../crates/emu/out/emu}" 2>/dev/null)
if [ ! -x "$binary" ]; then
    echo "tools.sh: there is no program yet: build it by 'rt run -- run' in crates/emu" >&2
    exit 2
fi
if ! command -v jq >/dev/null; then
    echo "tools.sh: jq is not here, nothing is tried"
    exit 0
fi
room=$(mktemp -d) || exit 2
trap 'rm -rf "$room"' EXIT
cd "$room" || exit 2
mkdir bin && ln -s "$binary" bin/emu && PATH=$room/bin:$PATH
passed=0
failed=0

# agree NAME FOUND: compares the file with what is wanted, which stands on standard input, counts, and shows what differs.
agree() {
    if differs=$(diff - "$2"); then
        passed=$((passed + 1))
    else
        failed=$((failed + 1))
        printf '%s: what was wanted, with what was found:\n%s\n' "$1" "$differs"
    fi
}

# The questions. What is found is written as the file has it.
mkdir ae && cd ae && cp -r "$here/ae_emuDB" . && emu load ae >/dev/null || exit 1
while IFS= read -r line; do
    case $line in
    '? '*)
        echo "$line"
        emu ask "${line#? }" | jq -r 'if .segments then .segments[] | "\(.session) \(.bundle) \(.labels) \(.start) \(.end)" else "! \(tojson)" end'
        ;;
    '#'* | '') echo "$line" ;;
    esac
done <"$here/ae.queries" >../found
agree ae.queries ../found <"$here/ae.queries"

# One table by each tool: the vowels after an `m`.
eql='[Phonetic == m -> #Phonetic == vowel]'
cat >../wanted <<'CSV'
spk1 b01 Q 224968 324968 3600 5199 3
spk1 b02 eI 224968 349968 3600 5599 3
spk2 b01 { 174968 299968 2800 4799 2
CSV
emu ask "$eql" | jq -rn -f "$here/rows.jq" | tail -n +2 | tr -d '"' |
    awk -F, '{ print $2, $3, $6, $7, $8, $9, $10, $14 }' >../found
agree rows.jq ../found <../wanted
emu ask 'Vowel == a' | jq -rn -f "$here/rows.jq" 2>&1 >/dev/null | grep -o UnknownName >../found
agree "rows.jq of a refused query" ../found <<<UnknownName
if command -v python3 >/dev/null; then
    emu ask "$eql" | python3 "$here/rows.py" | tail -n +2 | awk -F, '{ print $2, $3, $6, $7, $8, $9, $10, $14 }' >../found
    agree rows.py ../found <../wanted
fi
for python in python3 /usr/bin/python3; do
    "$python" -c 'import pandas' 2>/dev/null && break
    python=
done
if [ -n "$python" ]; then
    PYTHONPATH=$here "$python" - "$eql" >../found <<'PYTHON'
import sys
from rows import ask
table = ask(sys.argv[1])
for row in table[["session", "bundle", "labels", "start", "end", "sampleStart", "sampleEnd", "startPos"]].itertuples(index=False):
    print(*row)
assert len(ask("Text == models")) == 0
assert (table["end"] - table["start"]).mean() == (100000 + 125000 + 125000) / 3
PYTHON
    agree "rows.py with pandas" ../found <../wanted
else
    echo "tools.sh: pandas is not here; rows.py is tried without it"
fi
if command -v Rscript >/dev/null && Rscript -e 'library(jsonlite)' >/dev/null 2>&1; then
    cat >../try.R <<'R'
words <- commandArgs(TRUE)
source(words[1])
table <- emu_ask(words[2])
with(table, cat(paste(session, bundle, labels, start * 1000, end * 1000, sample_start, sample_end, start_item_seq_idx - 1), sep = "\n"), "\n")
empty <- emu_ask("Text == models")
stopifnot(nrow(empty) == 0, identical(names(empty), names(table)))
stopifnot(inherits(try(emu_ask("Vowel == a"), silent = TRUE), "try-error"))
R
    Rscript ../try.R "$here/rows.R" "$eql" 2>../said | sed '/^ *$/d' >../found
    cat ../said
    agree rows.R ../found <../wanted
else
    echo "tools.sh: R with jsonlite is not here; rows.R is not tried"
fi

# The picture: a line for each of the 20 links of a bundle, and drawn where dot is there.
emu export spk1 b01 | jq -r -f "$here/hierarchy.jq" >../picture
{ grep -c '^[0-9]* -> [0-9]' ../picture; grep -o '[0-9]* \[label="model\|[0-9]* \[label="C / model' ../picture; } >../found
agree hierarchy.jq ../found <<<$'20\n2 [label="C / model'
if command -v dot >/dev/null; then
    dot -Tsvg ../picture | grep -c '<g id="edge' >../found
    agree "hierarchy.jq by dot" ../found <<<20
else
    echo "tools.sh: dot is not here; the picture is not drawn"
fi

# The configuration: all that emu keeps of the folder's, with all lists; read again it is the same.
jq -cS 'del(.EMUwebAppConfig) | .ssffTrackDefinitions |= map({name}) | .levelDefinitions[].attributeDefinitions[].labelGroups |= (. // [])' \
    ae_emuDB/ae_DBconfig.json >../wanted
emu config >../found
agree "emu config" ../found <../wanted
mkdir ../again && cd ../again && jq -c '{do: "config", config: .}' ../found | emu run --store >/dev/null && emu config >../found
cd ../ae && agree "emu config read again" ../found <../wanted

# Back into a folder: what was not changed is as it was, and an edit is there.
echo '{"s":1,"do":"set_label","session":"spk2","bundle":"b01","id":2,"attribute":"Text","value":"men"}' | emu run --store >/dev/null
EMU=emu bash "$here/export-folder.sh" ae_emuDB back_emuDB
(cd ae_emuDB && find . -name '*.json' | LC_ALL=C sort | while read -r file; do
    jq -S --arg file "$file" 'if $file | test("spk2") then (.levels[0].items[1].labels[1].value) = "men" else . end' "$file"
done) >../wanted
(cd back_emuDB && find . -name '*.json' | LC_ALL=C sort | while read -r file; do jq -S . "$file"; done) >../found
agree export-folder.sh ../found <../wanted

# From a TextGrid: the tiers are levels; a word has the two sounds within its time below it, once.
mkdir ../grids && cd ../grids || exit 1
printf '%s\n' 'File type = "ooTextFile"' 'Object class = "TextGrid"' '' 0 1 '<exists>' 3 \
    '"IntervalTier" "Word" 0 1 2 0 0.5 "ma" 0.5 1 ""' \
    '"IntervalTier" "Phonetic" 0 1 3 0 0.2 "m" 0.2 0.5 "a" 0.5 1 ""' \
    '"TextTier" "Tone" 0 1 1 0.3 "H*"' >one.TextGrid
python3 "$here/config-of-textgrids.py" --links Word Phonetic g one.TextGrid |
    jq -c '{do: "config", config: .}' | emu run --store >../found
emu import s1 one 1000 one.TextGrid >>../found
for turn in 1 2; do
    emu export s1 one |
        jq -c --arg session s1 --arg bundle one --arg upper Word --arg lower Phonetic -f "$here/links-from-times.jq" >links.jsonl
    emu run --store <links.jsonl | jq -c .ok >>../found
done
emu ask "[Word == ma ^ #Phonetic =~ '.*']" | jq -r '.segments[] | "\(.labels) \(.sampleStart) \(.sampleEnd)"' >>../found
agree "from TextGrids" ../found <<'WANTED'
{"line":1,"n":0,"ok":"config"}
{"n":1,"ok":"import"}
"add_link"
"add_link"
"add_link"
m 0 199
a 200 499
WANTED

# The same with the link definition added after the import, and the links that the times give made by one line.
mkdir ../later && cd ../later || exit 1
cp ../grids/one.TextGrid .
python3 "$here/config-of-textgrids.py" g one.TextGrid | jq -c '{do: "config", config: .}' | emu run --store >/dev/null
emu import s1 one 1000 one.TextGrid >../found
jq -cn '{s: 1, do: "add_link_definition",
    definition: {type: "ONE_TO_MANY", superlevelName: "Word", sublevelName: "Phonetic"}},
    {s: 1, do: "link_times", session: "s1", bundle: "one", upper: "Word", lower: "Phonetic"}' | emu run --store >>../found
emu ask "[Word == ma ^ #Phonetic =~ '.*']" | jq -r '.segments[] | "\(.labels) \(.sampleStart) \(.sampleEnd)"' >>../found
agree "links from times" ../found <<'WANTED'
{"n":1,"ok":"import"}
{"line":1,"n":2,"ok":"add_link_definition"}
{"line":2,"n":3,"ok":"link_times"}
m 0 199
a 200 499
WANTED
cd ../grids || exit 1

# Into a folder that has the configuration alone: loaded elsewhere it gives the same configuration and the same bundle.
mkdir g_emuDB new && emu config | jq . >g_emuDB/g_DBconfig.json && EMU=emu bash "$here/export-folder.sh" g_emuDB new/g_emuDB
{ emu config && emu export s1 one; } >../wanted
(cd new && emu load g >/dev/null && emu config && emu export s1 one) >../found
agree "a folder of TextGrids" ../found <../wanted

# To TextGrids and back: the levels with times are as they were, but for what fills gaps, which has the empty label.
cd ../ae && EMU=emu bash "$here/textgrid-folder.sh" ae_emuDB ../tiers >/dev/null
times() {
    jq -c '.levels[] | select(.type != "ITEM") | [.name, .type, [.items[] | select(.labels[0].value != "") |
        [.sampleStart, .sampleDur, .samplePoint, .labels[0].value]]]'
}
echo 3 >../wanted
find ../tiers -name '*.TextGrid' | wc -l >../found
for session in spk1 spk2; do
    for file in ../tiers/$session/*.TextGrid; do
        bundle=$(basename "$file" .TextGrid)
        emu import "$session" "again-$bundle" "$(emu export "$session" "$bundle" | jq .sampleRate)" "$file" >/dev/null
        emu export "$session" "$bundle" | times >>../wanted
        emu export "$session" "again-$bundle" | times >>../found
    done
done
agree textgrid-folder.sh ../found <../wanted

echo "$passed agree, $failed do not"
[ "$failed" = 0 ] && [ "$passed" != 0 ]
