#!/usr/bin/env bash
# store.sh BINARY: a walk over a store, in a folder of its own, with the database t_emuDB and the TextGrid a.TextGrid beside this
# file. Before what a command writes it shows the command, after a `$`, and after it the status where that is not 0.
# BINARY is a path from the root. check.sh compares what this writes with store.stdout.
binary=$1
cd "$(dirname "$0")" || exit 2
folder=$(mktemp -d) || exit 2
trap 'rm -rf "$folder"' EXIT
cp -r t_emuDB a.TextGrid "$folder" && cd "$folder" || exit 2

# Shows a command and runs it.
emu() {
    echo "\$ emu $*"
    "$binary" "$@"
    status=$?
    [ "$status" = 0 ] || echo "status $status"
}

# A store without a configuration: the file emu.store is not there yet.
emu history
emu config
emu load u
emu load t
emu load t
emu config
emu ask 'Phonetic == m'
emu ask 'Word == w'
emu export s1 b1
emu export s1 b2
emu textgrid s1 b1
emu textgrid s1 b2
emu history
# A bundle of a TextGrid: into the store, again under the same names, and of a file that is not there.
emu import s1 b9 20000 a.TextGrid
emu import s1 b9 20000 a.TextGrid
emu import s1 b8 20000 b.TextGrid
# A script goes on from there. It gives no configuration.
emu run --store <<'SCRIPT'
{"s":1,"do":"set_label","session":"s1","bundle":"b9","id":3,"attribute":"Phonetic","value":"n"}
{"s":1,"do":"query","eql":"Phonetic == n"}
SCRIPT
emu run --store <<'SCRIPT'
{"do":"config","config":{"name":"t","levelDefinitions":[]}}
SCRIPT
emu history
emu export s1 b9
# Undo: a bundle with links, edits of it that are each taken back, and the export is that of before, byte for byte. The history names
# what takes an edit back by what it does. A later run does not reach these lines.
emu run --store <<'SCRIPT'
{"s":1,"do":"add_attribute","level":"Phonetic","attribute":{"name":"Place"}}
{"s":1,"do":"add_level","level":{"name":"Word","type":"ITEM","attributeDefinitions":[{"name":"Word"}]}}
{"s":1,"do":"add_link_definition","definition":{"type":"MANY_TO_MANY","superlevelName":"Word","sublevelName":"Phonetic"}}
{"s":1,"do":"add_bundle","session":"s2","bundle":"b1","annot":{"annotates":"c.wav","sampleRate":20000,"levels":[{"name":"Phonetic","type":"SEGMENT","items":[{"id":1,"sampleStart":3749,"sampleDur":1389,"labels":[{"name":"Phonetic","value":"V"}]},{"id":2,"sampleStart":5139,"sampleDur":1664,"labels":[{"name":"Phonetic","value":"m"},{"name":"Place","value":"lips"}]}]},{"name":"Word","type":"ITEM","items":[{"id":7,"labels":[{"name":"Word","value":"w"}]},{"id":8,"labels":[{"name":"Word","value":"x"}]},{"id":9}]}],"links":[{"fromID":7,"toID":2},{"fromID":7,"toID":1},{"fromID":8,"toID":1},{"fromID":8,"toID":2}]}}
SCRIPT
emu export s2 b1 | tee before
emu run --store <<'SCRIPT'
{"s":1,"do":"set_label","session":"s2","bundle":"b1","id":2,"attribute":"Phonetic","value":"n"}
{"s":1,"do":"undo","line":1}
{"s":1,"do":"undo","line":2}
{"s":1,"do":"undo","line":3}
{"s":1,"do":"merge","session":"s2","bundle":"b1","id":1}
{"s":1,"do":"undo","line":5}
{"s":1,"do":"remove_link","session":"s2","bundle":"b1","fromID":7,"toID":1}
{"s":1,"do":"undo","line":7}
{"s":1,"do":"remove_item","session":"s2","bundle":"b1","id":9}
{"s":1,"do":"undo","line":9}
{"s":1,"do":"remove_item","session":"s2","bundle":"b1","id":7}
{"s":1,"do":"undo","line":11}
{"s":1,"do":"split","session":"s2","bundle":"b1","id":2,"newId":3,"sampleStart":6000}
{"s":1,"do":"undo","line":13}
{"s":1,"do":"drop_bundle","session":"s2","bundle":"b1"}
{"s":1,"do":"undo","line":15}
SCRIPT
emu export s2 b1 | tee after
cmp before after && echo 'as before'
emu history
emu run --store <<'SCRIPT'
{"s":1,"do":"undo","line":7}
SCRIPT
# A file that is no store.
printf 'NOTASTORE!' >emu.store
emu history
emu config
