#!/usr/bin/env bash
# textgrid-folder.sh FROM_emuDB TO: writes the TextGrid of each bundle of a database folder to TO/SESSION/BUNDLE.TextGrid, which Praat
# opens (Open, Read from file). The folder is loaded into a store of its own, which is removed at the end. The program is `emu`, or
# what EMU names.
from=$(realpath -- "${1:-.}")
emu=$(command -v -- "${EMU:-emu}") && emu=$(realpath -- "$emu")
if [ $# != 2 ] || [ ! -d "$from" ] || [[ $from != *_emuDB ]] || [ -z "$emu" ]; then
    echo "textgrid-folder.sh FROM_emuDB TO: FROM_emuDB and the program have to be there" >&2
    exit 2
fi
mkdir -p -- "$2" && to=$(realpath -- "$2") && store=$(mktemp -d) || exit 2
trap 'rm -rf "$store"' EXIT
ln -s "$from" "$store" && cd "$store" || exit 2
name=${from##*/}
"$emu" load "${name%_emuDB}" || exit 1
(cd "$from" && ls -d -- *_ses/*_bndl) | while IFS= read -r folder; do
    session=${folder%_ses/*}
    bundle=${folder##*/}
    bundle=${bundle%_bndl}
    mkdir -p "$to/$session" || exit 1
    if ! "$emu" textgrid "$session" "$bundle" >"$to/$session/$bundle.TextGrid"; then
        echo "$session $bundle: $(tail -n 1 "$to/$session/$bundle.TextGrid")" >&2
        exit 1
    fi
done
