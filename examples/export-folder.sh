#!/usr/bin/env bash
# export-folder.sh FROM_emuDB TO_emuDB: writes the store of the current folder back into a database folder that emuR and the
# EMU-webApp open. TO_emuDB is made as a copy of FROM_emuDB, the folder that was loaded, and so keeps its configuration (with
# EMUwebAppConfig) and its sound files, links followed; then the annotation of each bundle of the store is written over the old one. Bundles that the
# store has and the folder does not are added, and those that were dropped are named. The program is `emu`, or what EMU names.
# It asks for the bundles by the items that they have, so a bundle that is new and has no item is not found.
from=${1%/}
to=${2%/}
emu=${EMU:-emu}
if [ $# != 2 ] || [ ! -d "$from" ] || [ -e "$to" ]; then
    echo "export-folder.sh FROM_emuDB TO_emuDB: FROM_emuDB has to be there, TO_emuDB not" >&2
    exit 2
fi
if ! "$emu" history >/dev/null; then
    echo "export-folder.sh: this folder has no store that can be read" >&2
    exit 1
fi
config=$(echo "$from"/*_DBconfig.json)
cp -rL "$from" "$to" || exit 1
{
    (cd "$from" && ls -d -- *_ses/*_bndl 2>/dev/null) | sed 's/_ses\//\t/; s/_bndl$//'
    jq -r '.levelDefinitions[].name' "$config" | while IFS= read -r level; do
        "$emu" ask "'$level' =~ '.*'" | jq -r '.segments[]? | [.session, .bundle] | @tsv'
    done
} | LC_ALL=C sort -u | while IFS=$'\t' read -r session bundle; do
    folder=$to/${session}_ses/${bundle}_bndl
    mkdir -p "$folder" && "$emu" export "$session" "$bundle" >"$folder/new"
    status=$?
    if [ "$status" = 0 ]; then
        jq . "$folder/new" >"$folder/${bundle}_annot.json" && rm "$folder/new"
    elif grep -q '"cause":"NoBundle"' "$folder/new"; then
        rm "$folder/new"
        echo "$session $bundle is not in the store; $folder is as it was"
    else
        echo "$session $bundle: status $status $(cat "$folder/new")" >&2
        exit 1
    fi
done
