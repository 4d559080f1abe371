# The lines `add_link` for each item of the level $lower that lies within a segment of the level $upper, and is not linked to it yet:
#   emu export S B | jq -c --arg session S --arg bundle B --arg upper Word --arg lower Phonetic -f links-from-times.jq > links.jsonl
#   emu run --store < links.jsonl
# By a file, since two programs can't have one store at once. The configuration has to have a link definition from $upper to $lower.
def items($level): .levels[] | select(.name == $level) | .items[];
. as $annot
| [$annot | items($upper)][] as $above
| [$annot | items($lower)][] as $below
| ($below.sampleStart // $below.samplePoint) as $first
| (if $below.samplePoint then $first else $first + $below.sampleDur end) as $last
| select($above.sampleStart <= $first and $last <= $above.sampleStart + $above.sampleDur)
| select([$annot.links[] | select(.fromID == $above.id and .toID == $below.id)] == [])
| {s: 1, do: "add_link", session: $session, bundle: $bundle, fromID: $above.id, toID: $below.id}
