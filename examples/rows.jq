# Replies of emu as a table of comma-separated values with a head, from the folder of emu.store:
#   emu ask 'Phonetic == m' | jq -rn -f rows.jq > rows.csv
#   emu run --store < script.jsonl | jq -rn -f rows.jq > rows.csv
# A refusal, a last line or no line at all ends it with status 1, so that an empty table is never a refused query.
["line", "session", "bundle", "level", "attribute", "labels", "start", "end", "sampleStart", "sampleEnd", "sampleRate",
 "startItem", "endItem", "startPos", "endPos"] as $names
| [inputs] as $replies
| if $replies == [] then "emu gave no reply: see its status\n" | halt_error(1) else . end
| [$replies[]
   | if has("segments") then
       . as $reply | .segments[] | (. + {line: $reply.line}) as $row | [$names[] as $name | $row[$name]] | @csv
     elif has("refused") or has("cause") then "emu refused: \(tojson)\n" | halt_error(1)
     else empty end] as $rows
| ($names | @csv), $rows[]
