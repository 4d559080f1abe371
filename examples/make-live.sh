#!/bin/sh
# make-live.sh [SEED [LINES]]: a script of sixteen sessions, each with so many lines (200 where the number is not given): edits,
# looks, queries, `finish` and `after` lines over eight bundles that all sessions share. Another seed gives another script.
awk -v seed="${1:-1}" -v lines="${2:-200}" '
function pick(n) { return int(rand() * n) }
function request(s, text) { print "{\"s\":" s ",\"do\":" text "}" }
function bundle() { return "\"session\":\"s1\",\"bundle\":\"b" pick(8) "\"" }
function label() { return substr("aeioumnt", 1 + pick(8), 1) }
function annotation(    text, at, id, dur) {
    at = 0
    for (id = 1; id <= 6; id++) {
        dur = 50 + pick(200)
        text = text (id > 1 ? "," : "") "{\"id\":" id ",\"sampleStart\":" at ",\"sampleDur\":" dur \
            ",\"labels\":[{\"name\":\"Phonetic\",\"value\":\"" label() "\"}]}"
        at += dur + 1
    }
    return "{\"sampleRate\":20000,\"levels\":[{\"name\":\"Phonetic\",\"type\":\"SEGMENT\",\"items\":[" text "]}]}"
}
function edit(s,    kind) {
    kind = pick(10)
    if (kind < 6)
        request(s, "\"set_label\"," bundle() ",\"id\":" 1 + pick(6) ",\"attribute\":\"Phonetic\",\"value\":\"" label() "\"")
    else if (kind < 7)
        request(s, "\"move_boundary\"," bundle() ",\"id\":" 1 + pick(6) ",\"sampleStart\":" 60 + pick(900))
    else if (kind < 8)
        request(s, "\"split\"," bundle() ",\"id\":" 1 + pick(6) ",\"newId\":" 7 + pick(5) ",\"sampleStart\":" 60 + pick(900))
    else if (kind < 9)
        request(s, "\"add_bundle\"," bundle() ",\"annot\":" annotation())
    else
        request(s, "\"drop_bundle\"," bundle())
}
function query(    kind) {
    kind = pick(3)
    if (kind == 0) return "\"eql\":\"Phonetic == " label() "\""
    if (kind == 1) return "\"eql\":\"[Phonetic =~ \047[aeiou]\047 -> Phonetic == " label() "]\""
    return "\"eql\":\"#Phonetic != " label() "\""
}
BEGIN {
    srand(seed)
    print "{\"do\":\"config\",\"config\":{\"name\":\"live\",\"levelDefinitions\":[{\"name\":\"Phonetic\",\"type\":\"SEGMENT\"," \
        "\"attributeDefinitions\":[{\"name\":\"Phonetic\"}]}]}}"
    number = 1
    for (turn = 0; turn < lines; turn++)
        for (s = 1; s <= 16; s++) {
            number++
            kind = pick(10)
            if (kind < 4) edit(s)
            else if (kind < 6) request(s, "\"query\"," query())
            else if (kind < 7) request(s, "\"look\"," query())
            else if (kind < 8) request(s, "\"finish\"")
            else if (number > 2) request(s, "\"after\",\"line\":" 2 + pick(number - 2))
            else edit(s)
        }
}'
