#!/bin/sh
# make-undo.sh EDITS WORDS: a script with one bundle, in which so many words are linked to the second of two segments, which has two labels.
# So many edits of the first segment's label and then a `merge` of the two stand in one list (a `merge` alone where EDITS is 0), and that
# is taken back. What takes it back cuts the segment, puts two labels and each link back, and then each label of the first one: EDITS +
# WORDS + 3 edits. At most 65,536 are made: 65533 0 is taken back; 65533 1, and 0 65534, give TooManyEdits. The query after it finds
# the two segments where they are as they were.
awk -v edits="$1" -v words="$2" '
function level(name, type, attributes) {
    return "{\"name\":\"" name "\",\"type\":\"" type "\",\"attributeDefinitions\":[{\"name\":\"" name "\"}" attributes "]}"
}
function label(attribute, value) { return "{\"name\":\"" attribute "\",\"value\":\"" value "\"}" }
function comma() { return id > 3 ? "," : "" }
BEGIN {
    print "{\"do\":\"config\",\"config\":{\"name\":\"t\",\"levelDefinitions\":[" level("Word", "ITEM") "," \
        level("Phonetic", "SEGMENT", ",{\"name\":\"Place\"}") \
        "],\"linkDefinitions\":[{\"type\":\"MANY_TO_MANY\",\"superlevelName\":\"Word\",\"sublevelName\":\"Phonetic\"}]}}"
    key = "\"session\":\"s1\",\"bundle\":\"b1\""
    printf "{\"s\":1,\"do\":\"add_bundle\",%s,\"annot\":{\"sampleRate\":20000,\"levels\":[", key
    printf "{\"name\":\"Word\",\"type\":\"ITEM\",\"items\":["
    for (id = 3; id < 3 + words; id++) printf "%s{\"id\":%d}", comma(), id
    printf "]},{\"name\":\"Phonetic\",\"type\":\"SEGMENT\",\"items\":["
    printf "{\"id\":1,\"sampleStart\":3749,\"sampleDur\":1389,\"labels\":[%s]},", label("Phonetic", "V")
    printf "{\"id\":2,\"sampleStart\":5139,\"sampleDur\":1664,\"labels\":[%s,%s]}", label("Phonetic", "m"), label("Place", "lips")
    printf "]}],\"links\":["
    for (id = 3; id < 3 + words; id++) printf "%s{\"fromID\":%d,\"toID\":2}", comma(), id
    print "]}}"
    if (edits > 0) {
        printf "{\"s\":1,\"do\":\"edits\",%s,\"edits\":[", key
        for (edit = 1; edit <= edits; edit++)
            printf "{\"do\":\"set_label\",\"id\":1,\"attribute\":\"Phonetic\",\"value\":\"%s\"},", edit % 2 ? "a" : "b"
        print "{\"do\":\"merge\",\"id\":1}]}"
    } else
        print "{\"s\":1,\"do\":\"merge\"," key ",\"id\":1}"
    print "{\"s\":1,\"do\":\"undo\",\"line\":3}"
    print "{\"s\":1,\"do\":\"query\",\"eql\":\"[Phonetic == V -> Phonetic == m]\"}"
}'
