#!/bin/sh
# make-history.sh EDITS: a script with one bundle and so many edits of one label after it, the label n and m in turn; and then an edit of
# an item that is there and one of an item that is not. With the bundle these are 100,000 edits, the most that a history has, where EDITS is 99999.
awk -v edits="$1" 'BEGIN {
    level = "{\"name\":\"Phonetic\",\"type\":\"SEGMENT\",\"attributeDefinitions\":[{\"name\":\"Phonetic\",\"type\":\"STRING\"}]}"
    print "{\"do\":\"config\",\"config\":{\"name\":\"t\",\"levelDefinitions\":[" level "],\"linkDefinitions\":[]}}"
    item = "{\"id\":2,\"sampleStart\":5139,\"sampleDur\":1664,\"labels\":[{\"name\":\"Phonetic\",\"value\":\"m\"}]}"
    print "{\"s\":1,\"do\":\"add_bundle\",\"session\":\"s1\",\"bundle\":\"b1\",\"annot\":{\"sampleRate\":20000,\"levels\":[" \
        "{\"name\":\"Phonetic\",\"type\":\"SEGMENT\",\"items\":[" item "]}],\"links\":[]}}"
    for (edit = 1; edit <= edits + 2; edit++)
        print "{\"s\":1,\"do\":\"set_label\",\"session\":\"s1\",\"bundle\":\"b1\",\"id\":" (edit == edits + 2 ? 9 : 2) \
            ",\"attribute\":\"Phonetic\",\"value\":\"" (edit % 2 ? "n" : "m") "\"}"
}'
