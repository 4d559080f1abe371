#!/bin/sh
# make-script.sh BUNDLES LINES: a script of so many lines, with one configuration, so many bundles of 30 segments, and then
# queries that find nothing.
awk -v bundles="$1" -v lines="$2" 'BEGIN {
    level = "{\"name\":\"Phonetic\",\"type\":\"SEGMENT\",\"attributeDefinitions\":[{\"name\":\"Phonetic\",\"type\":\"STRING\"}]}"
    print "{\"do\":\"config\",\"config\":{\"name\":\"t\",\"levelDefinitions\":[" level "],\"linkDefinitions\":[]}}"
    items = ""
    for (id = 1; id <= 30; id++) {
        label = "{\"name\":\"Phonetic\",\"value\":\"" substr("aeioumnptkbdg", id % 13 + 1, 1) "\"}"
        items = items (id > 1 ? "," : "") \
            "{\"id\":" id ",\"sampleStart\":" 1000 * id ",\"sampleDur\":999,\"labels\":[" label "]}"
    }
    level = "{\"name\":\"Phonetic\",\"type\":\"SEGMENT\",\"items\":[" items "]}"
    annot = "\"sampleRate\":20000,\"levels\":[" level "],\"links\":[]}"
    for (line = 2; line <= bundles + 1; line++) {
        name = sprintf("b%06d", line - 1)
        print "{\"s\":1,\"do\":\"add_bundle\",\"session\":\"s1\",\"bundle\":\"" name "\",\"annot\":{\"name\":\"" name \
            "\",\"annotates\":\"" name ".wav\"," annot "}"
    }
    for (; line <= lines; line++)
        print "{\"s\":" line % 16 + 1 ",\"do\":\"query\",\"eql\":\"Phonetic == x\"}"
}'
