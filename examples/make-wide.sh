#!/bin/sh
# make-wide.sh UPPER LOWER: a script with one bundle, in which so many items `a` stand above one item, and so many items `b` below
# it; and then queries for them. A dominance of the two has UPPER * LOWER tuples where the item below has the mark, and at most
# 1,000,000 are answered: 1000 1000 gives the LOWER items, each once, and 1001 1000 gives TooManyTuples. Where the mark is on the
# left, and where there is none, it has as many tuples as results.
awk -v upper="$1" -v lower="$2" '
function attribute(name) { return "{\"name\":\"" name "\",\"type\":\"ITEM\",\"attributeDefinitions\":[{\"name\":\"" name "\"}]}" }
function linked(above, below) {
    return "{\"type\":\"MANY_TO_MANY\",\"superlevelName\":\"" above "\",\"sublevelName\":\"" below "\"}"
}
function items(level, label, first, count,    text, id) {
    for (id = first; id < first + count; id++)
        text = text (id > first ? "," : "") "{\"id\":" id ",\"labels\":[{\"name\":\"" level "\",\"value\":\"" label "\"}]}"
    return "{\"name\":\"" level "\",\"type\":\"ITEM\",\"items\":[" text "]}"
}
function link(from, to) { links = links (links ? "," : "") "{\"fromID\":" from ",\"toID\":" to "}" }
function query(eql) { print "{\"s\":1,\"do\":\"query\",\"eql\":\"" eql "\"}" }
BEGIN {
    print "{\"do\":\"config\",\"config\":{\"name\":\"wide\",\"levelDefinitions\":[" attribute("A") "," attribute("M") "," \
        attribute("B") "],\"linkDefinitions\":[" linked("A", "M") "," linked("M", "B") "]}}"
    for (id = 2; id < 2 + upper; id++) link(id, 1)
    for (; id < 2 + upper + lower; id++) link(1, id)
    print "{\"s\":1,\"do\":\"add_bundle\",\"session\":\"s1\",\"bundle\":\"b1\",\"annot\":{\"sampleRate\":20000,\"levels\":[" \
        items("A", "a", 2, upper) "," items("M", "m", 1, 1) "," items("B", "b", 2 + upper, lower) "],\"links\":[" links "]}}"
    query("[A == a ^ #B == b]")
    query("[#B == b ^ A == a]")
    query("[A == a ^ B == b]")
}'
