# A picture of the levels and links of a bundle, for the program dot of Graphviz:
#   emu export S B | jq -r -f hierarchy.jq | dot -Tsvg > bundle.svg
# Each level is a row, with its name at the left; an item shows its labels, and the items stand in their order.
"digraph {", "node [shape=plaintext]",
(.levels | to_entries[]
 | "{rank=same; edge [style=invis]; level\(.key) [label=\(.value.name | tojson)]; "
   + ([.value.items[] | "\(.id) [label=\([.labels[].value] | join(" / ") | tojson)]; "] | add // "")
   + (["level\(.key)", (.value.items[].id | tostring)] | join(" -> ")) + "}"),
"{edge [style=invis]; " + ([range(.levels | length) | "level\(.)"] | join(" -> ")) + "}",
(.links[] | "\(.fromID) -> \(.toID)"),
"}"
