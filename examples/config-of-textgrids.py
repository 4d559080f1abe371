#!/usr/bin/env python3
"""config-of-textgrids.py NAME FILE.TextGrid..: the configuration of a database NAME whose levels are the tiers of these TextGrids.

Interval tiers become SEGMENT levels, point tiers EVENT levels, in order of first sight, each with one attribute of its name. With
`--links UPPER LOWER` before NAME, which may be repeated, a link definition ONE_TO_MANY leads from the level UPPER down to LOWER; the
links themselves are made by `link_times`, or one by one by links-from-times.jq.
"""
import json
import re
import sys

TIERS = {"IntervalTier": "SEGMENT", "TextTier": "EVENT"}


def text_of(path):
    with open(path, "rb") as file:
        data = file.read()
    if data[:2] in (b"\xfe\xff", b"\xff\xfe"):
        return data.decode("utf-16")
    try:
        return data.decode("utf-8-sig")
    except UnicodeDecodeError:
        sys.exit(f"{path}: neither UTF-8 nor UTF-16; try: iconv -f latin1 -t utf-8")


def tiers(path):
    """The class and the name of each tier, in order."""
    words = re.findall(r'"((?:[^"]|"")*)"', re.sub(r"^\s*!.*$", "", text_of(path), flags=re.M))
    for word, name in zip(words, words[1:]):
        if word in TIERS:
            yield TIERS[word], name.replace('""', '"')


def main(words):
    links = []
    while words[:1] == ["--links"]:
        links.append({"type": "ONE_TO_MANY", "superlevelName": words[1], "sublevelName": words[2]})
        words = words[3:]
    levels = {}
    for path in words[1:]:
        for kind, name in tiers(path):
            if levels.setdefault(name, kind) != kind:
                sys.exit(f"{path}: the tier {name} is of another class in an earlier file")
    print(json.dumps({
        "name": words[0],
        "levelDefinitions": [
            {"name": name, "type": kind, "attributeDefinitions": [{"name": name, "type": "STRING"}]} for name, kind in levels.items()
        ],
        "linkDefinitions": links,
    }, ensure_ascii=False))


if len(sys.argv) < 3:
    sys.exit(__doc__)
main(sys.argv[1:])
