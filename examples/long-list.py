#!/usr/bin/env python3
"""long-list.py BINARY: asks for lists of many rows, by `run` and by `live` with three workers, and compares each reply byte by byte with one
that is made here from the bundles. A list of more than 256 rows is written in parts; so there are lists around that number, over one
bundle, over bundles of one segment each, and over bundles of which some have no row."""
import json
import subprocess
import sys

RATE = 20000
LEVEL = {"name": "Phonetic", "type": "SEGMENT", "attributeDefinitions": [{"name": "Phonetic", "type": "STRING"}]}
CONFIG = {"do": "config", "config": {"name": "long", "levelDefinitions": [LEVEL], "linkDefinitions": []}}
QUERY = {"s": 1, "do": "query", "eql": "Phonetic == a"}


def added(name, labels):
    """The line that adds a bundle with a segment of 50 samples for each label."""
    items = [{"id": k + 1, "sampleStart": 50 * k + 7, "sampleDur": 49, "labels": [{"name": "Phonetic", "value": label}]} for k, label in enumerate(labels)]
    levels = [{"name": "Phonetic", "type": "SEGMENT", "items": items}]
    return {"s": 1, "do": "add_bundle", "session": "s", "bundle": name, "annot": {"name": name, "sampleRate": RATE, "levels": levels, "links": []}}


def rows_of(name, labels):
    """The rows of the segments with the label: a segment is from half a sample before its first one to half a sample behind its last."""
    half = 1_000_000 // (2 * RATE)
    for k, label in enumerate(labels):
        if label == "a":
            first, last = 50 * k + 7, 50 * k + 56
            yield {"attribute": "Phonetic", "bundle": name, "end": (2 * last + 1) * half, "endItem": k + 1, "endPos": k, "labels": "a", "level": "Phonetic",
                   "sampleEnd": last, "sampleRate": RATE, "sampleStart": first, "session": "s", "start": (2 * first - 1) * half, "startItem": k + 1, "startPos": k}


def text(value):
    return json.dumps(value, separators=(",", ":"))


def differs(binary, words, bundles):
    """Whether the reply to the query over these bundles is another one than that which is made here."""
    script = "".join(text(it) + "\n" for it in [CONFIG, *[added(*it) for it in bundles], QUERY])
    wrote = subprocess.run([binary, *words], input=script.encode(), capture_output=True).stdout.decode()
    number = len(bundles) + 2
    rows = [row for it in bundles for row in rows_of(*it)]
    wanted = text({"line": number, "n": len(bundles), "segments": rows})
    found = [it for it in wrote.split("\n") if it.startswith('{"line":%d,' % number)]
    return found != [wanted]


def main():
    binary = sys.argv[1]
    one = [[("b", "a" * count)] for count in (1, 127, 128, 129, 255, 256, 257, 258, 1000)]
    many = [[(f"b{k:04}", "a") for k in range(count)] for count in (256, 257, 384, 700)]
    some = [[(f"b{k:04}", "xa" * (k % 5) + "x") for k in range(400)], [(f"b{k:04}", "ab" * 60) for k in range(40)], [("b", "x")]]
    failed = 0
    for words in (["run"], ["live", "--workers", "3"]):
        for bundles in one + many + some:
            if differs(binary, words, bundles):
                failed += 1
                print(f"long-list.py: {' '.join(words)}, {len(bundles)} bundles: another reply")
    return 1 if failed else 0


if __name__ == "__main__":
    sys.exit(main())
