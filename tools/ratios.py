#!/usr/bin/env python3
"""Prints how what `emu run` takes grows with its input, as ratios of one run.

    tools/ratios.py BINARY [--instructions]

Each figure is that of a script with lines less that of the same script without them: the least time of five runs in turns, or with
--instructions the instructions that `valgrind` counts, which no neighbour changes.
"""
import json
import os
import re
import subprocess
import sys
import time

RUNS = 5

# So that long copies go by words: of an instruction that goes by bytes valgrind counts each byte.
WORDS = ":".join(f"glibc.cpu.x86_rep_{it}_threshold=1000000000" for it in ("movsb", "stosb"))
ENVIRONMENT = {**os.environ, "GLIBC_TUNABLES": WORDS}
QUERIES = {
    "label": "[Phonetic == a]",
    "sequence": "[[Phonetic == e] -> [Phonetic == i]]",
    "dominance": "[Word == w ^ Phonetic == a]",
    "position": "[Phonetic == e & Start(Word, Phonetic) == 1]",
}


DEEP_LEVELS = ("Utterance", "Word", "Syllable", "Phonetic")
DEEP_QUERIES = {
    "dominance": "[Word == w ^ Phonetic == a]",
    "dominance upwards": "[Phonetic == a ^ Word == w]",
    "dominance from the top": "[Utterance == u ^ Phonetic == a]",
    "position": "[Phonetic == a & Start(Word, Phonetic) == 1]",
    "number": "[Num(Word, Phonetic) == 6]",
    "times": "[Word == w]",
}


def level(name, kind):
    """A level with one attribute, which has its name."""
    return {"name": name, "type": kind, "attributeDefinitions": [{"name": name, "type": "STRING"}]}


def configuration(names=("Word", "Phonetic")):
    """ITEM levels, each over the next one, and segments last."""
    links = [{"type": "ONE_TO_MANY", "superlevelName": upper, "sublevelName": lower} for upper, lower in zip(names, names[1:])]
    levels = [level(name, "ITEM") for name in names[:-1]] + [level(names[-1], "SEGMENT")]
    return {"do": "config", "config": {"name": "work", "levelDefinitions": levels, "linkDefinitions": links}}


def item(number, name, label, **time_of):
    """An item with one label."""
    return {"id": number, **time_of, "labels": [{"name": name, "value": label}]}


def bundle(number, segments, links=None, words=None):
    """A bundle of so many segments, the first of which are linked to words; each word has four of them unless said otherwise."""
    words = words or segments // 4
    links = segments if links is None else links
    lower = [item(at + 1, "Phonetic", "aeiou"[at % 5], sampleStart=100 * at, sampleDur=99) for at in range(segments)]
    upper = [item(100_001 + at, "Word", "w") for at in range(words)]
    joined = [{"fromID": 100_001 + at * words // segments, "toID": at + 1} for at in range(links)]
    levels = [{"name": "Word", "type": "ITEM", "items": upper}, {"name": "Phonetic", "type": "SEGMENT", "items": lower}]
    annot = {"name": f"b{number}", "annotates": "", "sampleRate": 16000, "levels": levels, "links": joined}
    return {"s": 1, "do": "add_bundle", "session": "work", "bundle": f"b{number:05}", "annot": annot}


def deep_bundle(number, segments):
    """A bundle of one utterance, whose words have three syllables and whose syllables have two segments."""
    lower = [item(at + 1, "Phonetic", "aeiou"[at % 5], sampleStart=100 * at, sampleDur=99) for at in range(segments)]
    syllables = [item(100_001 + at, "Syllable", "SW"[at % 2]) for at in range(segments // 2)]
    words = [item(200_001 + at, "Word", "wwx"[at % 3]) for at in range(segments // 6)]
    joined = [{"fromID": 300_001, "toID": it["id"]} for it in words]
    joined += [{"fromID": 200_001 + at // 3, "toID": it["id"]} for at, it in enumerate(syllables)]
    joined += [{"fromID": 100_001 + at // 2, "toID": it["id"]} for at, it in enumerate(lower)]
    items = ([item(300_001, "Utterance", "u")], words, syllables, lower)
    kinds = ("ITEM", "ITEM", "ITEM", "SEGMENT")
    levels = [{"name": name, "type": kind, "items": its} for name, kind, its in zip(DEEP_LEVELS, kinds, items)]
    annot = {"name": f"b{number}", "annotates": "", "sampleRate": 16000, "levels": levels, "links": joined}
    return {"s": 1, "do": "add_bundle", "session": "work", "bundle": f"b{number:05}", "annot": annot}


def deep_bundles(count, segments):
    """Their configuration, and bundles under it."""
    return [configuration(DEEP_LEVELS), *(deep_bundle(number, segments) for number in range(count))]


def bundles(count, segments, **more):
    return [bundle(number, segments, **more) for number in range(count)]


def queries(eql, count):
    return [{"s": 1, "do": "query", "eql": eql}] * count


def labels(segments, count):
    """Lines that set the label of one segment after another of the first bundle."""
    key = {"s": 1, "do": "set_label", "session": "work", "bundle": "b00000", "attribute": "Phonetic"}
    return [{**key, "id": at % segments + 1, "value": "aeiou"[at % 4]} for at in range(count)]


class Meter:
    """Runs scripts, and tells what they take."""

    def __init__(self, binary, counts):
        self.binary, self.counts = binary, counts

    def once(self, script):
        begin = time.perf_counter()
        words = ["valgrind", "--tool=callgrind", "--callgrind-out-file=/dev/null"] if self.counts else []
        how = {"stdout": subprocess.DEVNULL, "stderr": subprocess.PIPE, "env": ENVIRONMENT if self.counts else None}
        done = subprocess.run([*words, self.binary, "run"], input=script, check=True, **how)
        if self.counts:
            return int(re.search(rb"refs: +([\d,]+)", done.stderr)[1].replace(b",", b""))
        return time.perf_counter() - begin

    def take(self, cases):
        """What the lines of each case take beside what stands before them, by name."""
        scripts = {}
        for name, (before, lines) in cases.items():
            first = [] if before and before[0]["do"] == "config" else [configuration()]
            texts = [json.dumps(it) for it in [*first, *before]]
            more = [json.dumps(it) for it in lines]
            scripts[name] = ["\n".join(it + [""]).encode() for it in (texts, texts + more)]
        least = {}
        for _ in range(1 if self.counts else RUNS):
            for name, pair in scripts.items():
                took = [self.once(it) for it in pair]
                least[name] = [min(a, b) for a, b in zip(least.get(name, took), took)]
        return {name: more - without for name, (without, more) in least.items()}

    def ratio(self, what, case, other):
        """Prints what a case takes where another one takes 1."""
        took = self.take({"case": case, "other": other})
        print(f"{what}: {took['case'] / took['other']:.2f}", flush=True)


def main(words):
    meter = Meter(words[0], "--instructions" in words[1:])
    for segments, count in ((88, 20), (880, 8), (8800, 2)):
        loaded = bundles(count, segments)
        on_words, on_segments = ((loaded, queries(f"[{name} == zz]", 50)) for name in ("Word", "Phonetic"))
        meter.ratio(f"a query that finds nothing on Word to one on Phonetic, {segments} segments", on_words, on_segments)
    for name, eql in QUERIES.items():
        asked = queries(eql, 50)
        meter.ratio(f"{name}: 80 bundles to 40", (bundles(80, 24), asked), (bundles(40, 24), asked))
        for few in (240, 480, 1_200):
            meter.ratio(f"{name}: {2 * few} segments a bundle to {few}", (bundles(4, 2 * few), asked), (bundles(4, few), asked))
        for count, links in ((20, 120), (4, 480)):
            more, fewer = (bundles(count, 2 * links), asked), (bundles(count, 2 * links, links=links), asked)
            meter.ratio(f"{name}: {2 * links} links a bundle to {links}", more, fewer)
        fewer, more = ((bundles(20, 280, links=links), asked) for links in (120, 140))
        meter.ratio(f"{name}: 140 links a bundle to 120", more, fewer)
    for name, eql in DEEP_QUERIES.items():
        asked = queries(eql, 20)
        for few in (240, 480, 1_920):
            case, other = (deep_bundles(2, 2 * few), asked), (deep_bundles(2, few), asked)
            meter.ratio(f"{name}, with levels between: {2 * few} segments a bundle to {few}", case, other)
    meter.ratio("loading: 400 bundles to 200", ([], bundles(400, 24)), ([], bundles(200, 24)))
    meter.ratio("loading: 960 segments a bundle to 480", ([], bundles(8, 960)), ([], bundles(8, 480)))
    finish = [{"s": 1, "do": "finish"}] * 2000
    meter.ratio("`set_label` on 24 segments to `finish`", (bundles(1, 24), labels(24, 2000)), (bundles(1, 24), finish))
    many, few = ((bundles(1, segments), labels(segments, 200)) for segments in (10_000, 1_000))
    meter.ratio("`set_label` on 10,000 segments to one on 1,000", many, few)


if __name__ == "__main__":
    main(sys.argv[1:])
