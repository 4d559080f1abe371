#!/usr/bin/env python3
"""through-praat.py BINARY: what Praat makes of the TextGrids that emu writes (`praat` has to be on the path).

At each of several rates bundles are made up, written by `emu textgrid`, opened and saved by Praat, and imported again. They
have to have the items that an import of the file as emu wrote it has. The last line says how many did; the status is 0
where all did.
"""
import json
import os
import random
import subprocess
import sys
import tempfile

RATES = (3, 7, 11025, 16000, 20000, 22050, 44100, 48000, 96000, 999983, 1000000)
SAVES = """form Files
  text from
  text to
endform
Read from file: from$
Save as text file: to$
"""


def level(name, kind):
    return {"name": name, "type": kind, "attributeDefinitions": [{"name": name, "type": "STRING"}]}


CONFIG = {"do": "config", "config": {"name": "t", "levelDefinitions": [level("Phonetic", "SEGMENT"), level("Tone", "EVENT")], "linkDefinitions": []}}


def annotation(rate, longest):
    """300 segments of at most so many samples, with gaps and without, and 100 points."""
    segments, points, at = [], [], random.randrange(5)
    for place in range(300):
        length = random.randrange(longest)
        labels = [{"name": "Phonetic", "value": random.choice(["a", '"q"', "\u026a", "", "x y", "{"])}]
        segments.append({"id": place + 1, "sampleStart": at, "sampleDur": length, "labels": labels})
        at += length + 1 + random.choice([0, 0, random.randrange(1, longest)])
    at = 0
    for place in range(100):
        at += random.randrange(1, longest)
        points.append({"id": 301 + place, "samplePoint": at, "labels": [{"name": "Tone", "value": random.choice(["H", "L*", '"'])}]})
    levels = [{"name": "Phonetic", "type": "SEGMENT", "items": segments}, {"name": "Tone", "type": "EVENT", "items": points}]
    return {"sampleRate": rate, "levels": levels}


def ran(words, folder, stdin=b""):
    done = subprocess.run(words, cwd=folder, input=stdin, capture_output=True, check=False)
    if done.returncode:
        sys.exit(f"{words}: status {done.returncode}, {(done.stdout + done.stderr)[:300]}")
    return done.stdout


def items_of(binary, bundle, folder):
    """The items of a bundle, without their ids."""
    found = json.loads(ran([binary, "export", "s1", bundle], folder))["levels"]
    return [[{name: it[name] for name in it if name != "id"} for it in level["items"]] for level in found]


def is_same(binary, rate, longest):
    with tempfile.TemporaryDirectory() as folder:
        lines = [CONFIG, {"s": 1, "do": "add_bundle", "session": "s1", "bundle": "b1", "annot": annotation(rate, longest)}]
        ran([binary, "run", "--store"], folder, "\n".join(map(json.dumps, lines)).encode())
        with open(os.path.join(folder, "own.TextGrid"), "wb") as file:
            file.write(ran([binary, "textgrid", "s1", "b1"], folder))
        with open(os.path.join(folder, "saves.praat"), "w", encoding="utf-8") as file:
            file.write(SAVES)
        places = [os.path.join(folder, name) for name in ("own.TextGrid", "saved.TextGrid")]
        ran(["praat", "--run", "saves.praat", *places], folder)
        for bundle, name in (("b2", "own.TextGrid"), ("b3", "saved.TextGrid")):
            ran([binary, "import", "s1", bundle, str(rate), name], folder)
        return items_of(binary, "b2", folder) == items_of(binary, "b3", folder)


def main():
    binary = os.path.realpath(sys.argv[1])
    random.seed(1)
    found = [is_same(binary, rate, longest) for rate in RATES for longest in (50, 500, 5000)]
    print(f"through-praat.py: {found.count(True)} same, {found.count(False)} not")
    return 0 if all(found) else 1


if __name__ == "__main__":
    sys.exit(main())
