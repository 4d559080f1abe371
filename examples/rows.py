#!/usr/bin/env python3
"""Replies of emu as a table, from the folder of emu.store.

As a program, comma-separated values with a head:
    emu ask 'Phonetic == m' | python3 rows.py > rows.csv
    emu run --store < script.jsonl | python3 rows.py > rows.csv
From Python, as a DataFrame of pandas:
    from rows import ask
    segments = ask("Phonetic == m")
A refused query ends the program, so that an empty table is never a refused query.
"""
import csv
import json
import subprocess
import sys

NAMES = [
    "line", "session", "bundle", "level", "attribute", "labels", "start", "end", "sampleStart", "sampleEnd", "sampleRate",
    "startItem", "endItem", "startPos", "endPos",
]


def rows(lines):
    """The rows of replies, as dictionaries; times are whole microseconds, or None where an item has none."""
    for line in lines:
        reply = json.loads(line)
        if "refused" in reply or "cause" in reply:
            raise SystemExit("emu refused: " + line.strip())
        for row in reply.get("segments", []):
            yield {"line": reply.get("line"), **row}


def ask(eql, time=None, program="emu"):
    """The answer to a query as a DataFrame. Columns with missing times are whole numbers too (Int64, not floats)."""
    import pandas

    words = [program, "ask", eql] + ([f"--time={time}"] if time else [])
    done = subprocess.run(words, stdout=subprocess.PIPE, text=True)
    if done.returncode not in (0, 10):
        raise SystemExit(f"emu ended with status {done.returncode}: {done.stdout.strip()}")
    table = pandas.DataFrame(rows(done.stdout.splitlines()), columns=NAMES[1:])
    return table.astype({name: "Int64" for name in NAMES[6:]})


if __name__ == "__main__":
    replies = sys.stdin.readlines()
    if not replies:
        raise SystemExit("emu gave no reply: see its status")
    table = list(rows(replies))
    out = csv.DictWriter(sys.stdout, NAMES, lineterminator="\n")
    out.writeheader()
    out.writerows(table)
