#!/usr/bin/env python3
"""Refills the paragraphs and list entries of documents that have a line over 140 columns; all else stays.

    tools/wrap_docs.py FILE.md ..
"""
import re
import sys
import textwrap

WIDTH = 140
FILL = 136
ENTRY = re.compile(r" *(?:[-*]|\d+\.) +")


def stands(line):
    """Lines that are no running text: tables, headings, code."""
    return not line.strip() or line.startswith(("|", "#", "```", "    ")) and not ENTRY.match(line)


def refilled(lines):
    """A paragraph or a list entry, filled anew where one of its lines is too wide."""
    if all(len(it) <= WIDTH for it in lines):
        return lines
    entry = ENTRY.match(lines[0])
    first = entry.group() if entry else ""
    text = " ".join([lines[0][len(first):], *(it.strip() for it in lines[1:])])
    return textwrap.wrap(
        text, FILL, initial_indent=first, subsequent_indent=" " * len(first), break_long_words=False, break_on_hyphens=False
    )


def wrapped(lines):
    out, block, fenced = [], [], False
    for line in lines:
        fenced ^= line.startswith("```")
        goes_on = block and line.startswith("    ") and not ENTRY.match(line) and ENTRY.match(block[0])
        if fenced or stands(line) and not goes_on:
            out += [*refilled(block), line]
            block = []
        elif block and ENTRY.match(line):
            out += refilled(block)
            block = [line]
        else:
            block.append(line)
    return out + refilled(block)


for path in sys.argv[1:]:
    with open(path, encoding="utf-8") as file:
        old = file.read().split("\n")
    new = wrapped(old)
    if new != old:
        with open(path, "w", encoding="utf-8") as file:
            file.write("\n".join(new))
