#!/usr/bin/env python3
"""Looks over the documents: links, widths, the words and the edits that they name.

    tools/check_docs.py     prints what is wrong, and ends with 1 where something is
"""
import os
import re
import sys

WIDTH = 140
GUARDS = ("Guarded by", "Wrong body that guards it")
FREE = re.compile(r"(none|(a )?law|each|the same|those above)\b|as `[a-z_]+`$")
NAMED = re.compile(r"`(?:(?!specs/|proofs/)([a-z_0-9]+)/)?(?:specs/)?((?:Inner/)?[A-Z][A-Za-z0-9]*)\.antt`((?:[:,]? (?:and )?`[^`]+`(?=[:,;. )|]|$))*)")


def text_of(path):
    with open(path, encoding="utf-8", errors="replace") as file:
        return file.read()


def tracked(endings):
    for at, folders, names in os.walk("."):
        folders[:] = sorted(it for it in folders if it not in (".git", "out"))
        yield from (f"{at}/{name}"[2:] for name in sorted(names) if name.endswith(endings))


def words_of_code():
    """Each identifier of code and definitions, and each word in quotes there."""
    words = set()
    for path in tracked((".rt", ".antt", ".jsonl", ".sh", ".py", ".json", "crates.txt", ".edit")):
        words.update(re.findall(r"[A-Za-z_][A-Za-z_0-9]*", text_of(path)))
    return words


def crate_of(path):
    parts = path.split("/")
    return parts[1] if parts[0] == "crates" else None


def definition_files(crate, name):
    """The files of that name in `specs/` of the crate, or of any where none is said."""
    crates = [crate] if crate else sorted(os.listdir("crates"))
    found = [f"crates/{it}/specs/{name}.antt" for it in crates]
    return [it for it in found if os.path.isfile(it)]


def of_links(path, line):
    for target in re.findall(r"\]\(([^)#\s]+)[^)]*\)", line):
        if "://" not in target and not os.path.exists(os.path.join(os.path.dirname(path), target)):
            yield f"no file `{target}`"
    for target in re.findall(r"`((?:docs|crates|examples|tools)/[A-Za-z0-9_./-]+)`", line):
        if not os.path.exists(target) and "NAME" not in target:
            yield f"no file `{target}`"


def of_definitions(path, line):
    for crate, name, words in NAMED.findall(line):
        files = definition_files(crate or crate_of(path), name) or (definition_files(None, name) if not crate else [])
        if not files:
            yield f"no file `{name}.antt`"
            continue
        known = "\n".join(text_of(it) for it in files)
        for word in re.findall(r"`([A-Za-z_][A-Za-z_0-9]*)`", words):
            if not re.search(rf"\b{word}\b", known):
                yield f"`{name}.antt` has no `{word}`"


def of_words(line, words):
    for word in re.findall(r"`([A-Za-z_][A-Za-z_0-9]*(?:::[a-z_]+)?)`", line):
        if not all(part in words for part in word.split("::")):
            yield f"`{word}` stands nowhere in the code"


def guards_of(path, cell, edits, crates):
    """What is wrong with a guard: it names edits of its own crate, crates that have some, crates of tests or examples, or says that there is none."""
    cell = cell.strip()
    if not cell.strip("-: ") or FREE.match(cell):
        return
    own, named = crate_of(path), False
    for word in re.findall(r"[a-z0-9]+(?:[-_][a-z0-9]+)+", re.sub(r"`examples/[^`]*`", "", cell)):
        named = True
        if word in crates:
            if not word.startswith("test_") and word not in set().union(*edits.values()):
                yield f"`{word}` has no edit"
        elif word not in edits:
            yield f"no edit `{word}`"
        elif own and own not in edits[word]:
            yield f"`{word}` is no edit of `{own}`"
    if not named and "`examples/" not in cell:
        yield f"no guard: {cell}"


def of_guards(path, header, line, edits, crates):
    """What stands in a column of guards has to be there."""
    cells = re.split(r"(?<!\\)\|", line)
    for place, title in enumerate(header.split("|")):
        if place < len(cells) and any(it in title for it in GUARDS):
            yield from guards_of(path, cells[place], edits, crates)


def main():
    os.chdir(os.path.dirname(os.path.dirname(os.path.abspath(__file__))))
    words = words_of_code()
    crates = set(os.listdir("crates"))
    edits = {}
    for it in tracked(".edit"):
        edits.setdefault(os.path.basename(it)[:-5], set()).add(crate_of(it))
    words |= set(edits)
    faults = []
    for path in tracked(".md"):
        header, fenced = "", False
        for number, line in enumerate(text_of(path).split("\n"), 1):
            fenced ^= line.startswith("```")
            told = []
            if len(line) > WIDTH and not line.startswith("|") and not fenced:
                told.append(f"{len(line)} columns")
            if line.startswith("|") and not header:
                header = line
            elif not line.startswith("|"):
                header = ""
            told += of_links(path, line)
            if line != header:
                told += of_guards(path, header, line, edits, crates)
            if path == "docs/PROMISES.md" or path.startswith("crates/"):
                told += of_definitions(path, line)
            if path == "docs/PROMISES.md" or path.startswith("crates/") and not path.endswith("PROOF-NOTES.md"):
                told += of_words(line, words)
            faults += [f"{path}:{number}: {it}" for it in told]
    print("\n".join(faults) or "the documents name what is there")
    return 1 if faults else 0


if __name__ == "__main__":
    sys.exit(main())
