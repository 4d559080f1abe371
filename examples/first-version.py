#!/usr/bin/env python3
"""first-version.py BINARY: a store of the first version, with one entry or more of each number from 1 to 12.

Its bytes are put together here by hand, as docs/STORE.md has them. They stand for the same history as ever, no command
that reads writes a byte of them anew, and a run only puts entries after them. The last line says how many checks
agreed; the status is 0 where all did.
"""
import os
import subprocess
import sys
import tempfile

KEY = "00000002 7331 00000002 6231"  # s1, b1
OTHER = "00000002 7331 00000002 6232"  # s1, b2

# The configuration t: the levels Word (ITEM), Phonetic (SEGMENT) and Tone (EVENT), each with one attribute of its name,
# and one-to-many links from Word to Phonetic.
HEAD = """
00  00000001 74  00000000  00000000  00000000
00000003
  00000004 576f7264 00  00000001  00000004 576f7264 00 00000000
  00000008 50686f6e65746963 01  00000001  00000008 50686f6e65746963 00 00000000
  00000004 546f6e65 02  00000001  00000004 546f6e65 00 00000000
00000000
00000001  01 00000000 00000001
"""

# The number of each edit with its name, and what stands after session and line.
EDITS = [
    ("add_bundle", f"""01 {KEY}  00000000 0000000000004e20
        00000002
          00000008 50686f6e65746963 01  00000002
            00000001 01 0000000000000000 0000000000000063  00000001 00000008 50686f6e65746963 00000001 56
            00000002 01 0000000000000064 0000000000000031  00000001 00000008 50686f6e65746963 00000001 6d
          00000004 546f6e65 02  00000001
            00000003 02 0000000000000032  00000001 00000004 546f6e65 00000001 48
        00000000"""),
    ("add_bundle", f"01 {OTHER}  00000000 0000000000004e20  00000000  00000000"),
    ("drop_bundle", f"02 {OTHER}"),
    ("add_item", f"03 {KEY}  00000004 576f7264  00  00000004 00  00000001 00000004 576f7264 00000001 77"),
    ("add_item", f"03 {KEY}  00000004 576f7264  01 00000000  00000005 00  00000001 00000004 576f7264 00000001 78"),
    ("remove_item", f"04 {KEY}  00000005"),
    ("set_label", f"05 {KEY}  00000001 00000008 50686f6e65746963 00000001 61"),
    ("set_segment", f"06 {KEY}  00000002 0000000000000064 000000000000003b"),
    ("move_boundary", f"07 {KEY}  00000001 000000000000005a"),
    ("set_point", f"08 {KEY}  00000003 000000000000003c"),
    ("split", f"09 {KEY}  00000002 00000006 0000000000000078"),
    ("merge", f"0a {KEY}  00000002"),
    ("add_link", f"0b {KEY}  00000004 00000001"),
    ("add_link", f"0b {KEY}  00000004 00000002"),
    ("remove_link", f"0c {KEY}  00000004 00000002"),
]

# What the words of b1 reach then: the segment a, cut at sample 90.
ROW = (
    '{"attribute":"Word","bundle":"b1","end":4475,"endItem":4,"endPos":0,"labels":"w","level":"Word","sampleEnd":89,'
    '"sampleRate":20000,"sampleStart":0,"session":"s1","start":0,"startItem":4,"startPos":0}'
)
MORE = '{"s":2,"do":"set_label","session":"s1","bundle":"b1","id":4,"attribute":"Word","value":"y"}\n'


def body(hexes):
    """A body with the gate byte before it and its length."""
    bytes_of = bytes.fromhex("".join(hexes.split()))
    return b"\1" + len(bytes_of).to_bytes(4, "big") + bytes_of


def store():
    """The bytes of the store: session 1, lines 2 and on."""
    entries = [body(f"01 00000001 {line:08x} {rest}") for line, (_, rest) in enumerate(EDITS, 2)]
    return b"".join([b"EMUSTORE", body(HEAD), *entries, b"\0"])


def history():
    """What `history` shows of it."""
    lines = [f'{{"at":{at},"do":"{name}","line":{at + 1},"s":1}}\n' for at, (name, _) in enumerate(EDITS, 1)]
    return "".join(lines)


def main():
    binary, whole = os.path.realpath(sys.argv[1]), store()
    agree, differ = 0, 0
    with tempfile.TemporaryDirectory() as folder:
        place = os.path.join(folder, "emu.store")
        with open(place, "wb") as file:
            file.write(whole)

        def expect(words, stdin, wanted, kept):
            nonlocal agree, differ
            ran = subprocess.run([binary, *words], cwd=folder, input=stdin.encode(), capture_output=True, check=False)
            with open(place, "rb") as file:
                now = file.read()
            found = ran.returncode, ran.stdout.decode()
            if found == (0, wanted) and kept(now):
                agree += 1
            else:
                differ += 1
                print(f"{words}: {found}, wanted {(0, wanted)}; the store is kept: {kept(now)}")

        expect(["history"], "", history(), lambda now: now == whole)
        expect(["ask", "[Word == w ^ Phonetic == a]"], "", f'{{"n":15,"segments":[{ROW}]}}\n', lambda now: now == whole)
        expect(["run", "--store"], MORE, '{"line":1,"n":16,"ok":"set_label"}\n', lambda now: now.startswith(whole[:-1]) and len(now) > len(whole))
        expect(["history"], "", history() + '{"at":16,"do":"set_label","line":1,"s":2}\n', lambda now: len(now) > len(whole))
    print(f"first-version.py: {agree} agree, {differ} do not")
    return 1 if differ else 0


if __name__ == "__main__":
    sys.exit(main())
