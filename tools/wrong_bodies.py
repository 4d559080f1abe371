#!/usr/bin/env python3
"""Tries wrong bodies of a crate: each is put into a copy of the crate, and the check of that has to be refused.

    tools/wrong_bodies.py CRATE [NAME..]      from the top of the repository

They stand in CRATE/must-fail, where the gate tries them too, and in CRATE/by-hand, where their ground is too dear for that. NAME is that of
an edit, without `.edit`; without one all are tried. What a check of the crate kept in its out/ is used, so `rt check` comes first.
"""
import glob
import os
import shutil
import sys
import tempfile

from ahead import crates_of, toolchain


def edits_of(crate, names):
    """The files of the crate's wrong bodies that are wanted."""
    found = sorted(glob.glob(f"{crate.folder}/must-fail/*.edit") + glob.glob(f"{crate.folder}/by-hand/*.edit"))
    return [it for it in found if not names or os.path.basename(it).removesuffix(".edit") in names]


def main():
    if len(sys.argv) < 2:
        sys.exit(__doc__)
    name, names = sys.argv[1], sys.argv[2:]
    rt, _ = toolchain()
    rt.rtlib.guarded()
    crate = next((it for it in crates_of(rt, os.getcwd()) if it.name == name), None)
    if crate is None:
        sys.exit(f"crates.txt lists no crate {name}")
    passed = 0
    for edit in edits_of(crate, names):
        with tempfile.TemporaryDirectory(prefix="wrong-bodies-") as room:
            kept = f"{room}/kept"
            if os.path.isdir(f"{crate.folder}/out/incremental"):
                shutil.copytree(f"{crate.folder}/out/incremental", kept)
            refused, told = rt.must_fail(crate, edit, ["--jobs", "1"], kept)
            print(told, flush=True)
            passed += not refused
    return 1 if passed else 0


if __name__ == "__main__":
    sys.exit(main())
