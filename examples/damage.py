#!/usr/bin/env python3
"""damage.py BINARY: stores that are cut or altered, and what `emu history` says of them.

The store is that of first-query.jsonl, made by `emu run --store`. Where it is damaged is worked out here from its bytes
alone, as docs/STORE.md has their form. The last line says how many agreed; the status is 0 where all did.
"""
import json
import os
import subprocess
import sys
import tempfile

HERE = os.path.dirname(os.path.realpath(__file__))
MAGIC = b"EMUSTORE"


def gates_of(store):
    """The places of the gate bytes of a whole store."""
    gates = [len(MAGIC)]
    while store[gates[-1]] == 1:
        length = int.from_bytes(store[gates[-1] + 1:gates[-1] + 5], "big")
        gates.append(gates[-1] + 5 + length)
    return gates


def place_of_cut(gates, length):
    """Where a store that is cut to this length is damaged."""
    return length if length in gates else max(gate for gate in gates if gate < length)


def cases_of(store):
    """Each changed store with its name and what is said of it: the place of the damage, or None where no body counts."""
    gates = gates_of(store)
    for length in range(len(MAGIC) + 2):
        yield f"cut to {length}", store[:length], None
    for length in range(len(MAGIC) + 2, len(store)):
        yield f"cut to {length}", store[:length], place_of_cut(gates, length)
    for at, value, place in ((0, 0, 0), (9, 255, 8), (13, 9, 8), (8, 0, None)):
        changed = bytearray(store)
        changed[at] = value
        yield f"byte {at} is {value}", bytes(changed), place


def said_of(binary, folder, store):
    """The status of `history` over these bytes, and what it writes."""
    with open(os.path.join(folder, "emu.store"), "wb") as file:
        file.write(store)
    ran = subprocess.run([binary, "history"], cwd=folder, stdin=subprocess.DEVNULL, capture_output=True, check=False)
    return ran.returncode, ran.stdout.decode()


def wanted_of(place):
    if place is None:
        return 10, '{"cause":"NoConfiguration","status":10}\n'
    return 7, f'{{"at":{place},"cause":"Damaged","status":7}}\n'


def main():
    binary = os.path.realpath(sys.argv[1])
    agree, differ = 0, 0
    with tempfile.TemporaryDirectory() as folder:
        with open(os.path.join(HERE, "first-query.jsonl"), "rb") as script:
            subprocess.run([binary, "run", "--store"], cwd=folder, stdin=script, stdout=subprocess.DEVNULL, check=True)
        with open(os.path.join(folder, "emu.store"), "rb") as file:
            store = file.read()
        status, history = said_of(binary, folder, store)
        whole = status == 0 and [json.loads(line)["at"] for line in history.splitlines()] == [1]
        if not whole or gates_of(store)[-1] != len(store) - 1:
            print(f"the whole store: status {status}, {history!r}")
            differ += 1
        for name, changed, place in cases_of(store):
            found = said_of(binary, folder, changed)
            if found == wanted_of(place):
                agree += 1
            else:
                differ += 1
                print(f"{name}: {found}, wanted {wanted_of(place)}")
    print(f"damage.py: {agree} agree, {differ} do not")
    return 1 if differ else 0


if __name__ == "__main__":
    sys.exit(main())
