#!/usr/bin/env python3
"""What the gate costs: runs a command, and adds up the processor seconds of the prover by crate and kind of check.

    tools/gate_times.py                 runs rt ci, and prints the table when it ends
    tools/gate_times.py COMMAND WORD..  the same of another command
    tools/gate_times.py --watch         runs nothing, and prints the table of every `rt ci` again each minute until it is interrupted

A row has the seconds for the library or program, for its tests, and for its edits with their ground.
Read once a second from /proc, so a check that ends within a second may be missed.
"""
import collections
import os
import subprocess
import sys
import time

KINDS = ("library", "tests", "edits")
TICKS = os.sysconf("SC_CLK_TCK")


def words_of(process):
    try:
        with open(f"/proc/{process}/cmdline", "rb") as file:
            return file.read().decode(errors="replace").split("\0")
    except OSError:
        return []


def kind_of(process, words):
    """The kind of check that the prover's process makes, by its words and its folder."""
    try:
        folder = os.readlink(f"/proc/{process}/cwd")
    except OSError:
        folder = ""
    if os.path.basename(folder).startswith("rt-edit"):
        return "edits"
    return "tests" if "--test" in words else "library"


def fields_of(process):
    """The numbers of /proc/PROCESS/stat from the state on, where the process is still there."""
    try:
        with open(f"/proc/{process}/stat", encoding="ascii", errors="replace") as file:
            return file.read().rpartition(")")[2].split()
    except OSError:
        return None


def is_gate(words):
    """Whether these are the words of an `rt ci`."""
    names = [os.path.basename(word) for word in words[:3]]
    return any(one == "rt" and other == "ci" for one, other in zip(names, names[1:]))


class Times:
    """The seconds of each process of the prover that was seen below a command, or below any `rt ci`, with its crate and kind."""

    def __init__(self, root=None):
        self.root, self.known, self.seconds = root, {}, {}

    def is_below(self, process, parents):
        while process in parents:
            if process == self.root or (self.root is None and is_gate(words_of(process))):
                return True
            process = parents[process]
        return False

    def look(self):
        fields = {it: fields_of(it) for it in filter(str.isdigit, os.listdir("/proc"))}
        parents = {it: found[1] for it, found in fields.items() if found}
        for process in parents:
            begun = (process, fields[process][19])
            if begun not in self.known:
                words = words_of(process)
                is_prover = words and os.path.basename(words[0]) == "rattle" and "--crate-name" in words
                if not is_prover or not self.is_below(process, parents):
                    continue
                self.known[begun] = (words[words.index("--crate-name") + 1], kind_of(process, words))
            seconds = sum(int(it) for it in fields[process][11:15]) / TICKS
            self.seconds[begun] = max(self.seconds.get(begun, 0.0), seconds)

    def table(self):
        rows = collections.defaultdict(lambda: dict.fromkeys(KINDS, 0.0))
        for begun, seconds in self.seconds.items():
            crate, kind = self.known[begun]
            rows[crate][kind] += seconds
        total = dict.fromkeys(KINDS, 0.0)
        lines = ["| Crate | " + " | ".join(KINDS) + " | all |", "|---|" + "---|" * (len(KINDS) + 1)]
        for crate, row in sorted(rows.items(), key=lambda it: -sum(it[1].values())):
            lines.append(f"| {crate} | " + " | ".join(f"{row[kind]:.0f}" for kind in KINDS) + f" | {sum(row.values()):.0f} |")
            for kind in KINDS:
                total[kind] += row[kind]
        lines.append("| in all | " + " | ".join(f"{total[kind]:.0f}" for kind in KINDS) + f" | {sum(total.values()):.0f} |")
        return "\n".join(lines)


def main():
    begin = time.monotonic()
    if sys.argv[1:] == ["--watch"]:
        times = Times()
        try:
            while True:
                for _ in range(60):
                    times.look()
                    time.sleep(1)
                print(times.table(), flush=True)
        except KeyboardInterrupt:
            return 0
    command = subprocess.Popen(sys.argv[1:] or ["rt", "ci"])
    times = Times(str(command.pid))
    while command.poll() is None:
        times.look()
        time.sleep(1)
    print(times.table())
    print(f"{time.monotonic() - begin:.0f} seconds by the clock on {os.cpu_count()} processors")
    return command.returncode


if __name__ == "__main__":
    sys.exit(main())
